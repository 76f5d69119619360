//! What the makers of vectors share: values, numbers by chance, and cases with their answers.
#![allow(dead_code)]

use std::collections::BTreeMap;

pub fn hex(bytes: &[u8]) -> String {
    bytes.iter().map(|b| format!("{b:02x}")).collect()
}

pub fn unhex(text: &str) -> Vec<u8> {
    let text: String = text.chars().filter(|c| *c != ' ').collect();
    assert!(text.len() % 2 == 0, "{text}");
    (0..text.len())
        .step_by(2)
        .map(|i| u8::from_str_radix(&text[i..i + 2], 16).expect("hexadecimal"))
        .collect()
}

/// A list in a case or an answer.
pub fn text(list: &[u32]) -> String {
    if list.is_empty() {
        return ".".to_string();
    }
    list.iter().map(u32::to_string).collect::<Vec<_>>().join(",")
}

/// Numbers by chance, the same in each run.
pub struct Chance(pub u64);

impl Chance {
    /// A number below n (xorshift, Marsaglia 2003).
    pub fn below(&mut self, n: u64) -> u64 {
        self.0 ^= self.0 << 13;
        self.0 ^= self.0 >> 7;
        self.0 ^= self.0 << 17;
        (self.0 >> 11) % n
    }

    pub fn byte(&mut self) -> u8 {
        self.below(256) as u8
    }
}

/// The precisions p and s.
pub type Pair = (i32, i32);

pub fn mark((p, s): Pair) -> u32 {
    1 << s.max(p + 6)
}

/// The least m of a marked value. Document 02, U3: "With s = p, a plain value and a marked value with m = 0 now get 20."
pub fn least_m((p, s): Pair) -> u32 {
    u32::from(s == p)
}

/// The marked value of an index and an m.
pub fn marked(pair: Pair, index: u32, m: u32) -> u32 {
    mark(pair) + 64 * index + m
}

/// Cases and what must be printed for each, a line each.
#[derive(Default)]
pub struct Cases {
    cases: String,
    answers: String,
    counts: BTreeMap<String, usize>,
}

impl Cases {
    /// A remark, which stands in both files.
    pub fn remark(&mut self, text: &str) {
        self.cases += &format!("# {text}\n");
        self.answers += &format!("# {text}\n");
    }

    pub fn case(&mut self, kind: &str, operands: &str, answer: &str) {
        let class = match answer.strip_prefix("refused ") {
            Some(n) => format!("{kind} refused {n}"),
            None => format!("{kind} answered"),
        };
        self.counted(kind, operands, answer, class);
    }

    /// A case that is counted as one of a class.
    pub fn counted(&mut self, kind: &str, operands: &str, answer: &str, class: String) {
        self.line(format!("{kind} {operands}").trim_end(), answer, class);
    }

    /// The same, as the line that it is.
    pub fn line(&mut self, line: &str, answer: &str, class: String) {
        self.cases += line;
        self.cases += "\n";
        self.answers += answer;
        self.answers += "\n";
        *self.counts.entry(class).or_default() += 1;
    }

    /// Writes the two files that the program's arguments name, and prints how many cases of each kind there are. The program reads
    /// fewer than `most` bytes.
    pub fn write(&self, most: usize) {
        let mut files = std::env::args().skip(1);
        let (Some(cases), Some(answers), None) = (files.next(), files.next(), files.next()) else {
            panic!("two files to write: the cases and the answers");
        };
        assert!(self.cases.len() < most, "the program reads fewer than {most} bytes, not {}", self.cases.len());
        std::fs::write(cases, &self.cases).expect("the cases are written");
        std::fs::write(answers, &self.answers).expect("the answers are written");
        for (class, n) in &self.counts {
            println!("{n:5} {class}");
        }
        println!("{:5} in all, {} bytes", self.counts.values().sum::<usize>(), self.cases.len());
    }
}
