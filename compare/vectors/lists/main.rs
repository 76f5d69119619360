//! Makes the cases of `crates/lists_cases` and what must be printed for each. The answers are those of the Rust original:
//! `encoding.rs` with `proto.rs` beside it, and three functions taken out of `accumulator.rs`. Which values and lists are valid is worked
//! out in `lists.rs` from documents 01 and 02, and the original says the same but where s = p. Where a document gives the
//! answer, it stands here as an expectation, and a difference stops the run.

mod cases;
#[allow(dead_code)]
mod encoding;
mod lists;
#[allow(dead_code)]
mod proto;
mod stand_in;

mod taken {
    use crate::encoding::Sparse;
    include!("taken.rs");

    pub fn sort(values: &mut [u32]) {
        sort_runs(values);
    }

    pub fn raise(registers: &mut [u8], enc: Sparse, v: u32) {
        set_register(registers, enc, v);
    }

    pub fn larger(target: &mut [u8], source: &[u8]) {
        max_into(target, source);
    }
}

use cases::{hex, least_m, mark, marked, text, unhex, Cases, Chance, Pair};
use encoding::{Normal, Sparse};
use stand_in::error::{self, Error};
use std::collections::BTreeSet;

/// Document 01's number for a message of the original.
fn number(e: &Error) -> u8 {
    match e {
        Error::CorruptSparseData("truncated varint") => 18,
        Error::CorruptSparseData("varint too long") => 19,
        Error::CorruptSparseData("value out of range") => 20,
        other => panic!("no number for {other:?}"),
    }
}

// ---- the answers: the original's, and where s = p those of documents 01 and 02 to what the original takes beside valid lists

fn original_list((p, s): Pair, bytes: &[u8]) -> Result<Vec<u32>, u8> {
    let mut out = Vec::new();
    encoding::decode_validated_into(bytes, Sparse::new(p, s), &mut out).map(|()| out).map_err(|e| number(&e))
}

fn decode_answer((p, s): Pair, bytes: &[u8]) -> String {
    let read = lists::decode((p, s), bytes);
    if read.is_ok() || s > p {
        assert_eq!(read, original_list((p, s), bytes), "{} at ({p},{s})", hex(bytes));
    }
    match read {
        Ok(list) => text(&list),
        Err(n) => format!("refused {n}"),
    }
}

fn is_valid((p, s): Pair, v: u32) -> bool {
    let valid = lists::is_valid((p, s), v);
    if valid || s > p {
        assert_eq!(valid, Sparse::new(p, s).is_valid(v), "{v} at ({p},{s})");
    }
    valid
}

fn value_answer((p, s): Pair, v: u32) -> String {
    let enc = Sparse::new(p, s);
    let valid = is_valid((p, s), v);
    let mut answer = format!("{} {}", u8::from(enc.is_rho_encoded(v)), u8::from(valid));
    if valid {
        answer += &format!(" {} {} {}", enc.decode_sparse_index(v), enc.decode_normal_index(v), enc.decode_normal_rho_w(v));
        for q in (4..p).rev() {
            let to = Normal { precision: q };
            answer += &format!(" {}:{}", enc.decode_and_downgrade_normal_index(v, to), enc.decode_and_downgrade_normal_rho_w(v, to));
        }
    }
    answer
}

fn merged((p, s): Pair, a: &[u32], b: &[u32]) -> (Vec<u32>, usize) {
    let mut out = Vec::new();
    let bytes = encoding::merge_dedupe_into(Sparse::new(p, s), a, b, &mut out);
    assert_eq!(bytes, encoding::encode_sparse(&out).len());
    (out, bytes)
}

/// Registers lowered from p to q and put into others of q, or of p where p is q.
fn larger_of(p: i32, q: i32, source: &[u8], target: &mut [u8]) {
    let (source, target) = (&source[..1 << p], &mut target[..1 << q]);
    if p == q {
        taken::larger(target, source);
    } else {
        encoding::downgrade_registers_max_into(source, p, target, q);
    }
}

/// All bytes, how many of the registers of precision p are not zero, and the largest.
fn registers_answer(p: i32, bytes: &[u8]) -> String {
    let registers = &bytes[..1 << p];
    let count = registers.iter().filter(|r| **r != 0).count();
    format!("{} {count} {}", hex(bytes), registers.iter().max().expect("a register"))
}

struct Made {
    all: Cases,
    chance: Chance,
}

impl Made {
    fn pair(&mut self) -> Pair {
        let p = 4 + self.chance.below(21) as i32;
        (p, p + self.chance.below((26 - p) as u64) as i32)
    }

    /// A valid value; indices below `few`, so that some meet, and low bits that are zero now and then.
    fn valid(&mut self, pair: Pair, few: u64) -> u32 {
        let (p, s) = pair;
        let v = if s == p || self.chance.below(2) == 0 {
            let index = self.chance.below(few.min(1 << p)) as u32;
            let index = if self.chance.below(2) == 0 { index } else { (1 << p) - 1 - index };
            let least = least_m(pair);
            marked(pair, index, least + self.chance.below((66 - s) as u64 - u64::from(least)) as u32)
        } else {
            let v = self.chance.below((few * 4).min(1 << s)) as u32;
            let v = if self.chance.below(3) == 0 { v } else { (1 << s) - 1 - v };
            if self.chance.below(3) == 0 { v >> (s - p) << (s - p) } else { v }
        };
        assert!(is_valid(pair, v), "{v} at {pair:?}");
        v
    }

    /// Valid values in order, repeats among them.
    fn list(&mut self, pair: Pair, n: u64, few: u64) -> Vec<u32> {
        let mut list: Vec<u32> = (0..n).map(|_| self.valid(pair, few)).collect();
        list.sort();
        list
    }

    fn registers(&mut self, p: i32, most: u64, often: u64) -> Vec<u8> {
        (0..1 << p).map(|_| if self.chance.below(often) == 0 { 1 + self.chance.below(most) as u8 } else { 0 }).collect()
    }

    fn value(&mut self, pair: Pair, v: u32) -> String {
        let answer = value_answer(pair, v);
        self.all.case("v", &format!("{} {} {v}", pair.0, pair.1), &answer);
        answer
    }

    fn decode(&mut self, pair: Pair, bytes: &[u8]) -> String {
        let answer = decode_answer(pair, bytes);
        self.all.case("d", &format!("{} {} {}", pair.0, pair.1, hex(bytes)), &answer);
        answer
    }

    /// A list's bytes in hexadecimal (blanks are dropped).
    fn d(&mut self, pair: Pair, text: &str) {
        self.decode(pair, &unhex(text));
    }

    /// A list whose answer a document gives.
    fn told(&mut self, pair: Pair, text: &str, answer: &str) {
        assert_eq!(self.decode(pair, &unhex(text)), answer, "{text}");
    }

    /// A list as the original writes it, or would write it: values that are not valid, too.
    fn decode_list(&mut self, pair: Pair, list: &[u32]) {
        self.decode(pair, &encoding::encode_sparse(list));
    }

    fn gap(&mut self, delta: u32) -> usize {
        let n = encoding::asked_gap_len(delta);
        self.all.case("g", &delta.to_string(), &n.to_string());
        n
    }

    fn encode(&mut self, list: &[u32]) -> String {
        let bytes = encoding::encode_sparse(list);
        let answer = format!("{} {}", bytes.len(), hex(&bytes));
        self.all.case("e", &text(list), &answer);
        answer
    }

    fn sort(&mut self, list: &[u32]) {
        let mut sorted = list.to_vec();
        taken::sort(&mut sorted);
        self.all.case("s", &text(list), &text(&sorted));
    }

    fn merge(&mut self, pair: Pair, a: &[u32], b: &[u32]) {
        let (list, bytes) = merged(pair, a, b);
        self.all.case("m", &format!("{} {} {} {}", pair.0, pair.1, text(a), text(b)), &format!("{} {bytes}", text(&list)));
    }

    /// Values inserted into what a merge of `union` left, whose byte count is larger than its written length by `surplus`.
    fn insert(&mut self, pair: Pair, union: &[u32], incoming: &[u32], surplus: usize) {
        let (mut list, mut bytes) = merged(pair, union, &[]);
        bytes += surplus;
        let operands = format!("{} {} {bytes} {} {}", pair.0, pair.1, text(&list), text(incoming));
        encoding::insert_dedupe(Sparse::new(pair.0, pair.1), &mut list, incoming, &mut bytes);
        assert_eq!(list, merged(pair, union, incoming).0);
        self.all.case("i", &operands, &format!("{} {bytes}", text(&list)));
    }

    /// How many sparse indices what a merge left has: the original's own count is private to its accumulator.
    fn count(&mut self, pair: Pair, list: &[u32]) {
        let (list, _) = merged(pair, list, &[]);
        let enc = Sparse::new(pair.0, pair.1);
        let indices: BTreeSet<u32> = list.iter().map(|v| enc.decode_sparse_index(*v)).collect();
        self.all.case("n", &format!("{} {} {}", pair.0, pair.1, text(&list)), &indices.len().to_string());
    }

    /// Listed values raise registers of precision q.
    fn set(&mut self, pair: Pair, q: i32, bytes: &[u8], list: &[u32]) -> String {
        let (p, s) = pair;
        let enc = Sparse::new(p, s);
        let operands = format!("{p} {s} {q} {} {}", hex(bytes), text(list));
        let mut bytes = bytes.to_vec();
        for v in list {
            if p == q {
                taken::raise(&mut bytes, enc, *v);
            } else {
                let to = Normal { precision: q };
                let (i, r) = (enc.decode_and_downgrade_normal_index(*v, to), enc.decode_and_downgrade_normal_rho_w(*v, to));
                bytes[i] = bytes[i].max(r);
            }
        }
        let answer = registers_answer(q, &bytes);
        self.all.case("r", &operands, &answer);
        answer
    }

    fn larger(&mut self, p: i32, q: i32, source: &[u8], target: &[u8]) {
        let mut after = target.to_vec();
        larger_of(p, q, source, &mut after);
        self.all.case("x", &format!("{p} {q} {} {}", hex(source), hex(target)), &registers_answer(q, &after));
    }

    /// Lowered where they lie: the freed registers are zero, and the bytes past all of them as they were.
    fn lower(&mut self, p: i32, q: i32, bytes: &[u8]) {
        let mut after = bytes.to_vec();
        if q < p {
            after[..1 << p].fill(0);
            larger_of(p, q, bytes, &mut after);
        }
        self.all.case("l", &format!("{p} {q} {}", hex(bytes)), &registers_answer(q, &after));
    }
}

// ---- cases

fn examples(made: &mut Made) {
    made.all.remark("Document 01, E1 to E4: 33 is register 1, rank 5; 65667 is register 2, rank 8, lowers to 1:9 and 0:1. E9 by document 02: plain 1 is a refused list");
    let e1 = made.value((10, 15), 33);
    assert!(e1.starts_with("0 1 33 1 5 "), "{e1}");
    let e2 = made.value((10, 15), 65667);
    assert!(e2.starts_with("1 1 64 2 8 1:9 0:1 "), "{e2}");
    // The original takes it, and gives it rank 64.
    assert_eq!(original_list((10, 10), &[1]), Ok(vec![1]));
    assert_eq!(Sparse::new(10, 10).decode_normal_rho_w(1), 64);
    assert_eq!(made.value((10, 10), 1), "0 0");
    made.told((10, 10), "01", "refused 20");
    made.all.remark("E5, E6, E8: the gap 65634, the lengths of 127 and 128, fifth bytes 0f and 10");
    assert_eq!(made.encode(&[33, 65667]), "4 21e28004");
    assert_eq!((made.gap(127), made.gap(128)), (1, 2));
    made.told((10, 15), "808080800f", "refused 20");
    made.told((10, 15), "8080808010", "refused 19");
    made.all.remark("What is refused where it is read, and what at the end");
    made.told((10, 15), "b3800480", "refused 20");
    made.told((10, 15), "80800280", "refused 18");
    made.told((10, 15), "808080800f80", "refused 18");
    made.told((10, 15), "21e28004", "33,65667");
}

fn values(made: &mut Made) {
    made.all.remark("A valid value for each pair of precisions");
    for p in 4..=24 {
        for s in p..=25 {
            let v = made.valid((p, s), 1 << 25);
            made.value((p, s), v);
        }
    }
    made.all.remark("The edges: of plain and marked values, of m, of the index, bits above the mark");
    for pair in [(10, 15), (10, 10), (24, 25)] {
        let (p, s) = pair;
        let m = mark(pair);
        let most = (65 - s) as u32;
        for v in [0, (1 << s) - 1, 1 << s, m - 1, m, m + most, m + most + 1, marked(pair, (1 << p) - 1, most), m + (64 << p), 2 * m + 1, 3 * m] {
            made.value(pair, v);
        }
    }
    made.value((4, 4), u32::MAX);
    made.value((24, 25), u32::MAX - (1 << 30));
    made.all.remark("Equal precisions: no value is plain, m is 1 to 65-s, and it is the rank. Bits above the mark, with the mark bit clear and set");
    for v in [0, 1, 2, 8, 15, 16, 1023, 1024, 1025, 1024 + 61, 1024 + 62, 1024 + 63, 1088, 1089, 1984, 1985, 2045, 2046, 2047, 2048, 2049, 3072, 3073] {
        made.value((4, 4), v);
    }
    for pair in [(5, 5), (10, 10), (24, 24)] {
        let (p, s) = pair;
        let (last, most) = ((1 << p) - 1, (65 - s) as u32);
        for (index, m) in [(0, 0), (0, 1), (6, 0), (6, 1), (7, 2), (last, 0), (last, 1), (last, most), (last, most + 1)] {
            let answer = made.value(pair, marked(pair, index, m));
            let rank = answer.split(' ').nth(4).map(|r| r.parse().expect("a rank"));
            assert_eq!(rank, if m == 0 || m > most { None } else { Some(m) });
        }
    }
    made.all.remark("Equal precisions, each p: plain 0, m of 0, 1, 65-s and 66-s");
    for p in 4..=24 {
        let most = 65 - p as u32;
        assert!(made.value((p, p), 0).starts_with("0 0"));
        for (m, valid) in [(0, false), (1, true), (most, true), (most + 1, false)] {
            assert!(made.value((p, p), marked((p, p), 0, m)).starts_with(if valid { "1 1 " } else { "1 0" }));
        }
    }
    made.all.remark("The neighbours, where s is p+1: 0, plain values and m = 0 are valid");
    for pair in [(4, 5), (10, 11), (24, 25)] {
        for v in [0, 1, (1 << pair.1) - 1, mark(pair), marked(pair, 1, 0)] {
            assert!(made.value(pair, v).starts_with(if v < mark(pair) { "0 1 " } else { "1 1 " }));
        }
    }
}

fn decoding(made: &mut Made) {
    let pair = (10, 15);
    made.all.remark("Lists of values by chance");
    for n in 0..22 {
        let pair = made.pair();
        let list = made.list(pair, n % 9, 1 << (2 + n));
        made.decode_list(pair, &list);
    }
    made.all.remark("Repeats, zero gaps, longer spellings; several marked values of one index; a plain and a marked value of one index");
    for text in ["", "00", "0000", "210000", "a100", "a1808000", "a180808000", "8080808000", "21e2808400", "8080808000 21", "8080048000 80808000"] {
        made.d(pair, text);
    }
    for list in [vec![marked(pair, 3, 0), marked(pair, 3, 0), marked(pair, 3, 7), marked(pair, 3, 50)], vec![96, marked(pair, 3, 7)], vec![5, 5, 5, 32767, marked(pair, 1023, 50)]] {
        made.decode_list(pair, &list);
    }
    made.all.remark("Each front of a list, cut gaps");
    let list = encoding::encode_sparse(&[33, 300, 32767, marked(pair, 600, 4)]);
    for n in 0..list.len() {
        made.decode(pair, &list[..n]);
    }
    for text in ["80", "ff", "8080", "808080", "80808080", "ffffffff", "0080", "2180808080"] {
        made.d(pair, text);
    }
    made.all.remark("Fifth bytes");
    for fifth in ["00", "01", "07", "08", "0f", "10", "1f", "20", "40", "7f", "80", "8f", "ff"] {
        made.d(pair, &format!("80808080{fifth}"));
    }
    for fifth in ["00", "0f", "10", "80"] {
        made.d(pair, &format!("8080808000 81808080{fifth} 00"));
    }
    made.all.remark("Sums that wrap, alone, before a cut gap, before a gap that is too long; and the same gaps without the wrap");
    for text in ["8080808008 8080808008", "8080808008 8080808008 80", "8080808008 ffffffff0f", "8080808008 8080808008 8080808010", "8080808008 80", "8080808008 8080808010", "ffffffff0f 01", "0f f1ffffff0f"] {
        made.d(pair, text);
    }
    made.all.remark("Past the range: an index of s bits or more below the mark, one of p bits or more above it, m, bits above the mark; then something valid, or cut");
    for pair in [(10, 15), (4, 4), (4, 25), (24, 24), (24, 25)] {
        let (p, s) = pair;
        let m = mark(pair);
        let top = marked(pair, (1 << p) - 1, (65 - s) as u32);
        for list in [vec![(1 << s) - 1, m, top], vec![1 << s, top], vec![top + 1], vec![m + (64 << p)], vec![2 * m], vec![2 * m, 3 * m]] {
            made.decode_list(pair, &list);
        }
        made.decode(pair, &[encoding::encode_sparse(&[2 * m]), vec![0x80]].concat());
    }
    made.all.remark("Each bit of a list turned over");
    for at in 0..4 {
        for bit in 0..8 {
            let mut bytes = unhex("21e28004");
            bytes[at] ^= 1 << bit;
            made.decode(pair, &bytes);
        }
    }
    made.all.remark("Bytes by chance");
    for n in 0..18 {
        let pair = made.pair();
        let bytes: Vec<u8> = (0..1 + n / 3).map(|_| if made.chance.below(2) == 0 { made.chance.byte() } else { made.chance.byte() & 0x7f }).collect();
        made.decode(pair, &bytes);
    }
}

/// A fault that a list with s = p can have.
#[derive(Clone, Copy, PartialEq, Debug)]
enum Fault {
    /// A plain value.
    Plain,
    /// A marked value with m = 0.
    Zero,
    /// A marked value with m above 65-s.
    Above,
    /// A value with a bit above the mark, the mark bit clear.
    Past,
    /// The same with the mark bit set, and an m that is in range.
    PastMarked,
    /// A sum below the last one.
    Descends,
    /// A gap that the list's end cuts off.
    Cut,
    /// A gap whose fifth byte has a bit of f0.
    Long,
}

const FAULTS: [Fault; 8] = [Fault::Plain, Fault::Zero, Fault::Above, Fault::Past, Fault::PastMarked, Fault::Descends, Fault::Cut, Fault::Long];

/// The bytes of a gap.
fn gap(v: u32) -> Vec<u8> {
    encoding::encode_sparse(&[v])
}

impl Fault {
    /// The bytes of the fault behind the value `last`, and the value that they lead to. None where no bytes have it.
    fn bytes(self, pair: Pair, last: u32) -> Option<(Vec<u8>, u32)> {
        // The next marked value with m = 0, with a bit above the mark where the last value has one.
        let next = (if last < 2 * mark(pair) { 1 } else { 3 }) * mark(pair) + 64 + last % mark(pair) / 64 * 64;
        let v = match self {
            Fault::Plain => last + 1,
            Fault::Zero => next,
            Fault::Above => next + (66 - pair.1) as u32,
            Fault::Past => 2 * mark(pair) + 1,
            Fault::PastMarked => 3 * mark(pair) + 1,
            Fault::Descends => return Some((gap(u32::MAX), last.checked_sub(1)?)),
            Fault::Cut => return Some((vec![0x80, 0x80], last)),
            Fault::Long => return Some((unhex("8080808010"), last)),
        };
        let follows = v >= last && (self != Fault::Plain || v < 1 << pair.1);
        follows.then(|| (gap(v - last), v))
    }

    /// Its number, and whether it is given where it is read.
    fn number(self) -> (u8, bool) {
        match self {
            Fault::Plain | Fault::Past | Fault::PastMarked => (20, false),
            Fault::Zero | Fault::Above | Fault::Descends => (20, true),
            Fault::Cut => (18, true),
            Fault::Long => (19, true),
        }
    }
}

/// The answer to a list with these faults: the first that is refused where it is read, else 20 at the end.
fn first_of(faults: &[Fault]) -> u8 {
    faults.iter().map(|f| f.number()).find(|(_, here)| *here).map_or(20, |(n, _)| n)
}

fn equal_precisions(made: &mut Made) {
    made.all.remark("Equal precisions (document 02, U3): each fault as the only value, before a valid one, after one, between two");
    for pair in [(4, 4), (5, 5), (10, 10), (24, 24)] {
        let (first, second) = (marked(pair, 0, 1), marked(pair, (1 << pair.0) - 1, (65 - pair.1) as u32));
        for fault in FAULTS {
            for (before, after) in [(false, false), (false, true), (true, false), (true, true)] {
                let last = if before { first } else { 0 };
                let Some((bytes, v)) = fault.bytes(pair, last) else { continue };
                // A valid value follows where it is no smaller; what stands behind a cut gap would be part of it.
                if after && (v > second || fault == Fault::Cut) {
                    continue;
                }
                let list = [if before { gap(first) } else { vec![] }, bytes, if after { gap(second - v) } else { vec![] }].concat();
                made.told(pair, &hex(&list), &format!("refused {}", fault.number().0));
            }
        }
    }
    made.all.remark("Equal precisions: a sum that wraps to a smaller valid value, alone and before a cut gap");
    made.told((4, 4), "8208 ffffffff0f", "refused 20");
    made.told((4, 4), "8208 ffffffff0f 80", "refused 20");
    made.all.remark("Two faults, each with each and in both orders, alone and behind a valid value: 18, 19 and what the mark bit decides come where they are read, a plain value at the end");
    for pair in [(4, 4), (10, 10)] {
        for start in [0, marked(pair, 0, 1)] {
            for one in FAULTS {
                for two in FAULTS {
                    let Some((bytes, v)) = one.bytes(pair, start) else { continue };
                    let Some((more, _)) = two.bytes(pair, v) else { continue };
                    // A cut gap takes what follows into itself.
                    if one == Fault::Cut {
                        continue;
                    }
                    let list = [if start == 0 { vec![] } else { gap(start) }, bytes, more].concat();
                    made.told(pair, &hex(&list), &format!("refused {}", first_of(&[one, two])));
                }
            }
        }
    }
    made.all.remark("Plain 0 as a gap of 0, alone and repeated, before a marked value, and before a cut gap; long spellings of it");
    for (list, answer) in [("00", "refused 20"), ("0000", "refused 20"), ("00 8108", "refused 20"), ("00 80", "refused 18"), ("8000", "refused 20"), ("8080808000", "refused 20"), ("0f", "refused 20"), ("10", "refused 20"), ("ff07", "refused 20")] {
        made.told((4, 4), list, answer);
    }
    made.all.remark("m = 0 with bits above the mark: where the mark bit is set it is refused where it is read, else at the end");
    for (list, answer) in [("0180", "refused 18"), ("800880", "refused 20"), ("801880", "refused 20"), ("801080", "refused 18"), ("811880", "refused 18"), ("be1880", "refused 20"), ("8018", "refused 20"), ("8118", "refused 20"), ("8010", "refused 20")] {
        made.told((4, 4), list, answer);
    }
    made.all.remark("Valid lists: no value, m at both ends, every index, repeats and zero gaps, several m of one index, long spellings");
    made.told((4, 4), "", ".");
    made.told((4, 4), "8108", "1025");
    made.told((4, 4), "bd08", "1085");
    made.told((4, 4), "fd0f", "2045");
    made.told((4, 4), "818880808000", "refused 19");
    made.told((4, 4), "8188808000 00 01 8000 be00", "refused 20");
    made.told((4, 4), "8188808000 00 01 8000 bf80808000", "1025,1025,1026,1026,1089");
    for pair in [(4, 4), (5, 5), (10, 10), (24, 24)] {
        let (last, most) = ((1 << pair.0) - 1, (65 - pair.1) as u32);
        for list in [vec![(0, 1), (last, most)], vec![(3, 1), (3, 1), (3, 7), (3, most), (4, 1)], vec![(last, 1), (last, most), (last, most)]] {
            let list: Vec<u32> = list.into_iter().map(|(i, m)| marked(pair, i, m)).collect();
            made.told(pair, &hex(&encoding::encode_sparse(&list)), &text(&list));
        }
    }
    made.decode_list((4, 4), &(0..16).map(|i| marked((4, 4), i, 1 + 4 * i)).collect::<Vec<_>>());
    made.all.remark("Each front of a valid list; each bit of one turned over");
    let list = encoding::encode_sparse(&[marked((4, 4), 0, 1), marked((4, 4), 9, 61)]);
    for n in 0..list.len() {
        made.decode((4, 4), &list[..n]);
    }
    for at in 0..list.len() {
        for bit in 0..8 {
            let mut bytes = list.clone();
            bytes[at] ^= 1 << bit;
            made.decode((4, 4), &bytes);
        }
    }
    made.all.remark("The same lists where s is p+1: plain values and m = 0 are read");
    for pair in [(4, 5), (10, 11), (24, 25)] {
        let m = |i, m| marked(pair, i, m);
        for list in [vec![0], vec![1], vec![0, 0, 1], vec![m(0, 0)], vec![1, m(1, 0), m(1, 1)], vec![(1 << pair.1) - 1, m((1 << pair.0) - 1, (65 - pair.1) as u32)]] {
            made.told(pair, &hex(&encoding::encode_sparse(&list)), &text(&list));
        }
        for (list, answer) in [(vec![1], 18), (vec![m(0, 0)], 18), (vec![m(0, (66 - pair.1) as u32)], 20), (vec![3 * mark(pair)], 18)] {
            made.told(pair, &hex(&[encoding::encode_sparse(&list), vec![0x80]].concat()), &format!("refused {answer}"));
        }
    }
}

fn writing(made: &mut Made) {
    made.all.remark("The first and the last gap of each length");
    for delta in [0, 1, 16383, 16384, 2097151, 2097152, 268435455, 268435456, u32::MAX] {
        made.gap(delta);
    }
    for list in [vec![], vec![0], vec![0, 0, 0], vec![127, 255, 16638, 33022, 2130173, 4227325, 272662780, 541098236], vec![u32::MAX], vec![7, u32::MAX, u32::MAX]] {
        made.encode(&list);
    }
    made.all.remark("Lists by chance");
    for n in 0..12 {
        let pair = made.pair();
        let list = made.list(pair, 4 + n, 1 << (2 * n));
        made.encode(&list);
    }
}

fn sorting(made: &mut Made) {
    made.all.remark("Sorting: none, one, two, equal ones, the largest; short lists and long ones around the length from which runs are merged; in order, backwards, two runs");
    for list in [vec![], vec![7], vec![1, 2], vec![2, 1], vec![5, 5, 5, 5], vec![u32::MAX, 0, u32::MAX, 1 << 31]] {
        made.sort(&list);
    }
    for n in [5, 23, 24, 25, 47, 48, 50, 97] {
        let list: Vec<u32> = (0..n).map(|_| made.chance.below(1000) as u32).collect();
        made.sort(&list);
    }
    for n in [24, 60] {
        made.sort(&(0..n).collect::<Vec<_>>());
        made.sort(&(0..n).rev().collect::<Vec<_>>());
        made.sort(&(0..n).map(|i| i % (n / 2) * 3 + i / (n / 2)).collect::<Vec<_>>());
        made.sort(&(0..n).map(|i| i % 3).collect::<Vec<_>>());
    }
}

fn merging(made: &mut Made) {
    let pair = (10, 15);
    let m = |index, m| marked(pair, index, m);
    let sets = [
        (vec![], vec![]),
        (vec![0], vec![]),
        (vec![], vec![0, 0]),
        (vec![1, 3, 5], vec![2, 4, 6]),
        (vec![1, 2, 3], vec![1, 2, 3]),
        (vec![1, 1, 2, 2], vec![2, 3, 3]),
        (vec![1, 2, 3], vec![m(1, 0), m(2, 5)]),
        (vec![m(1, 1), m(1, 9), m(2, 0)], vec![m(1, 5), m(1, 9), m(2, 50)]),
        (vec![32, m(1, 4)], vec![32, 64, m(1, 3), m(2, 2)]),
        (vec![m(0, 0), m(1023, 50)], vec![0, 32767]),
        (vec![32767], vec![m(0, 0)]),
    ];
    made.all.remark("Merging: none, interleaved, equal, repeats; several marked values of one index, a plain and a marked value of one index");
    for (a, b) in &sets {
        made.merge(pair, a, b);
        if a != b {
            made.merge(pair, b, a);
        }
    }
    let p10 = |index, m| marked((10, 10), index, m);
    made.merge((10, 10), &[p10(0, 7), p10(1, 1)], &[p10(0, 7), p10(1, 55), p10(2, 1)]);
    made.all.remark("Lists by chance: of few indices, then of many");
    for n in 0..24 {
        let pair = made.pair();
        let few = if n < 16 { 3 } else { 1 << 25 };
        let a = made.list(pair, n % 8, few);
        let b = made.list(pair, (n + 3) % 7, few);
        made.merge(pair, &a, &b);
    }
    for few in [8, 40] {
        let (a, b) = (made.list((6, 9), 50, few), made.list((6, 9), 40, few));
        made.merge((6, 9), &a, &b);
    }
    made.all.remark("Inserting into what a merge left: the same lists, the byte count that of the list or more");
    for (i, (a, b)) in sets.iter().enumerate() {
        made.insert(pair, a, b, i % 3);
        made.insert(pair, b, a, 0);
    }
    made.insert(pair, &[m(1, 0), m(1, 62 - 15), m(2, 0)], &[m(1, 48)], 0);
    made.insert(pair, &[100, 300, 16683], &[172, 173], 0);
    made.insert((10, 10), &[p10(0, 7), p10(1, 1), p10(3, 1)], &[p10(0, 2), p10(0, 7), p10(1, 55), p10(2, 1)], 1000);
    for n in 0..20 {
        let pair = made.pair();
        let few = if n < 14 { 3 } else { 1 << 25 };
        let a = made.list(pair, 2 + n % 9, few);
        let b = made.list(pair, (n + 3) % 5, few);
        made.insert(pair, &a, &b, n as usize % 4 * 5);
    }
    let (a, b) = (made.list((6, 9), 60, 30), made.list((6, 9), 20, 30));
    made.insert((6, 9), &a, &b, 0);
    made.all.remark("Distinct sparse indices of what a merge left: a plain and a marked value of one index count once");
    for (a, b) in &sets {
        made.count(pair, &merged(pair, a, b).0);
    }
    made.count((10, 10), &[p10(1, 1), p10(1, 9), p10(2, 55), p10(3, 1)]);
    for n in 0..14 {
        let pair = if n % 2 == 0 { (4 + n as i32 % 3, 6) } else { made.pair() };
        let list = made.list(pair, 3 + n, 4);
        made.count(pair, &list);
    }
}

fn registers(made: &mut Made) {
    made.all.remark("Registers of a list: none, the register of 0, a larger one that stays, a byte past them that stays");
    made.set((4, 9), 4, &[0; 16], &[]);
    made.set((4, 9), 4, &[0; 16], &[0]);
    made.set((4, 9), 4, &[9; 16], &[0, 33, 511, marked((4, 9), 1, 56), marked((4, 9), 15, 0)]);
    made.set((4, 9), 4, &[3; 17], &[511, marked((4, 9), 15, 56)]);
    made.all.remark("Equal precisions: the rank is m, and one bit lower it is m+1 at an even index, 1 at an odd one");
    let p5 = |index, m| marked((5, 5), index, m);
    assert!(made.set((5, 5), 5, &[0; 32], &[p5(0, 1)]).ends_with(" 1 1"));
    assert!(made.set((5, 5), 4, &[0; 16], &[p5(0, 1)]).ends_with(" 1 2"));
    assert!(made.set((5, 5), 5, &[0; 32], &[p5(31, 60)]).ends_with(" 1 60"));
    assert!(made.set((5, 5), 4, &[0; 16], &[p5(31, 60)]).ends_with(" 1 1"));
    assert!(made.set((5, 5), 4, &[0; 16], &[p5(30, 60)]).ends_with(" 1 61"));
    made.set((4, 4), 4, &[9; 17], &[marked((4, 4), 0, 1), marked((4, 4), 7, 10), marked((4, 4), 15, 61)]);
    made.set((24, 24), 4, &[0; 16], &[marked((24, 24), 0, 1), marked((24, 24), 3 << 20, 41), marked((24, 24), (1 << 24) - 1, 41)]);
    made.all.remark("Lists by chance, at their own precision and lower");
    for p in 4..=24 {
        let pair = (p, p + made.chance.below((26 - p) as u64) as i32);
        for q in if p < 7 { 4..=p } else { 4 + p % 2..=4 + p % 2 } {
            let list = made.list(pair, 6, 1 << 25);
            let start = if p % 2 == 0 { vec![0; 1 << q] } else { made.registers(q, 12, 3) };
            made.set(pair, q, &start, &list);
        }
    }
    made.all.remark("The larger registers: at one precision, then lowered, the source's or the target's bytes being more");
    for p in [4, 5, 6] {
        let (a, b) = (made.registers(p, 60, 2), made.registers(p, 60, 2));
        made.larger(p, p, &a, &b);
    }
    made.larger(4, 4, &[255; 16], &[0; 17]);
    for (p, q) in [(5, 4), (6, 5), (6, 4), (7, 4), (8, 4), (5, 3), (4, 0)] {
        for often in [1, 4, 40] {
            let (a, b) = (made.registers(p, (65 - p) as u64, often), made.registers(q, 8, 4));
            made.larger(p, q, &a, &b);
        }
    }
    made.larger(5, 4, &[254; 33], &[7; 18]);
    made.larger(6, 4, &[0; 64], &[0; 16]);
    made.all.remark("Lowered where they lie");
    for (p, q) in [(4, 4), (5, 4), (6, 5), (6, 4), (7, 4), (5, 3), (4, 0)] {
        for often in [1, 4, 30] {
            let a = made.registers(p, (65 - p) as u64, often);
            made.lower(p, q, &a);
        }
    }
    for offset in 0..8 {
        let mut a = vec![0; 33];
        a[16 + offset] = 5;
        a[32] = 77;
        made.lower(5, 2 + offset as i32 % 3, &a);
    }
}

fn main() {
    let mut made = Made { all: Cases::default(), chance: Chance(0x9abe_68bf_8701_5eed) };
    examples(&mut made);
    values(&mut made);
    decoding(&mut made);
    equal_precisions(&mut made);
    writing(&mut made);
    sorting(&mut made);
    merging(&mut made);
    registers(&mut made);
    made.all.write(65536);
}
