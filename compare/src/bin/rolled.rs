//! Rolls up a batch with the Rust's accumulator, by `add_bytes`: reads standard input and prints what the program `roll` prints, but the registers that are not
//! zero and the numbers of refusals. For timing beside `roll`; it takes the batch to be whole.

extern crate original;

use original::Accumulator;
use std::fmt::Write as _;
use std::io::{Read, Write};

fn main() {
    let mut batch = Vec::new();
    std::io::stdin().read_to_end(&mut batch).expect("a batch");
    let word = |at: usize| u32::from_le_bytes(batch[at..at + 4].try_into().expect("four bytes")) as usize;
    let mut roll_up = Accumulator::new();
    let mut text = String::new();
    let (mut at, mut ordinal) = (word(0), 0);
    while at != 0 {
        ordinal += 1;
        let end = at + 8 + word(at + 4);
        let refused = roll_up.add_bytes(&batch[at + 8..end]).is_err();
        writeln!(text, "{ordinal} {}", u8::from(refused)).expect("a string");
        at = word(at);
    }
    let (p, s) = roll_up.precisions().unwrap_or((0, 0));
    writeln!(text, "{p} {s} {}", roll_up.num_values()).expect("a string");
    for b in roll_up.serialize().unwrap_or_default() {
        write!(text, "{b:02x}").expect("a string");
    }
    text.push('\n');
    std::io::stdout().write_all(text.as_bytes()).expect("output");
}
