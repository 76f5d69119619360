//! Each short input: states, nested messages and lists of up to 3 bytes.

use crate::cases::{marked, Pair};
use crate::gen::{dense, list};
use crate::lent::Side;
use crate::model::{Departure, Rollup};
use crate::run::{run_guarded, Call, Counts, Script};

/// A state whose outer fields are sound and that has this nested message.
fn nested(inner: &[u8]) -> Vec<u8> {
    [&[0x08, 0x70, 0x10, 0x01, 0x18, 0x02, 0x82, 0x07, inner.len() as u8], inner].concat()
}

/// A state at a pair, of which these are the list's bytes.
fn listed((p, s): Pair, bytes: &[u8]) -> Vec<u8> {
    nested(&[&[0x10, 0x01, 0x18, p as u8, 0x20, s as u8, 0x32, bytes.len() as u8], bytes].concat())
}

fn lent(calls: Vec<Call>) -> Script {
    Script { registers: 19, kept: 16, waiting: 16, working: 16, set: None, calls }
}

/// Every input of n bytes. Each goes to a copy of a roll-up to which `before` was added; what a state leaves is thrown away.
fn each(n: usize, before: &[Vec<u8>], what: &str, state: impl Fn(&[u8]) -> Vec<u8>) -> u64 {
    let setup = lent(before.iter().cloned().map(Call::Add).collect());
    let mut model = Rollup { registers: vec![crate::lent::BYTE; 19], kept: vec![crate::lent::CELL; 16], waiting: vec![crate::lent::CELL; 16], working: 16, ..Rollup::default() };
    let mut side = Side::new(12, 19, 16, 16, 16);
    for state in before {
        assert_eq!((model.add(state).0, side.add(state)), (0, 0));
    }
    let mut answers = [0u64; 24];
    let mut refused = 0;
    for i in 0..1u64 << (8 * n) {
        let bytes = state(&i.to_le_bytes()[..n]);
        // The answer alone is cheap: a refused state changes neither, and an accepted one is compared as a script.
        let mut after = side.clone();
        let answer = after.add(&bytes);
        let (expected, departure) = if answer == 0 { (0, Departure::None) } else { model.add(&bytes) };
        refused += u64::from(departure != Departure::None);
        let unchanged = answer == 0
            || after.head.get() == side.head.get()
                && after.registers.get() == side.registers.get()
                && after.sparse.get()[..model.kept().len()] == *model.kept()
                && after.guarded();
        if answer == 0 || answer != expected || !unchanged {
            let mut script = setup.clone();
            script.calls.push(Call::Add(bytes.clone()));
            script.calls.push(Call::Write(64));
            if let Err(e) = run_guarded(&script, &mut Counts::new()) {
                crate::found(&script, &format!("{what} of {n} bytes"), e);
            }
        }
        answers[answer as usize] += 1;
    }
    let total = answers.iter().sum();
    let shown: Vec<String> = answers.iter().enumerate().filter(|(_, n)| **n > 0).map(|(a, n)| format!("{a}: {n}")).collect();
    let departed = if refused == 0 { String::new() } else { format!("; {refused} refused as U3 asks, where the Rust says something else") };
    println!("{total:>10} {what} of {n} bytes, after {} states: {}{departed}", before.len(), shown.join(", "));
    total
}

pub fn run(most: usize) {
    let first = list((4, 9), &[3, 70]).encode();
    let registers = dense((4, 9), vec![1; 16]).encode();
    let mut total = 0;
    for n in 0..=most {
        for before in [vec![], vec![first.clone()], vec![first.clone(), registers.clone()]] {
            // Of three bytes, whole states and nested messages at a fresh roll-up, and lists at each.
            if n < 3 || before.is_empty() {
                total += each(n, &before, "states", <[u8]>::to_vec);
                total += each(n, &before, "nested messages", nested);
            }
            total += each(n, &before, "lists at (4,9)", |bytes| listed((4, 9), bytes));
        }
        let pair = (4, 4);
        let first = list(pair, &[marked(pair, 0, 61), marked(pair, 3, 1)]).encode();
        let registers = dense(pair, vec![1; 16]).encode();
        for before in [vec![], vec![first.clone()], vec![first, registers]] {
            total += each(n, &before, "lists at (4,4)", |bytes| listed(pair, bytes));
        }
    }
    println!("{total} inputs, no difference");
}
