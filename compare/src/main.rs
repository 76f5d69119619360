//! Compares the roll-up of `crates/capi` with the Rust original, over calls by chance, short inputs exhaustively, and single cases that need much memory.
//!
//!     compare [--seed N] [--calls N]      scripts by chance until so many calls were compared
//!     compare --short [3]                 each state, nested message and list of 0, 1 and 2 (and 3) bytes
//!     compare --large                     question 2; registers of p = 23 and 24
//!     compare --speed                     the tables of docs/PERFORMANCE.md

extern crate original;

#[path = "../vectors/cases.rs"]
mod cases;
#[cfg(forms)]
mod forms;
mod gen;
mod large;
mod lent;
#[path = "../original/lists.rs"]
mod lists;
#[path = "../original/model.rs"]
mod model;
mod readings;
mod run;
mod short;
mod speed;

use run::{run_guarded, smallest, Counts, Script};

/// A difference: its smallest script is printed, and the run ends.
pub fn found(script: &Script, name: &str, (call, what): (usize, String)) -> ! {
    println!("DIFFERENCE in {name}, call {call}: {what}");
    let (small, what) = smallest(script);
    println!("the smallest script: {what}\n{small}");
    std::process::exit(1);
}

fn by_chance(seed: u64, calls: u64) {
    println!("seed {seed}, until {calls} calls");
    let mut counts = Counts::new();
    readings::run(&mut counts);
    let mut number = 0;
    while counts.calls() < calls {
        let script = gen::Gen::new(seed, number).script();
        if let Err(e) = run_guarded(&script, &mut counts) {
            found(&script, &format!("script {number} of seed {seed}"), e);
        }
        number += 1;
    }
    counts.print();
    println!("no difference");
}

fn main() {
    let words: Vec<String> = std::env::args().skip(1).collect();
    let number = |name: &str| words.iter().position(|w| w == name).and_then(|i| words.get(i + 1)).map(|n| n.parse::<u64>().expect("a number"));
    let is = |name: &str| words.iter().any(|w| w == name);
    #[cfg(forms)]
    if is("--forms") {
        return forms::run();
    }
    if is("--speed") {
        speed::run();
    } else if is("--large") {
        large::run();
    } else if is("--short") {
        short::run(number("--short").unwrap_or(2) as usize);
    } else {
        by_chance(number("--seed").unwrap_or(1), number("--calls").unwrap_or(5_000_000));
    }
}
