//! Single cases that need much memory: question 2, and registers of p = 23 and 24.

use crate::gen::{dense, list, neither};
use crate::cases::marked;
use crate::run::{run_guarded, Call, Counts, Script};

/// A sound state of exactly this many bytes: a field that is skipped stands before the rest.
fn of_size(size: usize) -> Vec<u8> {
    let rest = list((4, 9), &[3, 70]).encode();
    // A tag of one byte and a length of five.
    let skipped = size - 6 - rest.len();
    let mut out = vec![0u8; size];
    out[0] = 0x7a;
    for i in 0..5 {
        out[1 + i] = (skipped >> (7 * i)) as u8 & 127 | if i < 4 { 128 } else { 0 };
    }
    out[size - rest.len()..].copy_from_slice(&rest);
    out
}

fn registers(p: i32, step: usize, first: usize) -> Vec<u8> {
    let mut out = vec![0; 1 << p];
    for i in (first..1 << p).step_by(step) {
        out[i] = 1 + (i / step % (65 - p as usize)) as u8;
    }
    out
}

fn compare(name: &str, script: &Script, answers: &[(u8, u64)]) {
    let mut counts = Counts::new();
    if let Err((call, what)) = run_guarded(script, &mut counts) {
        println!("DIFFERENCE in {name}, call {call}: {what}");
        std::process::exit(1);
    }
    for (answer, n) in answers {
        assert_eq!(counts.add[*answer as usize], *n, "{name}: answers {answer}");
    }
    println!("{name}: {} calls, no difference", counts.calls());
}

pub fn run() {
    let most = 2147483647;
    let small = |calls| Script { registers: 19, kept: 16, waiting: 16, working: 16, set: None, calls };
    compare("question 2: a state of 2147483647 bytes is accepted", &small(vec![Call::Add(of_size(most)), Call::Write(64)]), &[(0, 1)]);
    compare("question 2: one of 2147483648 bytes is not", &small(vec![Call::Add(of_size(most + 1)), Call::Write(64)]), &[(2, 1)]);
    compare("question 2: zeros are read, 5", &small(vec![Call::Add(vec![0; most])]), &[(5, 1)]);
    compare("question 2: zeros are not read", &small(vec![Call::Add(vec![0; most + 1])]), &[(2, 1)]);
    for p in [23, 24] {
        let pair = (p, 25);
        let lent = |calls| Script { registers: (1 << p) + 5, kept: 4000, waiting: 4000, working: 4000, set: None, calls };
        let values: Vec<u32> = (0..300).map(|i| i * 99991).chain((0..40).map(|i| marked(pair, i * 200_003, i))).collect();
        let values = list(pair, &values).encode();
        let out = Call::Write((1 << p) + 64);
        compare(
            &format!("registers of p = {p}: first, with registers, with a list, written, lowered"),
            &lent(vec![
                Call::Add(dense(pair, registers(p, 7, 0)).encode()),
                Call::Add(dense(pair, registers(p, 11, 3)).encode()),
                Call::Add(values.clone()),
                out.clone(),
                Call::Write((1 << p) - 1),
                Call::Add(neither((p, 25)).encode()),
                Call::Add(dense((p - 1, 24), registers(p - 1, 5, 1)).encode()),
                Call::Add(values.clone()),
                Call::Add(dense(pair, registers(p, 13, 2)).encode()),
                out.clone(),
                Call::Add(dense((10, 15), registers(10, 3, 1)).encode()),
                Call::Add(dense(pair, registers(p, 1001, 0)).encode()),
                Call::Add(values.clone()),
                out.clone(),
            ]),
            &[(0, 10)],
        );
        compare(
            &format!("lists of p = {p}: first, one that waits, registers onto them, written"),
            &lent(vec![
                Call::Add(values.clone()),
                Call::Add(list(pair, &[5, 7, 1 << 24]).encode()),
                out.clone(),
                Call::Add(dense(pair, registers(p, 17, 1)).encode()),
                out,
            ]),
            &[(0, 3)],
        );
        let equal = (p, p);
        let some: Vec<u32> = (0..40).map(|i| marked(equal, i * 200_003, 1 + i)).collect();
        let largest = marked(equal, (1 << p) - 1, (65 - p) as u32);
        compare(
            &format!("lists of p = s = {p}: first, one that waits, refused ones, registers onto them, written"),
            &lent(vec![
                Call::Add(list(equal, &some).encode()),
                Call::Add(list(equal, &[largest]).encode()),
                Call::Add(list(equal, &[1]).encode()),
                Call::Add(list(equal, &[marked(equal, 7, 0)]).encode()),
                Call::Add(list(equal, &[largest + 1]).encode()),
                Call::Write(400),
                Call::Add(dense(equal, registers(p, 17, 1)).encode()),
                Call::Add(list(equal, &[(1 << p) - 1]).encode()),
                Call::Write((1 << p) + 64),
            ]),
            &[(0, 3), (20, 4)],
        );
        let short = Script { registers: (1 << p) - 1, ..lent(vec![Call::Add(values.clone()), Call::Add(dense(pair, registers(p, 7, 0)).encode())]) };
        compare(&format!("one register byte too few at p = {p}"), &short, &[(17, 2)]);
    }
}
