//! What is easily missed, by name, with the answer that documents 01 and 02 give: these go before the scripts by chance.

use crate::cases::unhex;
use crate::gen::{dense, list, neither};
use crate::run::{run_guarded, Call, Counts, Script};
use original::Fields;

/// A state whose list has these bytes.
fn raw(pair: (i32, i32), bytes: &str) -> Vec<u8> {
    Fields { sparse_data: Some(unhex(bytes)), ..neither(pair) }.encode()
}

pub fn run(counts: &mut Counts) {
    let a = "08701002180220088207 0c 1002180a200f 320421e28004";
    let cut = |bytes: &str| raw((10, 15), bytes);
    let equal = |bytes: &str| raw((4, 4), bytes);
    let data = |pair: (i32, i32)| dense(pair, vec![0; 1 << pair.0]).encode();
    // What the states of each case are, and the answer to each.
    let cases: Vec<Vec<(Vec<u8>, u8)>> = vec![
        // A field is whole before it is opened; ten continuation bytes; nine and the end; the empty state.
        vec![(unhex("180282070507"), 3), (unhex("10ffffffffffffffffffff"), 4), (unhex("10ffffffffffffffffff"), 3), (vec![], 8)],
        // State A twice; bits above the 64th vanish, in a tag too.
        vec![(unhex(a), 0), (unhex(a), 0), (unhex("8880808080808080807e70 1002180220088207 0c 1002180a200f 320421e28004"), 0)],
        // 18 to 20 in order of bytes.
        vec![(cut("b3800480"), 20), (cut("80800280"), 18), (cut("808080800f80"), 18), (cut("808080800f"), 20), (cut("8080808010"), 19)],
        // 16 before 18: data beside a cut list, and beside an empty one.
        vec![
            (Fields { data: Some(vec![0; 16]), sparse_data: Some(vec![0x80]), ..neither((4, 9)) }.encode(), 16),
            (Fields { data: Some(vec![0; 16]), sparse_data: Some(vec![]), ..neither((4, 9)) }.encode(), 16),
        ],
        // An empty data field in a second nested message undoes an earlier one.
        vec![(unhex("0870 1002 1802 8207 16 18042009 2a10 00000000000000000000000000000000 8207 02 2a00 8207 05 3203 010203"), 0)],
        // Equal precisions: a plain value is 20 at the end of the list, m = 0 where it is read, whatever stands above the mark bit; no list, and one that has m = 1.
        vec![(equal("0180"), 18), (equal("800880"), 20), (equal("801880"), 20), (equal("8008"), 20), (equal("01"), 20), (equal(""), 0), (equal("8108"), 0)],
        // E9, and a marked value with m = 0 at registers.
        vec![(unhex("0870100118028207091001180a200a320101"), 20)],
        vec![(data((4, 5)), 0), (raw((5, 5), "8010"), 20), (raw((5, 5), "8110"), 0)],
        // The Difference: equal values; equal values in long spellings; two marked values of one index.
        vec![
            (unhex("08701014180282071c10141805200a32140400000000000000000001010101010101010101"), 0),
            (unhex("08701001180282070910011805200a320110"), 0),
        ],
        vec![
            (unhex("087010101802820722101018042009321a8100800080008000800080008000800080008000000000000000"), 0),
            (unhex("087010011802820709100118042009320102"), 0),
        ],
        vec![
            (unhex("08701012180282071b10121805200a3213010101010101010101010101010101b410027b"), 0),
            (unhex("08701001180282070a10011805200a3202c910"), 0),
        ],
        // A plain value whose low bits are zero, and a marked one of the same index.
        vec![(list((5, 10), &[32]).encode(), 0), (list((5, 10), &[2048 + 64 + 3]).encode(), 0)],
        // A state without list or data lowers p and s of registers, and is 16 at a list of another pair.
        vec![(data((6, 11)), 0), (neither((5, 7)).encode(), 0), (neither((24, 25)).encode(), 0)],
        vec![(list((6, 11), &[3]).encode(), 0), (neither((5, 7)).encode(), 16)],
        // s of registers is any number but 0, and the smaller one is that of signed numbers.
        vec![(dense((4, i32::MAX), vec![1; 16]).encode(), 0), (dense((4, -1), vec![1; 16]).encode(), 0), (dense((4, 0), vec![1; 16]).encode(), 16)],
    ];
    for case in cases {
        let mut script = Script { registers: 1027, kept: 60, waiting: 60, working: 60, set: None, calls: vec![Call::Write(64)] };
        let mut expected = counts.add;
        for (state, answer) in &case {
            script.calls.extend([Call::Add(state.clone()), Call::Near]);
            expected[*answer as usize] += 1;
        }
        if let Err(e) = run_guarded(&script, counts) {
            crate::found(&script, "the readings", e);
        }
        assert_eq!(counts.add, expected, "the answers to\n{script}");
    }
    // The ends of a fold: past the 23 bytes of the state, before the last one, and more than there are cells for answers; nothing is changed, at any head.
    let ends = [(vec![36], 1), (vec![24], 1), (vec![u64::MAX], 1), (vec![23, 22], 2), (vec![1, 0, 23], 3), (vec![u64::MAX, 0, 23], 3), (vec![0, 23], 1)];
    let bad = ends.map(|(ends, cells)| Call::Fold(unhex(a), ends, cells));
    let expected = counts.folds[2] + 2 * bad.len() as u64;
    let calls = [bad.to_vec(), vec![Call::Fold(unhex(a), vec![23, 23], 3)], bad.to_vec()].concat();
    let script = Script { registers: 1027, kept: 60, waiting: 60, working: 60, set: None, calls };
    if let Err(e) = run_guarded(&script, counts) {
        crate::found(&script, "the readings", e);
    }
    assert_eq!(counts.folds[2], expected, "the answers to\n{script}");
}
