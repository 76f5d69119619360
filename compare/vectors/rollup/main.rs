//! Makes the cases of `crates/rollup_cases` and what must be printed for each: sequences of calls. The answers, heads, lists and registers are
//! those of the Rust original (`compare/original`), and so are the written states. What it has no counterpart of is worked out in `model.rs` from documents
//! 01 and 02: questions 1, 17, 21, 22 and 23, lent memory, the kept bytes of a dense head, the merge that "Difference" asks for, and the lists with s = p that U3 refuses. Where a document gives
//! an answer, it stands here as an expectation, and another answer stops the run.

mod cases;
mod lists;
mod model;
mod states;

use cases::{hex, mark, marked, text, unhex, Cases, Chance, Pair};
use model::{limit, Departure, Head, Rollup, DENSE, SPARSE, UNSTARTED};
use original::Fields;
use states::{damaged, dense, edge_values, equal_lists, list, neither, raw, registers, some_list, some_pair, some_registers, spelled, upto};

/// What lent memory is filled with.
const REGISTER: u8 = 165;
const CELL: u32 = 2779096485;

impl Rollup {
    fn memory(&self) -> String {
        let mut waiting = self.waiting().to_vec();
        waiting.sort();
        format!("{} {} {}", text(self.kept()), text(&waiting), runs(&self.registers))
    }

    fn answer(&self, answer: u8) -> String {
        let h = &self.head;
        format!(
            "{answer} {} {} {} {} {} {} {} {} {} {} {}",
            h.form, h.allowed, h.value_type, h.num_values, h.p, h.s, h.size, h.kept, h.bytes, h.waiting,
            self.memory()
        )
    }
}

/// A written state in an answer: a long one as registers are.
fn state(bytes: &[u8]) -> String {
    match bytes.len() {
        0 => ".".to_string(),
        1..=256 => hex(bytes),
        _ => runs(bytes),
    }
}

/// Register bytes in an answer: runs of equal ones.
fn runs(bytes: &[u8]) -> String {
    let parts: Vec<String> = bytes
        .chunk_by(|a, b| a == b)
        .map(|run| if run.len() == 1 { run[0].to_string() } else { format!("{}*{}", run[0], run.len()) })
        .collect();
    if parts.is_empty() { ".".to_string() } else { parts.join(",") }
}

// ---- states

// ---- cases

struct Made {
    all: Cases,
    chance: Chance,
    roll: Rollup,
    /// How often a list was merged as "Difference" asks, and refused as U3 asks, where the original does something else.
    merged: usize,
    refused: usize,
    /// How often `near` wrote.
    turn: usize,
}

impl Made {
    fn ok(&mut self, kind: &str, operands: &str) {
        self.all.counted(kind, operands, "ok", kind.to_string());
    }

    fn lend(&mut self, registers: usize, kept: usize, waiting: usize, working: usize) {
        assert!(registers <= 16384 && kept <= 8192 && waiting <= 8192 && working <= 8192);
        self.roll = Rollup {
            registers: vec![REGISTER; registers],
            kept: vec![CELL; kept],
            waiting: vec![CELL; waiting],
            working,
            ..Rollup::default()
        };
        self.ok("n", &format!("{registers} {kept} {waiting} {working}"));
    }

    /// A fresh roll-up with room for what small precisions need, and a few register bytes more than 2^p.
    fn fresh(&mut self, p: i32) {
        self.lend((1 << p) + 3, 160, 160, 160);
    }

    fn head(&mut self, h: Head) {
        self.ok(
            "h",
            &format!(
                "{} {} {} {} {} {} {} {} {} {}",
                h.form, h.allowed, h.value_type as u32, h.num_values as u64, h.p as u32, h.s as u32, h.size as u32, h.kept, h.bytes, h.waiting
            ),
        );
        self.roll.head = h;
        self.roll.rust = None;
    }

    fn set_registers(&mut self, bytes: &[u8]) {
        self.ok("r", &hex(bytes));
        self.roll.registers[..bytes.len()].copy_from_slice(bytes);
        self.roll.rust = None;
    }

    fn set_kept(&mut self, values: &[u32]) {
        self.ok("k", &text(values));
        self.roll.kept[..values.len()].copy_from_slice(values);
        self.roll.rust = None;
    }

    fn set_waiting(&mut self, values: &[u32]) {
        self.ok("w", &text(values));
        self.roll.waiting[..values.len()].copy_from_slice(values);
        self.roll.rust = None;
    }

    fn call(&mut self, kind: &str, bytes: &[u8]) -> u8 {
        let (answer, departure) = self.roll.add(bytes);
        self.merged += usize::from(departure == Departure::Merged);
        self.refused += usize::from([Departure::Refused, Departure::RefusedSooner].contains(&departure));
        self.all.counted(kind, &hex(bytes), &self.roll.answer(answer), format!("{kind} answered {answer}"));
        answer
    }

    /// A call whose answer is known.
    fn bytes(&mut self, want: u8, bytes: &[u8]) {
        let before = self.roll.head.clone();
        assert_eq!(self.call("a", bytes), want, "{} at {before:?}", hex(bytes));
    }

    fn add(&mut self, want: u8, state: &Fields) {
        self.bytes(want, &state.encode());
    }

    fn hexed(&mut self, want: u8, state: &str) {
        self.bytes(want, &unhex(state));
    }

    /// Writes into an output of this many bytes.
    fn output(&mut self, kind: &str, space: usize) -> (u8, Vec<u8>) {
        assert!(space <= 20480 && (kind == "o" || self.roll.fits()));
        let (answer, bytes) = self.roll.write(space);
        self.all.counted(kind, &space.to_string(), &format!("{answer} {} {}", state(&bytes), self.roll.memory()), format!("{kind} answered {answer}"));
        (answer, bytes)
    }

    /// A write whose answer is known.
    fn write(&mut self, want: u8, space: usize) -> Vec<u8> {
        let (answer, bytes) = self.output("o", space);
        assert_eq!(answer, want, "writing {:?}", self.roll.head);
        bytes
    }

    fn written(&mut self) -> Vec<u8> {
        self.write(0, 4096)
    }

    /// Writes into an output that fits exactly, one byte less, and one byte more, by both functions.
    fn spaces(&mut self) {
        let n = self.written().len();
        for (space, want) in [(n, 0), (n - 1, 23), (n + 1, 0), (0, 23)] {
            self.write(want, space);
            assert_eq!(self.output("u", space).0, want);
        }
    }

    /// A list roll-up turns dense by registers that are all zero, which shows its own. A dense one has them.
    fn shown(&mut self) -> Vec<u8> {
        let (p, s) = (self.roll.head.p, self.roll.head.s);
        if self.roll.head.form == SPARSE {
            self.add(0, &dense((p, s), &vec![0; 1 << p]));
        }
        self.roll.registers[..1 << p].to_vec()
    }

    /// Writes, and adds what was written to a fresh roll-up with the same memory: it writes the same, and has the same registers.
    fn again(&mut self) {
        let bytes = self.written();
        let before = self.roll.clone();
        let registers = self.shown();
        self.lend(before.registers.len(), before.kept.len(), before.waiting.len(), before.working);
        self.bytes(0, &bytes);
        let head = &self.roll.head;
        assert_eq!((head.form, head.p, head.s, head.value_type, head.num_values), (before.head.form, before.head.p, before.head.s, before.head.value_type, before.head.num_values));
        assert_eq!(self.written(), bytes);
        assert_eq!(self.shown(), registers);
    }

    /// What is asked of a head.
    fn ask(&mut self) {
        let a = self.roll.rust.clone().unwrap_or_else(|| self.roll.accumulator());
        let pair = a.precisions().map_or("-".to_string(), |(p, s)| format!("{p} {s}"));
        self.all.counted("q", "", &format!("{} {pair} {}", u8::from(a.is_empty()), a.num_values()), "q".to_string());
    }

    fn form(&self, form: u8) {
        assert_eq!(self.roll.head.form, form);
    }

    /// A fresh roll-up to which these were added.
    fn after(&mut self, p: i32, states: &[&Fields]) {
        self.fresh(p);
        for state in states {
            self.add(0, state);
        }
    }
}

/// Document 01's state A.
const A: &str = "08701002180220088207 0c 1002180a200f 320421e28004";

fn examples(made: &mut Made) {
    made.all.remark("Document 01, case B1: state A twice; and what is asked of the head before and after");
    made.lend(1024, 12, 12, 12);
    made.ask();
    made.hexed(0, A);
    made.ask();
    made.hexed(0, A);
    assert_eq!(made.roll.waiting(), [33, 65667]);
    made.ask();
    made.all.remark("E8: a fifth byte 0f passes 19, and its value gets 20; 10 is 19. E10: register 55 passes at p = 10, 56 is 14. E9 by document 02: plain 1 at (10,10) is a refused list");
    made.add(20, &raw((10, 15), 1, &unhex("808080800f")));
    made.add(19, &raw((10, 15), 1, &unhex("8080808010")));
    made.lend(1024, 4, 4, 4);
    made.add(14, &dense((10, 10), &registers(10, &[(1023, 56)])));
    made.add(0, &dense((10, 10), &registers(10, &[(1023, 55)])));
    // The original takes E9's list.
    made.add(20, &list((10, 10), &[1]));
    assert_eq!(made.refused, 1);
    made.hexed(20, "0870100118028207091001180a200a320101");
    made.spaces();
    made.lend(1024, 4, 4, 4);
    made.hexed(20, "0870100118028207091001180a200a320101");
    made.form(UNSTARTED);
    made.all.remark("12 list bytes at p = 4, which is L, are kept as a list by the first state");
    made.fresh(4);
    made.add(0, &list((4, 9), &upto(0, 12)));
    made.form(SPARSE);
    assert_eq!(made.roll.head.bytes, limit(4));
}

fn wire(made: &mut Made) {
    made.all.remark("3 to 6, and 8 for the empty state: each front of a state");
    made.lend(1024, 8, 8, 8);
    let a = unhex(A);
    for n in 0..a.len() {
        made.call("a", &a[..n]);
    }
    made.form(UNSTARTED);
    made.all.remark("A field behind the nested message can be cut off: such a state is accepted with it and without it, and so is one with two nested messages");
    for state in ["0870 1802 8207 0c 1002180a200f 320421e28004 2008 1002", "0870 1802 8207 0c 1002180a200f 320421e28004 8207 02 1002"] {
        let bytes = unhex(state);
        for n in 0..=bytes.len() {
            made.lend(1024, 8, 8, 8);
            made.call("a", &bytes[..n]);
        }
        made.form(SPARSE);
    }
    made.all.remark("3: a field is whole before it is opened; a varint that is cut after nine bytes. 4: ten bytes that go on");
    made.lend(1024, 8, 8, 8);
    for (want, state) in [
        (3, "180282070507"),
        (3, "8207ffffffffffffffffff01"),
        (3, "10ffffffffffffffffff"),
        (4, "10ffffffffffffffffffff"),
        (4, "10ffffffffffffffffff8000"),
        (4, "80808080808080808080"),
        (3, "808080808080808080"),
        (5, "00"),
        (5, "0700"),
        (5, "808080801000"),
        (5, "8080808010"),
        (6, "0b"),
        (6, "1c"),
        (6, "0e"),
        (6, "0f"),
        (3, "0d000000"),
        (3, "0900000000000000"),
        (3, "0a05"),
        (5, "820701 07"),
        (5, "820702 0700"),
        (6, "820701 0b"),
        (4, "82070b 18ffffffffffffffffffff"),
        (3, "820703 180a20"),
        (3, "820703 320221"),
    ] {
        made.hexed(want, state);
    }
    made.all.remark("What is skipped: other fields, other wire types of known ones; and groups, which are 6");
    made.lend(1024, 40, 40, 40);
    made.hexed(0, "0900000000000000000d000000001200 1a020000 f8010a 08701002180220088207 11 0d00000000 1002180a200f 320421e28004");
    made.hexed(6, "0870100218022008 13 8207080c1002180a200f");
    made.all.remark("Bits above the 64th vanish: a tag of ten bytes is 8; a 32-bit field takes the low 32 bits");
    made.hexed(0, "8880808080808080807e70 1002180220088207 0c 1002180a200f 320421e28004");
    made.hexed(0, "08f0808080f0ffffffff01 1002180220088207 0c 1002180a200f 320421e28004");
    made.all.remark("A later field replaces an earlier one; a second nested message only the fields that it holds; an empty data field undoes an earlier one");
    made.hexed(0, "0801 0870 10051002 1803 1802 2009 2008 8207 0c 1002180a200f 320421e28004");
    made.lend(24, 24, 24, 24);
    let data = hex(&registers(4, &[(3, 7)]));
    made.hexed(0, &format!("0870 1002 1802 2008 8207 16 18042009 2a10{data} 8207 02 2a00 8207 05 3203 010203"));
    made.form(SPARSE);
    made.hexed(0, &format!("0870 1002 1802 2008 8207 16 18042009 2a10{data} 8207 02 1004"));
    made.form(DENSE);
}

fn headers(made: &mut Made) {
    let pair = (5, 10);
    let sound = list(pair, &[3, 70]);
    let zeros = dense(pair, &registers(5, &[(2, 60)]));
    made.all.remark("7, 8, 9: type, version, value type");
    made.fresh(5);
    for kind in [0, 111, 113, -112, i32::MIN] {
        made.add(7, &Fields { kind, ..sound.clone() });
    }
    for encoding_version in [0, 1, 3, -2] {
        made.add(8, &Fields { encoding_version, ..sound.clone() });
    }
    for value_type in [-1, 1, 6, 9, 10, 12, 263, i32::MAX] {
        made.add(9, &Fields { value_type, ..sound.clone() });
    }
    made.all.remark("10: a list needs an s. 11: p. 12: the data's length. 13: s of a list, and where there is neither. 14: registers");
    made.add(10, &Fields { sparse_precision: 0, ..sound.clone() });
    for p in [-1, 0, 3, 25, i32::MAX] {
        made.add(11, &Fields { precision: p, ..sound.clone() });
        made.add(11, &Fields { precision: p, ..zeros.clone() });
        made.add(11, &Fields { precision: p, ..neither(pair) });
    }
    made.add(11, &Fields { precision: 3, sparse_precision: 0, ..neither(pair) });
    for n in [1, 16, 31, 33, 64] {
        made.add(12, &dense(pair, &vec![0; n]));
    }
    made.add(12, &Fields { data: Some(vec![0; 31]), ..sound.clone() });
    for s in [-1, 4, 26, i32::MIN, i32::MAX] {
        made.add(13, &Fields { sparse_precision: s, ..sound.clone() });
        made.add(13, &Fields { sparse_precision: s, ..neither(pair) });
        made.add(13, &Fields { sparse_precision: s, data: Some(Vec::new()), ..neither(pair) });
        made.add(13, &Fields { sparse_precision: s, data: zeros.data.clone(), ..sound.clone() });
    }
    made.add(14, &dense(pair, &registers(5, &[(0, 61)])));
    made.add(14, &dense(pair, &registers(5, &[(31, 255)])));
    made.form(UNSTARTED);
    made.all.remark("Two faults: the first question asked answers");
    let faults: [(u8, fn(&mut Fields)); 8] = [
        (7, |f| f.kind = 1),
        (8, |f| f.encoding_version = 1),
        (9, |f| f.value_type = 5),
        (10, |f| {
            f.sparse_precision = 0;
            f.sparse_data = Some(vec![1]);
        }),
        (11, |f| f.precision = 3),
        (12, |f| f.data = Some(vec![0; 15])),
        (13, |f| {
            f.sparse_precision = if f.sparse_precision == 0 { 0 } else { 26 };
            f.sparse_data = Some(vec![1]);
        }),
        (14, |f| f.data = Some(f.data.clone().filter(|d| d.len() == 15).unwrap_or_else(|| vec![99; 16]))),
    ];
    for (i, (n, first)) in faults.iter().enumerate() {
        for (_, second) in &faults[i + 1..] {
            let mut f = dense((4, 9), &[0; 16]);
            first(&mut f);
            second(&mut f);
            made.add(*n, &f);
        }
    }
    made.all.remark("Accepted at the edges: p and s, and registers of 65-p");
    for (p, s) in [(4, 4), (4, 25), (5, 5), (14, 25)] {
        made.lend(1 << p, 9, 9, 9);
        made.add(0, &neither((p, s)));
    }
    made.lend(32, 0, 0, 0);
    made.add(0, &zeros);
    made.add(0, &dense((4, 9), &registers(4, &[(15, 61)])));
    made.all.remark("14: registers of 65-p and 66-p at p = 6 and 7, with s = p and s above it");
    for (p, s) in [(6, 6), (7, 12)] {
        made.lend(1 << p, 0, 0, 0);
        for (register, answer) in [(65 - p, 0), (66 - p, 14)] {
            made.add(answer, &dense((p, s), &registers(p, &[(1, register as u8)])));
        }
    }
}

fn masks(made: &mut Made) {
    made.all.remark("15: masks that meet, and masks that do not; the value type stays the first state's; value counts add");
    let pair = (4, 9);
    for first in [0, 7, 8, 11] {
        for second in [0, 7, 8, 11] {
            made.after(4, &[&Fields { value_type: first, ..list(pair, &[3]) }]);
            let meet = first == 0 || second == 0 || first == second;
            made.add(if meet { 0 } else { 15 }, &Fields { value_type: second, ..list(pair, &[4]) });
        }
    }
    made.all.remark("15 at a dense roll-up, and with neither list nor data; a mask that was narrowed refuses later");
    made.after(4, &[&dense(pair, &registers(4, &[(1, 2)])), &Fields { value_type: 8, ..neither(pair) }]);
    made.add(15, &Fields { value_type: 7, ..dense(pair, &registers(4, &[(2, 2)])) });
    made.add(15, &Fields { value_type: 11, ..neither(pair) });
    made.add(15, &Fields { value_type: 11, ..list(pair, &[1]) });
    made.add(0, &Fields { value_type: 8, ..list(pair, &[1]) });
    made.all.remark("15 comes before 16, 17, 18");
    made.lend(16, 1, 1, 1);
    made.add(0, &Fields { value_type: 8, ..list(pair, &[3]) });
    made.add(15, &Fields { value_type: 7, sparse_precision: 0, ..neither(pair) });
    made.add(15, &Fields { value_type: 7, ..list((5, 10), &[3]) });
    made.add(15, &Fields { value_type: 7, ..list(pair, &[3]) });
    made.add(15, &Fields { value_type: 7, ..raw(pair, 1, &[0x80]) });
    made.all.remark("Value counts wrap, and may be negative");
    made.after(4, &[&Fields { num_values: i64::MAX, ..list(pair, &[3]) }]);
    for n in [1, i64::MIN, -1, 0, i64::MAX, i64::MAX, 2, 1] {
        made.add(0, &Fields { num_values: n, ..list(pair, &[3]) });
    }
    made.ask();
    made.after(4, &[&Fields { num_values: i64::MIN, ..dense(pair, &registers(4, &[])) }, &Fields { num_values: -1, ..neither(pair) }]);
    made.ask();
}

fn carried(made: &mut Made) {
    let pair = (4, 9);
    let data = registers(4, &[(1, 5)]);
    let both = |list: &[u8]| Fields { data: Some(data.clone()), ..raw(pair, 1, list) };
    let uncarried = [
        Fields { sparse_precision: 0, ..neither(pair) },
        Fields { sparse_precision: 0, ..dense(pair, &data) },
        Fields { sparse_precision: 0, sparse_data: Some(Vec::new()), ..neither(pair) },
        both(&[3]),
        both(&[]),
        both(&[0x80]),
    ];
    made.all.remark("16: s is 0; data bytes beside a sparse field, an empty one and a cut one too: at a fresh, a list and a dense roll-up");
    made.fresh(4);
    for f in &uncarried {
        made.add(16, f);
    }
    made.add(0, &list(pair, &[7]));
    for f in &uncarried {
        made.add(16, f);
    }
    made.add(0, &dense(pair, &data));
    for f in &uncarried {
        made.add(16, f);
    }
    made.all.remark("An empty data field beside a list is no data; both empty is neither");
    made.after(4, &[&Fields { data: Some(Vec::new()), ..list(pair, &[3]) }, &Fields { data: Some(Vec::new()), ..list(pair, &[4]) }]);
    made.add(0, &Fields { data: Some(Vec::new()), sparse_data: Some(Vec::new()), ..neither(pair) });
    made.all.remark("16: another pair at a list roll-up, with a list, data and neither; each of p and s alone");
    for other in [(5, 9), (4, 10), (4, 8), (5, 10)] {
        made.add(16, &list(other, &[3]));
        made.add(16, &neither(other));
        made.add(16, &dense(other, &registers(other.0, &[])));
        made.add(16, &raw(other, 1, &[0x80]));
    }
    made.add(16, &dense((4, -9), &data));
    made.add(16, &dense((4, 3), &data));
    made.all.remark("16 comes before 17: the same where no memory is lent");
    made.lend(0, 0, 0, 0);
    for f in &uncarried {
        made.add(16, f);
    }
    made.add(17, &list(pair, &[3]));
    made.add(17, &neither(pair));
    made.add(17, &dense(pair, &data));
}

fn room(made: &mut Made) {
    let pair = (4, 9);
    made.all.remark("17, unstarted: registers, and each list alone, short by one; enough. The field's bytes count, not its values");
    let long = raw(pair, 2, &unhex("83808000 01"));
    for (r, k, w, s) in [(15, 5, 5, 5), (16, 4, 5, 5), (16, 5, 4, 5), (16, 5, 5, 4)] {
        made.lend(r, k, w, s);
        made.add(17, &long);
    }
    made.lend(16, 5, 5, 5);
    made.add(0, &long);
    made.all.remark("17 asks registers of every state, lists only where the sparse field is not empty");
    made.lend(15, 0, 0, 0);
    made.add(17, &neither(pair));
    made.add(17, &dense(pair, &[0; 16]));
    made.lend(16, 0, 0, 0);
    made.add(17, &list(pair, &[3]));
    made.add(0, &neither(pair));
    made.add(17, &list(pair, &[3]));
    made.add(0, &neither(pair));
    made.add(0, &Fields { sparse_data: Some(Vec::new()), ..neither(pair) });
    made.add(0, &dense(pair, &[1; 16]));
    made.add(17, &list(pair, &[3]));
    made.all.remark("17 wants no cell for a state without list bytes, also where values are kept and there is no other cell");
    made.lend(16, 1, 0, 0);
    made.set_kept(&[1]);
    made.head(Head { form: SPARSE, allowed: 15, num_values: 1, p: 4, s: 9, size: 1, kept: 1, bytes: 1, ..Head::default() });
    made.add(0, &neither(pair));
    made.add(17, &list(pair, &[3]));
    made.all.remark("17: registers of large precisions, and one byte short of 2^14");
    made.lend(16384, 9, 9, 9);
    made.add(17, &neither((24, 25)));
    made.add(17, &list((15, 20), &[3]));
    made.add(0, &list((14, 20), &[3]));
    made.lend(16383, 9, 9, 9);
    made.add(17, &list((14, 20), &[3]));
    made.all.remark("17 comes before 18 to 20");
    made.lend(16, 0, 8, 8);
    for bytes in ["80", "8080808010", "ff7f"] {
        made.add(17, &raw(pair, 1, &unhex(bytes)));
    }
    made.all.remark("17 at a list roll-up with values kept and waiting: 3 + 2 + 4 bytes");
    for (r, k, w, s) in [(31, 9, 9, 9), (32, 8, 9, 9), (32, 9, 8, 9), (32, 9, 9, 8), (32, 9, 9, 9)] {
        made.lend(r, k, w, s);
        made.set_kept(&[3, 5, 9]);
        made.set_waiting(&[8, 7]);
        made.head(Head { form: SPARSE, allowed: 15, num_values: 5, p: 5, s: 10, size: 3, kept: 3, bytes: 3, waiting: 2, ..Head::default() });
        let enough = (r, k, w, s) == (32, 9, 9, 9);
        made.add(if enough { 0 } else { 17 }, &list((5, 10), &[11, 12, 13, 14]));
        if r == 31 {
            made.add(17, &neither((5, 10)));
            made.add(17, &dense((5, 10), &[0; 32]));
        } else {
            made.add(0, &neither((5, 10)));
        }
    }
    made.all.remark("17 at a list roll-up does not ask for lists where the state has data; and values wait up to the last cell");
    made.lend(35, 6, 6, 6);
    made.set_kept(&[3, 5, 9]);
    made.set_waiting(&[8, 7]);
    made.head(Head { form: SPARSE, allowed: 15, num_values: 5, p: 5, s: 10, size: 3, kept: 3, bytes: 3, waiting: 2, ..Head::default() });
    made.add(17, &list((5, 10), &[11, 12]));
    made.add(0, &list((5, 10), &[11]));
    made.add(17, &list((5, 10), &[11]));
    made.add(0, &dense((5, 10), &registers(5, &[(3, 3)])));
    made.form(DENSE);
    made.all.remark("17 at a dense roll-up: its own registers, whatever the state's p; lists for a list, though they hold nothing after it");
    made.lend(16, 2, 2, 2);
    made.add(0, &dense(pair, &[1; 16]));
    made.add(0, &dense((6, 9), &registers(6, &[(9, 20)])));
    made.add(0, &list((7, 9), &[3, 100]));
    for (k, w, s) in [(2, 3, 3), (3, 2, 3), (3, 3, 2), (3, 3, 3)] {
        made.lend(16, k, w, s);
        made.add(0, &dense(pair, &[1; 16]));
        made.add(if (k, w, s) == (3, 3, 3) { 0 } else { 17 }, &list((7, 9), &[3, 300]));
    }
}

fn bad_lists(made: &mut Made) {
    let pair = (4, 9);
    let m = |i, m| marked(pair, i, m);
    let lists: Vec<(u8, Vec<u8>)> = [
        (18, "80"),
        (18, "03 80"),
        (18, "8080"),
        (18, "80808080"),
        (18, "05 ffffff"),
        (18, "83 80 80"),
        (19, "8080808010"),
        (19, "8080808080"),
        (19, "ffffffff1f"),
        (19, "03 ffffffff80 00"),
        (19, "80808080f0"),
        (20, "808080800f"),
        (20, "8080808008 8080808008"),
        (20, "03 ffffffff0f"),
        (20, "ffffffff0f 01"),
        (20, "8080808008 ffffffff0f 80"),
        (20, "8004"),
        (20, "8004 01"),
        (18, "8004 80"),
        (19, "8004 8080808010"),
    ]
    .iter()
    .map(|(n, t)| (*n, unhex(t)))
    .chain([
        (20, original::encode_sparse(&[m(3, 57)])),
        (20, [original::encode_sparse(&[m(3, 57)]), vec![0x80]].concat()),
        (20, original::encode_sparse(&[m(16, 0)])),
        (18, [original::encode_sparse(&[m(16, 0)]), vec![0x80]].concat()),
        (20, original::encode_sparse(&[2 * mark(pair)])),
        (20, original::encode_sparse(&[3 * mark(pair)])),
        (20, original::encode_sparse(&[512])),
        (20, original::encode_sparse(&[512, m(3, 2)])),
        (20, original::encode_sparse(&[5, 1023, m(3, 2)])),
    ])
    .collect();
    made.all.remark("18, 19, 20: at a fresh, a list and a dense roll-up, which stay as they were: values before a cut-off gap are not kept");
    for form in [UNSTARTED, SPARSE, DENSE] {
        made.fresh(4);
        if form != UNSTARTED {
            made.add(0, &list(pair, &[7, 9]));
        }
        if form == DENSE {
            made.add(0, &dense(pair, &registers(4, &[(4, 4)])));
        }
        made.form(form);
        for (n, bytes) in &lists {
            made.add(*n, &raw(pair, 1, bytes));
        }
    }
    made.all.remark("At (10,15): b3800480 is 20, 80800280 is 18, 808080800f80 is 18");
    made.lend(1024, 16, 16, 16);
    for (n, bytes) in [(20, "b3800480"), (18, "80800280"), (18, "808080800f80")] {
        made.add(n, &raw((10, 15), 1, &unhex(bytes)));
    }
    made.all.remark("Read though unusual: longer spellings, zero gaps, a fifth byte, the largest values");
    made.fresh(4);
    made.add(0, &raw(pair, 9, &unhex("8380808000 00 8000 01")));
    assert_eq!(made.roll.kept(), [3, 3, 3, 4]);
    assert_eq!(made.roll.head.bytes, 9);
    made.fresh(4);
    made.add(0, &list(pair, &[511, m(0, 0), m(15, 56)]));
    made.all.remark("Largest indices at (4,25) and (14,25)");
    for pair in [(4, 25), (14, 25)] {
        made.lend(1 << pair.0, 20, 20, 20);
        made.add(0, &list(pair, &[0, (1 << 25) - 1, marked(pair, (1 << pair.0) - 1, 40)]));
        made.add(20, &list(pair, &[2 * mark(pair)]));
        made.add(20, &list(pair, &[marked(pair, (1 << pair.0) - 1, 41)]));
    }
}

fn equal_precisions(made: &mut Made) {
    made.all.remark("Document 02, U3: with s = p a plain value is 20 at the end of the list, and m = 0 where it is read; at a fresh, a list and a dense roll-up, which stay as they were.");
    made.all.remark("The Rust takes these values; what is expected is worked out from the documents");
    for (pair, forms) in [((4, 4), vec![UNSTARTED, SPARSE, DENSE]), ((5, 5), vec![DENSE]), ((10, 10), vec![SPARSE])] {
        for form in forms {
            made.lend(1 << pair.0, 40, 40, 40);
            if form != UNSTARTED {
                made.add(0, &list(pair, &[marked(pair, 7, 1), marked(pair, 9, (65 - pair.1) as u32)]));
            }
            if form == DENSE {
                made.add(0, &dense(pair, &registers(pair.0, &[(4, 4)])));
            }
            made.form(form);
            let before = made.refused;
            for (n, bytes) in equal_lists(pair) {
                made.add(n, &raw(pair, 1, &bytes));
            }
            assert_eq!(made.refused - before, 15, "the original says something else");
            made.form(form);
            made.output("o", 1100);
            made.add(0, &list(pair, &[marked(pair, 3, 1)]));
            made.output("o", 1100);
        }
    }
    made.all.remark("At (24,24), for which no registers are lent, 17 comes before; at a dense roll-up of a smaller p it is 20, and a list that is valid is lowered");
    let pair = (24, 24);
    made.lend(16, 40, 40, 40);
    made.add(17, &list(pair, &[1]));
    made.add(17, &list(pair, &[marked(pair, 0, 0)]));
    made.add(0, &dense((4, 4), &[0; 16]));
    for (n, bytes) in equal_lists(pair) {
        made.add(n, &raw(pair, 1, &bytes));
    }
    made.add(0, &list(pair, &[marked(pair, 0, 41), marked(pair, 1 << 20, 1), marked(pair, (1 << 24) - 1, 41)]));
    assert_eq!((made.roll.registers[0], made.roll.registers[1], made.roll.registers[15]), (61, 21, 1));
    made.written();
    made.all.remark("Where s is p+1 nothing is changed: plain values and m = 0 are accepted, at a list and into registers");
    for pair in [(4, 5), (10, 11)] {
        let m = |i, m| marked(pair, i, m);
        made.lend(1 << pair.0, 40, 40, 40);
        for values in [vec![0], vec![1], vec![m(0, 0)], vec![1, m(1, 0)]] {
            made.add(0, &list(pair, &values));
        }
        made.add(18, &raw(pair, 1, &[original::encode_sparse(&[m(1, 0)]), vec![0x80]].concat()));
        made.written();
        made.add(0, &dense(pair, &registers(pair.0, &[])));
        for values in [vec![0], vec![1], vec![m(0, 0)], vec![1, m(1, 0)]] {
            made.add(0, &list(pair, &values));
        }
    }
    made.lend(16, 40, 40, 40);
    made.add(0, &dense((4, 5), &[0; 16]));
    made.add(0, &list((24, 25), &[0, 1, marked((24, 25), 0, 0), marked((24, 25), (1 << 24) - 1, 40)]));
    made.all.remark("No list bytes at s = p is no value: a sparse field that is empty, and none; the ranks of valid values are m, at their own p and lowered");
    made.after(4, &[&Fields { sparse_data: Some(Vec::new()), ..neither((4, 4)) }, &neither((4, 4))]);
    made.form(SPARSE);
    made.written();
    let m = |i, m| marked((5, 5), i, m);
    let values = [m(0, 1), m(1, 60), m(2, 2), m(3, 60), m(6, 60), m(9, 1), m(31, 60)];
    made.after(5, &[&list((5, 5), &values)]);
    made.again();
    assert_eq!(made.roll.registers[..10], [1, 60, 2, 60, 0, 0, 60, 0, 0, 1]);
    made.add(0, &neither((4, 4)));
    assert_eq!(made.roll.registers[..5], [2, 3, 0, 61, 1]);
    made.again();
    made.after(4, &[&dense((4, 4), &[0; 16]), &list((5, 5), &values)]);
    assert_eq!(made.roll.registers[..5], [2, 3, 0, 61, 1]);
    made.all.remark("Lists with s = p on each path: they wait, all are merged, one is inserted, one is merged, they turn dense");
    let v = |first: u32, n: u32, rank: u32| list((5, 5), &(first..first + n).map(|i| m(i, rank)).collect::<Vec<_>>());
    made.after(5, &[&v(0, 2, 1), &v(1, 1, 9), &v(1, 2, 3)]);
    assert_eq!(made.roll.head.waiting, 3);
    made.written();
    made.add(0, &v(3, 3, 60));
    assert_eq!(made.roll.kept(), [m(0, 1), m(1, 9), m(2, 3), m(3, 60), m(4, 60), m(5, 60)]);
    made.again();
    made.after(5, &[&v(0, 18, 7), &v(9, 1, 8), &v(9, 1, 1), &v(20, 1, 1)]);
    assert_eq!((made.roll.head.kept, made.roll.head.waiting), (19, 0));
    made.add(20, &list((5, 5), &[1]));
    made.add(20, &list((5, 5), &[m(9, 0)]));
    made.written();
    made.add(0, &v(10, 14, 30));
    made.form(DENSE);
    made.again();
}

/// Heads with s = p: question 1 by document 02, U3.
fn unfit_equal(made: &mut Made) {
    made.all.remark("1: a list head with s = p: a plain value and m = 0, kept and waiting, first and last; m at 65-s and above; heads that fit");
    for pair in [(4, 4), (5, 5), (10, 10)] {
        let m = |i, m| marked(pair, i, m);
        let (last, most) = ((1 << pair.0) - 1, (65 - pair.1) as u32);
        for (kept, waiting, want) in [
            (vec![m(0, 1), m(last, most)], vec![], 0),
            (vec![m(0, 1)], vec![m(last, most)], 0),
            (vec![0], vec![], 1),
            (vec![1], vec![], 1),
            (vec![1, m(0, 1)], vec![], 1),
            (vec![m(0, 0)], vec![], 1),
            (vec![m(0, 0), m(0, 1)], vec![], 1),
            (vec![m(0, 1), m(last, 0)], vec![], 1),
            (vec![m(0, most + 1)], vec![], 1),
            (vec![2 * mark(pair) + 1], vec![], 1),
            (vec![3 * mark(pair) + 1], vec![], 1),
            (vec![], vec![0], 1),
            (vec![], vec![1], 1),
            (vec![m(0, 1)], vec![1], 1),
            (vec![m(0, 1)], vec![m(0, 0)], 1),
            (vec![m(0, 1)], vec![m(0, most + 1)], 1),
            (vec![], vec![2 * mark(pair) + 1], 1),
        ] {
            made.lend(1 << pair.0, 8, 8, 8);
            made.set_kept(&kept);
            made.set_waiting(&waiting);
            let bytes = original::encode_sparse(&kept).len() as u64;
            made.head(Head { form: SPARSE, allowed: 15, num_values: 2, p: pair.0, s: pair.1, size: 1, kept: kept.len() as u64, bytes, waiting: waiting.len() as u64, ..Head::default() });
            made.write(want, 64);
            made.add(want, &neither(pair));
        }
    }
    made.all.remark("The same values fit where s is p+1; past the counts no value is asked for");
    for pair in [(4, 5), (10, 11)] {
        for (kept, waiting) in [(vec![0, 1], vec![]), (vec![marked(pair, 0, 0)], vec![]), (vec![1], vec![marked(pair, 0, 0)])] {
            set_list(made, pair, &kept, &waiting, 8);
            made.written();
        }
    }
    made.lend(16, 8, 8, 8);
    made.set_kept(&[marked((4, 4), 0, 1), 1]);
    made.set_waiting(&[marked((4, 4), 0, 0)]);
    made.head(Head { form: SPARSE, allowed: 15, p: 4, s: 4, kept: 1, bytes: 2, ..Head::default() });
    made.add(0, &neither((4, 4)));
}

/// A list head at (5,10) with three kept and two waiting values.
fn five() -> Head {
    Head { form: SPARSE, allowed: 15, num_values: 5, p: 5, s: 10, size: 3, kept: 3, bytes: 3, waiting: 2, ..Head::default() }
}

fn unfit(made: &mut Made) {
    let pair = (5, 10);
    let state = list(pair, &[4]);
    let set = |made: &mut Made, h: Head, kept: &[u32], waiting: &[u32]| {
        made.lend(35, 20, 20, 20);
        made.set_kept(kept);
        made.set_waiting(waiting);
        made.head(h);
        made.output("o", 64);
    };
    made.all.remark("1: an unstarted head with a count that is not 0; other numbers do not matter, and the first state sets them all");
    for (kept, waiting, want) in [(1, 0, 1), (0, 1, 1), (u64::MAX, u64::MAX, 1), (0, 0, 0)] {
        set(made, Head { form: UNSTARTED, allowed: 200, value_type: -7, num_values: -1, p: 99, s: 0, size: -3, kept, bytes: u64::MAX, waiting }, &[3], &[3]);
        if want == 0 {
            made.add(8, &Fields { encoding_version: 1, ..state.clone() });
            made.add(17, &neither((14, 20)));
            made.add(18, &raw(pair, 1, &[0x80]));
        }
        made.add(want, &state);
    }
    made.all.remark("An unstarted head has no mask for 15 and no p for 17, whatever these numbers are");
    for (allowed, p) in [(2, 0), (0, 20), (2, 3)] {
        made.lend(16, 0, 0, 0);
        made.head(Head { form: UNSTARTED, allowed, p, ..Head::default() });
        made.add(0, &Fields { value_type: 8, ..neither((4, 9)) });
    }
    made.all.remark("1: a dense head: a count that is not 0, p, s, a register above 65-p, too few register bytes; and heads that just fit");
    let dense_head = Head { form: DENSE, allowed: 15, num_values: 5, p: 5, s: 10, size: 3, ..Head::default() };
    let regs = registers(5, &[(31, 60), (7, 1)]);
    let d = |made: &mut Made, h: Head, r: usize, bytes: &[u8], want: u8| {
        made.lend(r, 20, 20, 20);
        made.set_registers(bytes);
        made.head(h);
        made.write(want, 64);
        made.add(want, &state);
    };
    d(made, dense_head.clone(), 35, &regs, 0);
    d(made, dense_head.clone(), 32, &regs, 0);
    d(made, Head { kept: 1, ..dense_head.clone() }, 35, &regs, 1);
    d(made, Head { waiting: 1, ..dense_head.clone() }, 35, &regs, 1);
    d(made, Head { bytes: u64::MAX, ..dense_head.clone() }, 35, &regs, 0);
    for p in [0, 3, 25, 32, 64, -5] {
        d(made, Head { p, ..dense_head.clone() }, 35, &regs, 1);
    }
    d(made, Head { p: 6, ..dense_head.clone() }, 35, &regs, 1);
    d(made, Head { p: 24, ..dense_head.clone() }, 35, &regs, 1);
    d(made, Head { s: 0, ..dense_head.clone() }, 35, &regs, 1);
    d(made, Head { s: -1, ..dense_head.clone() }, 35, &regs, 0);
    d(made, Head { s: i32::MIN, ..dense_head.clone() }, 35, &regs, 0);
    d(made, dense_head.clone(), 31, &regs[..31], 1);
    for s in [5, 6, 10] {
        let h = Head { s, ..dense_head.clone() };
        d(made, h.clone(), 35, &registers(5, &[(0, 60), (31, 60)]), 0);
        d(made, h.clone(), 35, &registers(5, &[(0, 61)]), 1);
        d(made, h.clone(), 35, &registers(5, &[(31, 61)]), 1);
        d(made, h.clone(), 35, &registers(5, &[(9, 83)]), 1);
        d(made, h, 35, &registers(5, &[(15, 255)]), 1);
    }
    for s in [4, 9] {
        let h = Head { p: 4, s, ..dense_head.clone() };
        d(made, h.clone(), 35, &registers(5, &[(15, 61), (16, 62)]), 0);
        d(made, h, 35, &registers(5, &[(15, 62)]), 1);
    }
    made.all.remark("1: registers of 55 and 56 at p = 10, and a state with neither: s above p, and s = p");
    made.lend(1024, 0, 0, 0);
    made.set_registers(&registers(10, &[(1023, 55)]));
    for s in [15, 11, 10] {
        for (register, want) in [(55, 0), (56, 1), (64, 1)] {
            made.set_registers(&[register]);
            made.head(Head { p: 10, s, ..dense_head.clone() });
            made.add(want, &neither((10, s)));
        }
    }
    made.all.remark("1: a list head: each clause alone. It fits; p; s");
    let m = |i, m| marked(pair, i, m);
    set(made, five(), &[3, 5, 9], &[8, 7]);
    made.add(0, &state);
    for p in [0, 3, 25, -5, 11] {
        set(made, Head { p, ..five() }, &[3, 5, 9], &[8, 7]);
        made.add(1, &state);
    }
    for s in [0, 4, 26, -10, i32::MIN] {
        set(made, Head { s, ..five() }, &[3, 5, 9], &[8, 7]);
        made.add(1, &state);
    }
    made.all.remark("1: counts past their lists");
    for (kept, waiting) in [(21, 0), (0, 21), (u64::MAX, 0), (0, u64::MAX), (u64::MAX, 1)] {
        set(made, Head { kept, waiting, bytes: 23, ..five() }, &upto(1, 20), &upto(1, 20));
        made.add(1, &state);
    }
    set(made, Head { kept: 20, waiting: 0, bytes: 20, ..five() }, &upto(1, 20), &[]);
    made.add(17, &state);
    made.add(0, &neither(pair));
    made.all.remark("1: values that are not valid, kept and waiting; a value past a count does not matter; kept that descends; waiting may descend, and both may repeat");
    for (kept, want) in [
        (vec![3, 5, 1024], 1),
        (vec![3, 5, m(1, 56)], 1),
        (vec![3, 5, m(32, 0)], 1),
        (vec![3, 5, 2 * mark(pair) + 1], 1),
        (vec![3, 5, 1023], 0),
        (vec![3, 5, m(31, 55)], 0),
        (vec![3, 5, 9, 1024], 0),
        (vec![5, 3, 9], 1),
        (vec![3, 9, 5], 1),
        (vec![3, 9, 9], 0),
        (vec![9, 9, 9], 0),
    ] {
        set(made, Head { bytes: 8, ..five() }, &kept, &[8, 7]);
        made.add(want, &state);
    }
    for (waiting, want) in [(vec![8, 1024], 1), (vec![m(1, 56), 8], 1), (vec![m(32, 0), 8], 1), (vec![m(31, 55), 0], 0), (vec![8, 8], 0), (vec![8, 7, 1024], 0)] {
        set(made, five(), &[3, 5, 9], &waiting);
        made.add(want, &state);
    }
    made.all.remark("1: kept bytes below the written length, above 2,147,483,647; at the edges");
    for (bytes, want) in [(2, 1), (0, 1), (3, 0), (2147483647, 0), (2147483648, 1), (u64::MAX, 1)] {
        set(made, Head { waiting: 0, bytes, ..five() }, &[3, 5, 9], &[]);
        made.add(want, &state);
    }
    made.all.remark("1: with values waiting, kept bytes + 5 x waiting is below L = 24; with none it is not asked");
    for (bytes, waiting, want) in [(13, 2, 0), (14, 2, 1), (2147483647, 1, 1), (18, 1, 0), (19, 1, 1), (24, 0, 0), (3, 4, 0), (4, 4, 1), (3, 5, 1)] {
        set(made, Head { bytes, waiting, ..five() }, &[3, 5, 9], &upto(7, 5));
        made.add(want, &state);
    }
    made.all.remark("1: at most 2048 values wait");
    made.lend(16384, 4096, 4096, 4096);
    made.set_waiting(&(0..2049).map(|i| i % 10).collect::<Vec<u32>>());
    for (waiting, want) in [(2049, 1), (2048, 0)] {
        made.head(Head { form: SPARSE, allowed: 15, p: 14, s: 15, waiting, ..Head::default() });
        made.write(want, 64);
        made.add(want, &neither((14, 15)));
    }
    made.all.remark("1 comes before 2 to 20: no bytes, a bad tag");
    set(made, Head { s: 0, ..five() }, &[3, 5, 9], &[8, 7]);
    made.hexed(1, "");
    made.hexed(1, "00");
    made.hexed(1, "80");
}

fn paths(made: &mut Made) {
    let pair = (5, 10);
    let m = |i, m| marked(pair, i, m);
    made.all.remark("The first state: a list, repeats included, and its sparse size whatever it is; data; neither. L is not asked");
    for f in [
        list(pair, &[3, 5, 9]),
        raw(pair, -7, &original::encode_sparse(&[3, 3, 3, m(1, 2), m(1, 2), m(1, 5)])),
        raw(pair, i32::MAX, &spelled(30, 10)),
        Fields { sparse_data: Some(Vec::new()), sparse_size: 9, num_values: -4, ..neither(pair) },
        neither(pair),
        dense(pair, &registers(5, &[(0, 60), (31, 1)])),
        Fields { sparse_size: -1, value_type: 11, ..dense(pair, &registers(5, &[])) },
    ] {
        made.after(5, &[&f]);
        made.add(0, &list(pair, &[100]));
        made.add(0, &neither(pair));
        made.ask();
    }
    made.all.remark("Neither list nor data at a list roll-up: the mask, the count, and no more");
    made.after(5, &[&raw(pair, 7, &unhex("8300 05"))]);
    made.add(0, &Fields { value_type: 8, sparse_size: 99, num_values: 12, ..neither(pair) });
    made.add(0, &Fields { value_type: 0, sparse_data: Some(Vec::new()), ..neither(pair) });
    made.all.remark("Waiting: values wait in any number of calls, then all are sorted and merged");
    made.after(5, &[&list(pair, &[40]), &list(pair, &[30, 50]), &list(pair, &[5]), &list(pair, &[5])]);
    assert_eq!(made.roll.waiting(), [30, 50, 5, 5]);
    made.add(0, &list(pair, &[2, 41]));
    assert_eq!(made.roll.kept(), [2, 5, 30, 40, 41, 50]);
    made.add(0, &list(pair, &[1]));
    made.all.remark("Sorting and merging: repeats go, the largest m of an index stays, a plain value stays beside a marked one of its index");
    made.after(5, &[&list(pair, &[32, m(1, 3)]), &list(pair, &[32, m(1, 3)]), &list(pair, &[m(1, 7)])]);
    made.add(0, &list(pair, &[64, m(1, 2), m(2, 0), m(2, 1)]));
    assert_eq!(made.roll.kept(), [32, 64, m(1, 7), m(2, 1)]);
    made.all.remark("Merging with nothing waiting; the first state's repeats go, its long spellings too");
    made.after(5, &[&raw(pair, 3, &unhex("8300 00 00 8000 05 05"))]);
    made.add(0, &list(pair, &upto(8, 6)));
    assert_eq!(made.roll.kept(), [3, 8, 9, 10, 11, 12, 13]);
    made.after(5, &[&list(pair, &[32, m(1, 3), m(1, 9), m(3, 1)])]);
    made.add(0, &list(pair, &[31, 32, 33, m(0, 0), m(1, 4), m(3, 2)]));
    made.all.remark("Merging into an empty list");
    made.after(5, &[&neither(pair)]);
    made.add(0, &list(pair, &[1, 1, 2, 32, m(1, 1), m(1, 2)]));
    made.all.remark("Inserting: before, between, behind, what is there, a larger and a smaller m; kept bytes keep their surplus");
    for v in [0, 8, 600, 3, 32, m(0, 0), m(1, 2), m(1, 3), m(1, 4), m(1, 55), m(31, 55)] {
        let mut kept = upto(1, 12);
        kept.extend([32, 500, 501, m(1, 3)]);
        let bytes = [&[0x81, 0x80, 0x00], &original::encode_sparse(&kept)[1..]].concat();
        assert!(bytes.len() + 5 >= 24);
        made.after(5, &[&raw(pair, 4, &bytes)]);
        made.add(0, &list(pair, &[v]));
    }
    made.all.remark("A state that repeats its values is inserted as one");
    let big = (7, 12);
    made.after(7, &[&raw(big, 1, &spelled(48, 46))]);
    made.add(0, &list(big, &[7, 7, 100]));
    made.all.remark("Data onto a list roll-up, with and without values waiting; the data's own sparse size is not taken");
    for waiting in [vec![], vec![31, 32, m(2, 40)]] {
        made.after(5, &[&list(pair, &[32, 33, m(2, 3), m(9, 55)])]);
        if !waiting.is_empty() {
            made.add(0, &list(pair, &waiting));
        }
        made.add(0, &Fields { sparse_size: 77, ..dense(pair, &registers(5, &[(1, 2), (9, 1), (30, 60)])) });
        made.form(DENSE);
        made.add(0, &list(pair, &[1023]));
    }
    made.after(5, &[&neither(pair), &dense(pair, &registers(5, &[(1, 2)]))]);
    made.all.remark("Dense, with data of an equal, a smaller, a larger p; s is the smaller as a signed number; freed register bytes are zero");
    let p6 = registers(6, &[(0, 3), (1, 20), (2, 0), (3, 9), (17, 1), (60, 59), (63, 2)]);
    let p5 = registers(5, &[(0, 60), (1, 1), (4, 2), (8, 7), (31, 5)]);
    let p4 = registers(4, &[(0, 1), (7, 61), (15, 2)]);
    made.after(6, &[&dense((6, 11), &p6), &dense((6, 11), &p6), &dense((6, 9), &registers(6, &[(17, 9)])), &dense((6, 20), &registers(6, &[(18, 9)]))]);
    made.add(0, &dense((5, 10), &p5));
    made.add(0, &dense((6, 7), &p6));
    made.add(0, &dense((4, 12), &p4));
    made.add(0, &dense((7, 8), &registers(7, &[(0, 1), (8, 58), (127, 4)])));
    made.add(0, &dense((4, 4), &[0; 16]));
    made.ask();
    made.after(6, &[&dense((6, 11), &p6), &dense((4, 9), &p4)]);
    made.after(6, &[&dense((4, 9), &p4), &dense((6, 11), &p6), &dense((5, 10), &p5)]);
    made.all.remark("Dense, with a list of an equal, a smaller, a larger p");
    let l = |pair: Pair| list(pair, &edge_values(pair));
    made.after(6, &[&dense((6, 11), &p6), &l((6, 11)), &l((6, 8)), &l((6, 25))]);
    made.add(0, &l((5, 10)));
    made.add(0, &l((6, 11)));
    made.add(0, &l((7, 7)));
    made.add(0, &l((4, 4)));
    made.add(0, &l((14, 20)));
    made.add(0, &l((24, 25)));
    made.ask();
    made.all.remark("Dense, with neither: p and s are lowered all the same");
    made.after(6, &[&dense((6, 11), &p6), &neither((6, 11)), &neither((6, 12)), &neither((7, 10)), &neither((5, 12)), &neither((4, 4)), &neither((24, 25))]);
    made.ask();
    made.all.remark("s of a dense state without a list is any number but 0; the smaller is the signed minimum");
    for (first, second) in [(10, -1), (-1, 10), (-5, -6), (-6, -5), (i32::MIN, i32::MAX), (i32::MAX, i32::MIN), (3, 26), (26, 3), (1, 1)] {
        made.after(4, &[&dense((4, first), &p4), &dense((4, second), &p4)]);
        made.ask();
    }
    made.after(4, &[&dense((4, -3), &p4), &list((4, 9), &[3]), &neither((5, 5))]);
    made.all.remark("A register of 0 stays 0 where it is lowered. With s = p the least rank of a listed value is 1, which lowers to 2 at an even index, 1 at an odd one");
    made.after(5, &[&dense((5, 5), &[0; 32]), &dense((4, 5), &[0; 16])]);
    assert_eq!(made.roll.registers[..2], [0, 0]);
    made.after(4, &[&dense((4, 5), &[0; 16])]);
    made.add(20, &raw((5, 5), 1, &unhex("8010")));
    made.add(0, &raw((5, 5), 1, &unhex("8110 40")));
    assert_eq!(made.roll.registers[..2], [2, 0]);
    made.add(0, &raw((5, 5), 1, &unhex("c111")));
    assert_eq!(made.roll.registers[..2], [2, 1]);
    made.all.remark("Equal precisions: a list turns dense by data, and is lowered");
    let m5 = |i, m| marked((5, 5), i, m);
    made.after(5, &[&list((5, 5), &[m5(0, 1), m5(3, 1), m5(3, 9), m5(4, 60), m5(31, 60)]), &dense((5, 5), &[0; 32])]);
    assert_eq!((made.roll.registers[3], made.roll.registers[4], made.roll.registers[31]), (9, 60, 60));
    made.add(0, &neither((4, 4)));
    assert_eq!(made.roll.registers[..3], [2, 1, 61]);
    made.all.remark("A dense roll-up keeps its first state's sparse size; one that was a list has 0");
    made.after(4, &[&Fields { sparse_size: 42, ..dense((4, 9), &p4) }, &list((4, 9), &[3])]);
    made.all.remark("A dense head keeps its kept bytes, which question 1 does not ask for, whatever is added; turning dense sets 0");
    made.lend(16, 4, 4, 4);
    made.set_registers(&p4);
    made.head(Head { form: DENSE, allowed: 1, value_type: 8, num_values: 5, p: 4, s: 9, size: 3, bytes: 7, ..Head::default() });
    made.add(0, &neither((4, 9)));
    made.add(0, &list((4, 9), &[3]));
    made.add(0, &dense((5, 10), &p5));
    made.add(14, &dense((4, 9), &registers(4, &[(0, 62)])));
    made.output("o", 64);
    assert_eq!(made.roll.head.bytes, 7);
    made.all.remark("Also where it is lowered");
    for state in [neither((4, 9)), list((4, 9), &[3]), dense((4, 9), &p4)] {
        made.lend(32, 4, 4, 4);
        made.set_registers(&p5);
        made.head(Head { form: DENSE, allowed: 15, num_values: 5, p: 5, s: 10, size: 3, bytes: 7, ..Head::default() });
        made.add(0, &state);
        assert_eq!((made.roll.head.p, made.roll.head.bytes), (4, 7));
    }
    made.after(4, &[&list((4, 9), &[1, 2, 3]), &dense((4, 9), &p4), &neither((4, 9))]);
    assert_eq!(made.roll.head.bytes, 0);
}

fn edges(made: &mut Made) {
    let pair = (5, 10);
    let l = limit(5) as usize;
    made.all.remark("Kept bytes + 5 x waiting + 5 x k is L-1, and L, with nothing and with something waiting");
    for (bytes, k) in [(3, 4), (4, 4), (8, 3), (9, 3), (18, 1), (19, 1), (23, 0), (13, 2), (14, 2)] {
        made.after(5, &[&raw(pair, 1, &spelled(bytes, 0))]);
        let values = upto(200, k);
        made.add(0, &list(pair, &values));
        assert_eq!(made.roll.head.waiting as u32, if bytes + 5 * (k as usize) < l { k } else { 0 });
    }
    for (bytes, w, k) in [(3, 2, 2), (4, 2, 2), (8, 1, 2), (9, 1, 2), (3, 3, 1), (4, 3, 1), (13, 1, 1), (14, 1, 1)] {
        made.after(5, &[&raw(pair, 1, &spelled(bytes, 0)), &list(pair, &upto(300, w))]);
        assert_eq!(made.roll.head.waiting as u32, w);
        made.add(0, &list(pair, &upto(200, k)));
        assert_eq!(made.roll.head.waiting as u32, if bytes + 5 * ((w + k) as usize) < l { w + k } else { 0 });
    }
    made.after(4, &[&raw((4, 9), 1, &spelled(1, 0)), &list((4, 9), &[7, 8])]);
    made.after(4, &[&raw((4, 9), 1, &spelled(2, 0)), &list((4, 9), &[7, 8])]);
    made.all.remark("It is the field's bytes that count: the same two values in 2 and in 4 bytes");
    made.after(5, &[&raw(pair, 2, &spelled(2, 0)), &list(pair, &upto(20, 4))]);
    assert_eq!(made.roll.head.waiting, 4);
    made.after(5, &[&raw(pair, 2, &spelled(2, 2)), &list(pair, &upto(20, 4))]);
    assert_eq!(made.roll.head.waiting, 0);
    made.all.remark("16 x k is the kept count, and one more: k = 1 with 16 and 15 kept. An insert keeps the surplus of kept bytes, a merge drops it");
    for (kept, bytes) in [(16, 20), (15, 16)] {
        made.after(5, &[&raw(pair, 1, &spelled(kept, 4))]);
        made.add(0, &list(pair, &[600]));
        assert_eq!(made.roll.head.bytes, if kept == 16 { 22 } else { bytes + 1 });
    }
    made.all.remark("With values waiting one value is merged with all, not inserted, though 16 are kept: the surplus of kept bytes goes");
    made.lend(64, 64, 64, 64);
    made.set_kept(&(1..=16).collect::<Vec<u32>>());
    made.set_waiting(&(40..=45).collect::<Vec<u32>>());
    made.head(Head { form: SPARSE, allowed: 15, num_values: 22, p: 6, s: 10, size: 16, kept: 16, bytes: 17, waiting: 6, ..Head::default() });
    made.add(0, &list((6, 10), &[46]));
    assert_eq!((made.roll.head.kept, made.roll.head.bytes, made.roll.head.waiting), (23, 23, 0));
    made.all.remark("The same with k = 2 and 32, 31 kept; k = 16 and 256, 255 kept; k = 17 and 272, 300 kept");
    for (p, n, k, long, inserts) in [(6, 32, 2, 8, true), (6, 31, 2, 8, false), (9, 256, 16, 60, true), (9, 255, 16, 60, false), (9, 272, 17, 40, false), (9, 300, 17, 20, false), (9, 300, 16, 20, true)] {
        made.lend((1 << p) + 1, 800, 800, 800);
        made.add(0, &raw((p, 15), n, &spelled(n as usize, long)));
        made.add(0, &list((p, 15), &upto(1000, k)));
        made.form(SPARSE);
        assert_eq!(made.roll.head.bytes > original::encode_sparse(made.roll.kept()).len() as u64, inserts);
    }
    made.all.remark("Kept bytes L-1 and L after a merge");
    for k in [13, 14] {
        made.after(5, &[&list(pair, &upto(0, 10)), &list(pair, &upto(10, k))]);
        made.form(if k == 13 { SPARSE } else { DENSE });
    }
    made.all.remark("Kept bytes L-1 and L after an insert; the first state alone may be past L");
    for (n, long) in [(16, 6), (16, 7), (16, 12), (20, 3), (20, 4), (24, 0), (40, 0)] {
        made.after(5, &[&raw(pair, 1, &spelled(n, long)), &list(pair, &[60])]);
        made.form(if n + long + 1 < 24 { SPARSE } else { DENSE });
    }
    made.all.remark("An insert of what is there, or of a larger m in as many bytes: kept bytes at L turn it dense, below they do not");
    for long in [7, 8] {
        made.after(5, &[&raw(pair, 1, &spelled(16, long)), &list(pair, &[5])]);
        made.form(if long == 7 { SPARSE } else { DENSE });
    }
    made.all.remark("Kept bytes L-1 and L after values waited: all are sorted and merged");
    for k in [18, 19] {
        made.after(5, &[&list(pair, &upto(0, 3)), &list(pair, &[3, 4]), &list(pair, &upto(5, k))]);
        made.form(if k == 18 { SPARSE } else { DENSE });
    }
    made.all.remark("Lists that turn dense at p = 4 and 6, marked and plain, after each of the three");
    let m = |i, m| marked((4, 9), i, m);
    made.after(4, &[&list((4, 9), &[1, 100, m(1, 3), m(4, 9)]), &list((4, 9), &[99, 300, m(1, 8), m(9, 0), m(15, 56)])]);
    made.after(4, &[&list((4, 9), &[1, 2]), &list((4, 9), &[5]), &list((4, 9), &[6, 200, m(1, 8), m(9, 0), m(15, 56)])]);
    made.form(DENSE);
    made.after(6, &[&list((6, 11), &upto(0, 47)), &list((6, 11), &[900])]);
    made.form(DENSE);
    made.after(6, &[&list((6, 11), &upto(0, 48)), &list((6, 11), &[40, 1500, 2000])]);
    made.form(DENSE);
    made.add(0, &list((6, 11), &[2047]));
    made.all.remark("Waiting + k is 2048, and 2049, at p = 14: in one call, and after 2048 waited");
    let pair = (14, 15);
    made.lend(16384, 8192, 8192, 8192);
    made.add(0, &list(pair, &[0]));
    made.add(0, &list(pair, &upto(1, 1024)));
    made.add(0, &list(pair, &upto(1025, 1024)));
    assert_eq!(made.roll.head.waiting, 2048);
    made.add(0, &neither(pair));
    made.written();
    made.add(0, &list(pair, &[9]));
    assert_eq!((made.roll.head.waiting, made.roll.head.kept), (0, 2049));
    made.written();
    made.lend(16384, 8192, 8192, 8192);
    made.add(0, &list(pair, &[5000]));
    made.add(0, &list(pair, &upto(1, 2049)));
    assert_eq!((made.roll.head.waiting, made.roll.head.kept), (0, 2050));
    made.add(0, &list(pair, &[6000]));
    assert_eq!(made.roll.head.waiting, 1);
}

fn difference(made: &mut Made) {
    made.all.remark("Document 01's Difference: kept holds equal values or two marked values of one index where a list would be inserted. The Rust");
    made.all.remark("inserts; what is expected here is document 01's, the merge by the Rust's own merge_dedupe_into");
    let pair = (5, 10);
    let m = |i, m| marked(pair, i, m);
    let before = made.merged;
    let mut first = vec![4; 10];
    first.extend(5..15);
    made.after(5, &[&list(pair, &first)]);
    made.add(0, &list(pair, &[16]));
    assert_eq!(made.roll.head.kept, 12);
    made.all.remark("Sixteen 1s in 26 bytes at p = 4, then 2: the merge takes 2 bytes, so it stays a list");
    made.after(4, &[&raw((4, 9), 1, &[unhex("8100"), [0x80, 0x00].repeat(9), vec![0; 6]].concat())]);
    assert_eq!((made.roll.head.kept, made.roll.head.bytes), (16, 26));
    made.add(0, &list((4, 9), &[2]));
    made.form(SPARSE);
    made.all.remark("Two marked values of one index: a list that would descend, and others");
    for v in [m(1, 9), m(1, 4), m(1, 2), 3, m(2, 0), m(0, 0), 40] {
        let mut kept = upto(1, 15);
        kept.extend([m(1, 3), m(1, 5), m(3, 0)]);
        made.after(5, &[&list(pair, &kept), &list(pair, &[v])]);
    }
    made.all.remark("The merge may reach L too; and where it does not, the next call finds no repeats and inserts");
    made.after(5, &[&list(pair, &[upto(0, 23), vec![22, 22]].concat()), &list(pair, &[700])]);
    made.form(DENSE);
    made.after(5, &[&list(pair, &[upto(0, 19), vec![18, 18]].concat()), &list(pair, &[300]), &list(pair, &[20])]);
    made.form(SPARSE);
    made.all.remark("Not asked where the list waits, where values wait, or where it is merged anyway");
    made.after(5, &[&list(pair, &[3; 16]), &list(pair, &[4]), &list(pair, &[5])]);
    made.after(5, &[&list(pair, &[[3; 16].to_vec(), vec![900, 901]].concat()), &list(pair, &[4, 5])]);
    assert_eq!(made.merged - before, 11);
}

impl Made {
    /// A valid state, mostly of this pair; mostly a list.
    fn some_state(&mut self, pair: Pair) -> Vec<u8> {
        let pair = if self.chance.below(12) == 0 { some_pair(&mut self.chance) } else { pair };
        let value_type = if self.chance.below(10) == 0 { [7, 8, 11][self.chance.below(3) as usize] } else { 0 };
        let mut f = match self.chance.below(16) {
            0 => dense(pair, &some_registers(&mut self.chance, pair.0)),
            1 => neither(pair),
            2 => {
                let s = [-1, 3, 30, 9][self.chance.below(4) as usize];
                dense((pair.0, s), &some_registers(&mut self.chance, pair.0))
            }
            n => {
                let values = some_list(&mut self.chance, pair, if n < 6 { 16 } else { 3 });
                list(pair, &values)
            }
        };
        f.value_type = value_type;
        f.num_values += self.chance.below(5) as i64;
        f.encode()
    }

    fn some_call(&mut self, pair: Pair) {
        let state = self.some_state(pair);
        let state = if self.chance.below(6) == 0 { damaged(&mut self.chance, &state) } else { state };
        let kind = if self.chance.below(4) == 0 { "f" } else { "a" };
        if self.call(kind, &state) == 0 {
            self.near();
        }
    }

    /// Writes into an output that just fits, that is one byte short, or that has room, in turn and by both functions.
    fn near(&mut self) {
        let (answer, bytes) = self.roll.write(4096);
        let turn = self.turn;
        self.turn += 1;
        let space = match (answer, turn % 4) {
            (0, 0 | 1) => bytes.len(),
            (0, 2) => bytes.len() - 1,
            _ => 300,
        };
        self.output(if turn % 3 == 0 { "u" } else { "o" }, space);
    }
}

/// A list roll-up with these values kept and waiting, by its head; its lists have room for no more, nor has working.
fn set_list(made: &mut Made, pair: Pair, kept: &[u32], waiting: &[u32], working: usize) {
    made.lend(0, kept.len(), waiting.len(), working);
    made.set_kept(kept);
    made.set_waiting(waiting);
    let bytes = original::encode_sparse(kept).len() as u64;
    made.head(Head { form: SPARSE, allowed: 15, num_values: 5, p: pair.0, s: pair.1, size: 77, kept: kept.len() as u64, bytes, waiting: waiting.len() as u64, ..Head::default() });
    assert!(made.roll.fits());
}

fn writing_questions(made: &mut Made) {
    let four = (4, 9);
    let pair = (5, 10);
    made.all.remark("Writing. Document 01, case B1: state A twice, written before, between and after");
    made.lend(1024, 12, 12, 12);
    made.write(21, 64);
    made.hexed(0, A);
    assert_eq!(made.written(), unhex(A));
    made.hexed(0, A);
    assert_eq!(made.written(), unhex("087010041802200882070c1002180a200f320421e28004"));
    made.again();
    made.all.remark("21: an unstarted roll-up, whatever its other numbers and what is lent; it comes before 17 and 23");
    made.lend(0, 0, 0, 0);
    made.write(21, 0);
    assert_eq!(made.output("u", 0).0, 21);
    made.add(17, &neither(four));
    made.write(21, 64);
    made.fresh(4);
    made.head(Head { form: UNSTARTED, allowed: 9, value_type: 8, num_values: 3, p: 4, s: 9, size: 1, bytes: 5, ..Head::default() });
    made.write(21, 64);
    made.all.remark("1 comes before 21, 17, 22 and 23: counts of an unstarted head; kept past its list, and at L; no output");
    made.lend(0, 0, 0, 0);
    made.head(Head { form: UNSTARTED, kept: 1, ..Head::default() });
    made.write(1, 0);
    made.head(Head { form: SPARSE, p: 4, s: 9, kept: 12, bytes: 12, ..Head::default() });
    made.write(1, 0);
    made.head(Head { form: DENSE, p: 4, s: 9, ..Head::default() });
    made.write(1, 0);
    made.all.remark("17: working one cell too short, and enough, with and without values waiting; the registers are not asked for");
    for (kept, waiting) in [(vec![3, 5, 9], vec![8, 7]), (vec![3, 5, 9], vec![]), (vec![], vec![8, 7]), (vec![], vec![1])] {
        let n = kept.len() + waiting.len();
        set_list(made, pair, &kept, &waiting, n - 1);
        made.write(17, 64);
        assert_eq!(made.output("u", 64).0, 17);
        set_list(made, pair, &kept, &waiting, n);
        made.write(0, 64);
        assert_eq!(made.output("u", 64).0, 0);
    }
    made.all.remark("17: kept + waiting counts, though the merge has fewer values; an empty list and a dense roll-up want no cell");
    set_list(made, pair, &[3, 5, 9], &[5, 9], 4);
    made.write(17, 64);
    set_list(made, pair, &[], &[], 0);
    made.written();
    made.lend(16, 0, 0, 0);
    made.add(0, &dense(four, &[1; 16]));
    made.written();
    made.all.remark("17 comes before 22 and 23, 22 before 23");
    set_list(made, four, &upto(0, 12), &[], 11);
    made.write(17, 0);
    set_list(made, four, &upto(0, 3), &[], 2);
    made.write(17, 0);
    set_list(made, four, &upto(0, 12), &[], 12);
    made.write(22, 0);
    assert_eq!(made.output("u", 0).0, 22);
    made.all.remark("22, E7: at p = 4 a list of 11 bytes is written, one of 12 refused. The same at p = 5, 6 and 8; far above L; repeats and long gaps: bytes count, not values");
    for n in [11, 12, 13, 40] {
        made.after(4, &[&list(four, &upto(0, n))]);
        made.write(if n == 11 { 0 } else { 22 }, 64);
    }
    for (p, s) in [(5, 10), (6, 11), (8, 13)] {
        for n in [limit(p) - 1, limit(p)] {
            made.lend(1 << p, 200, 200, 200);
            made.add(0, &list((p, s), &upto(0, n as u32)));
            made.write(if n < limit(p) { 0 } else { 22 }, 400);
        }
    }
    let gaps = [0, 128, 256, 384, 1024, 1216, 1217];
    for (values, want) in [(&[3; 11][..], 0), (&[3; 12], 22), (&gaps[..6], 0), (&gaps, 22)] {
        made.after(4, &[&list(four, values)]);
        made.write(want, 64);
    }
    made.all.remark("22 asks for the written length: gaps spelled long, kept bytes L and more, are written short; 12 of them are not");
    for (n, long) in [(11, 1), (11, 11), (1, 1), (12, 1)] {
        made.after(4, &[&raw(four, n as i32, &spelled(n, long))]);
        made.write(if n == 12 { 22 } else { 0 }, 64);
    }
    made.after(4, &[&raw(four, 3, &unhex("8380808000 8080808000 8180808000"))]);
    assert_eq!(made.roll.head.bytes, 15);
    made.written();
    made.head(Head { form: SPARSE, allowed: 15, p: 4, s: 9, size: 3, kept: 3, bytes: 2147483647, ..Head::default() });
    made.written();
    made.all.remark("22 leaves the roll-up as it was: a state with neither keeps it so, a list turns it dense, which is written");
    made.after(4, &[&list(four, &upto(0, 12))]);
    made.write(22, 64);
    made.add(0, &neither(four));
    made.write(22, 64);
    made.add(0, &list(four, &[300]));
    made.form(DENSE);
    made.again();
    made.all.remark("22 with values waiting does not come up: kept bytes + 5 x waiting is L-1");
    set_list(made, four, &[3], &[marked(four, 15, 56), marked(four, 3, 1)], 3);
    made.written();
    made.all.remark("23: an output that fits exactly, one byte less, one more, none: a list, values waiting, an empty list, registers");
    made.after(5, &[&list(pair, &[3, 700])]);
    made.spaces();
    made.add(0, &list(pair, &[5]));
    made.spaces();
    made.after(5, &[&neither(pair)]);
    made.spaces();
    made.after(4, &[&Fields { num_values: -1, sparse_size: -1, ..dense((4, -1), &registers(4, &[(3, 7)])) }]);
    made.spaces();
    made.all.remark("23 where lengths take one byte more: a nested message of 127 and 128 bytes, a list of 127 and 128; registers at p = 6, 7 and 14");
    for n in [119, 120, 127, 128] {
        made.lend(256, 200, 200, 200);
        made.add(0, &list((8, 13), &upto(1, n)));
        let size = made.written().len();
        made.write(0, size);
        made.write(23, size - 1);
    }
    for p in [6, 7] {
        made.lend(1 << p, 0, 0, 0);
        made.set_registers(&registers(p, &[(1, 7), ((1 << p) - 1, 9)]));
        made.head(Head { form: DENSE, allowed: 15, p, s: 20, ..Head::default() });
        let size = made.written().len();
        made.write(0, size);
        made.write(23, size - 1);
    }
    made.lend(16384, 18, 18, 18);
    made.set_kept(&upto(1, 16));
    made.head(Head { form: SPARSE, allowed: 15, num_values: 16, p: 14, s: 20, size: 16, kept: 16, bytes: limit(14), ..Head::default() });
    made.add(0, &list((14, 20), &[1000]));
    made.form(DENSE);
    made.write(23, 4096);
    let size = made.write(0, 20480).len();
    assert!(size > 16384);
    made.write(0, size);
    made.write(23, size - 1);
}

fn writing_lists(made: &mut Made) {
    let pair = (5, 10);
    let m = |i, m| marked(pair, i, m);
    made.all.remark("Nothing waiting: kept as it is, repeats as zero gaps, long spellings short; the first state's sparse size, a negative one in ten bytes");
    let repeats = original::encode_sparse(&[3, 3, 3, m(1, 2), m(1, 2), m(1, 5)]);
    for (size, bytes) in [(-7, &repeats[..]), (6, &repeats), (0, &[]), (i32::MIN, &[5]), (i32::MAX, &unhex("8380808000 00 8000 01"))] {
        made.after(5, &[&raw(pair, size, bytes)]);
        assert_eq!(made.written(), made.written());
        made.again();
    }
    made.all.remark("An empty list has field 6: of a state with an empty one, and of a state with neither");
    for f in [neither(pair), Fields { sparse_data: Some(Vec::new()), ..neither(pair) }, Fields { data: Some(Vec::new()), ..neither(pair) }] {
        made.after(5, &[&f]);
        assert!(made.written().ends_with(&[0x32, 0x00]));
        made.again();
    }
    made.all.remark("Values waiting: all as one list, and the sparse size is how many indices there are. Plain 32 and a marked value of index 1 count once, and both are written");
    let cases: [(&[u32], &[u32], i32, &[u32]); 12] = [
        (&[32], &[m(1, 3)], 1, &[32, m(1, 3)]),
        (&[m(1, 3)], &[32], 1, &[32, m(1, 3)]),
        (&[], &[m(1, 3), 32], 1, &[32, m(1, 3)]),
        (&[32, m(1, 3)], &[64], 2, &[32, 64, m(1, 3)]),
        (&[33], &[m(1, 3)], 2, &[33, m(1, 3)]),
        (&[m(1, 3)], &[m(1, 5)], 1, &[m(1, 5)]),
        (&[m(1, 5)], &[m(1, 3)], 1, &[m(1, 5)]),
        (&[3], &[3], 1, &[3]),
        (&[3, 3], &[4], 2, &[3, 4]),
        (&[0, m(0, 0)], &[0, m(0, 1)], 1, &[0, m(0, 1)]),
        (&[5, 9], &[8, 7, 8], 4, &[5, 7, 8, 9]),
        (&[], &[m(31, 55), 1023, m(31, 0), 992], 2, &[992, 1023, m(31, 55)]),
    ];
    for (kept, waiting, size, values) in cases {
        set_list(made, pair, kept, waiting, kept.len() + waiting.len());
        let f = Fields::parse(&made.written()).expect("a state");
        assert_eq!(f.sparse_size, size);
        assert_eq!(f.sparse_data, Some(original::encode_sparse(values)));
        made.write(0, 64);
    }
    made.all.remark("The same by adding; and at (4,4), where every value is marked");
    made.after(5, &[&list(pair, &[32]), &list(pair, &[m(1, 3), m(2, 0)])]);
    made.again();
    made.after(5, &[&neither(pair), &list(pair, &[5])]);
    made.again();
    let n = |i, m| marked((4, 4), i, m);
    for (values, size) in [(vec![n(3, 5)], 1), (vec![n(3, 1), n(4, 61)], 2)] {
        made.after(4, &[&list((4, 4), &[n(3, 2)]), &list((4, 4), &values)]);
        assert_eq!(Fields::parse(&made.written()).expect("a state").sparse_size, size);
        made.again();
    }
    made.all.remark("Write, add, write again, and twice, on each path: waiting, all merged, inserted, merged, turned dense, lowered");
    made.after(5, &[&list(pair, &[40])]);
    for f in [
        list(pair, &[30, 50]),
        list(pair, &[5]),
        neither(pair),
        list(pair, &[2, 41]),
        list(pair, &upto(60, 10)),
        list(pair, &[7]),
        Fields { value_type: 8, num_values: 0, ..list(pair, &[7, 8]) },
        list(pair, &upto(500, 9)),
        dense(pair, &registers(5, &[(9, 9)])),
        list((4, 9), &[9]),
        dense((6, 5), &registers(6, &[(63, 59)])),
    ] {
        made.add(0, &f);
        assert_eq!(made.written(), made.written());
    }
    made.form(DENSE);
    made.again();
}

fn writing_numbers(made: &mut Made) {
    let pair = (4, 9);
    let data = registers(4, &[(1, 5), (15, 61)]);
    made.all.remark("Dense: the first state's sparse size is written; 0 after a list turned dense; p and s that were lowered, s of any sign");
    for size in [0, 1, 42, -1, i32::MIN] {
        made.after(4, &[&Fields { sparse_size: size, ..dense(pair, &data) }]);
        made.add(0, &list(pair, &[3]));
        made.again();
    }
    made.after(4, &[&list(pair, &[1, 2, 3]), &dense(pair, &data)]);
    made.again();
    made.after(4, &[&list(pair, &[1, 2, 3]), &list(pair, &[7]), &list(pair, &upto(100, 12))]);
    made.form(DENSE);
    made.again();
    made.after(5, &[&Fields { sparse_size: 7, ..dense((5, 10), &registers(5, &[(1, 3), (30, 60)])) }, &dense((4, 12), &data)]);
    made.again();
    for s in [-1, 1, 30, i32::MIN, i32::MAX] {
        made.after(4, &[&dense((4, s), &data)]);
        made.again();
    }
    made.after(4, &[&dense(pair, &[0; 16]), &neither((5, 7))]);
    made.again();
    made.all.remark("Registers of 65-p, set by a list with s = p: refused lists change nothing, and what is written is read again");
    for pair in [(4, 4), (5, 5)] {
        let (p, most) = (pair.0, (65 - pair.0) as u32);
        made.after(p, &[&dense(pair, &registers(p, &[])), &list(pair, &[marked(pair, 1, most), marked(pair, 2, 1)])]);
        for bytes in ["01", "00", "8000"] {
            made.add(20, &raw(pair, 1, &unhex(bytes)));
        }
        assert_eq!(made.roll.registers[1], most as u8);
        made.again();
    }
    made.all.remark("Value counts: 0, negative, wrapped. Value types: the first state's, though later ones narrow the mask");
    for n in [0, -1, i64::MIN, i64::MAX, 127, 128] {
        made.after(4, &[&Fields { num_values: n, ..list(pair, &[3]) }]);
        made.written();
        made.add(0, &list(pair, &[4]));
        made.again();
    }
    for value_type in [0, 7, 8, 11] {
        for f in [list(pair, &[3]), dense(pair, &data)] {
            made.after(4, &[&Fields { value_type, ..f.clone() }]);
            made.written();
            made.add(0, &Fields { value_type: if value_type == 0 { 8 } else { 0 }, ..f });
            made.again();
        }
    }
}

fn by_chance(made: &mut Made) {
    made.all.remark("Sequences by chance: valid states, damaged ones among them, by `add` and by `add_fitting`; now and then little memory");
    for _ in 0..44 {
        let pair = some_pair(&mut made.chance);
        let n = if made.chance.below(5) == 0 { made.chance.below(24) as usize } else { 90 };
        made.lend((1 << pair.0) + 2, n, 90, 90);
        for _ in 0..8 {
            made.some_call(pair);
        }
        made.ask();
    }
    made.all.remark("Heads by chance that fit, some of which no sequence of calls leaves");
    for _ in 0..36 {
        let pair = some_pair(&mut made.chance);
        made.lend((1 << pair.0) + 1, 90, 90, 90);
        let head = Head { form: SPARSE, allowed: [15, 15, 12, 1][made.chance.below(4) as usize], num_values: -3, p: pair.0, s: pair.1, size: 8, ..Head::default() };
        if made.chance.below(6) == 0 {
            let mut registers = some_registers(&mut made.chance, pair.0);
            registers[3] = (65 - pair.0) as u8;
            made.set_registers(&registers);
            made.head(Head { form: DENSE, ..head });
        } else {
            let kept = some_list(&mut made.chance, pair, 24);
            let bytes = original::encode_sparse(&kept).len() as u64 + [0, 0, 3, 20][made.chance.below(4) as usize];
            let most = limit(pair.0).saturating_sub(bytes + 1) / 5;
            let mut waiting = some_list(&mut made.chance, pair, most.min(6));
            if made.chance.below(2) == 0 {
                waiting.reverse();
            }
            made.set_kept(&kept);
            made.set_waiting(&waiting);
            made.head(Head { kept: kept.len() as u64, bytes, waiting: waiting.len() as u64, ..head });
        }
        assert!(made.roll.fits());
        made.near();
        for _ in 0..3 {
            made.some_call(pair);
        }
    }
}

fn main() {
    let mut made = Made { all: Cases::default(), chance: Chance(0x9abe_68bf_8701_5eed), roll: Rollup::default(), merged: 0, refused: 0, turn: 0 };
    examples(&mut made);
    wire(&mut made);
    headers(&mut made);
    masks(&mut made);
    carried(&mut made);
    room(&mut made);
    bad_lists(&mut made);
    equal_precisions(&mut made);
    unfit(&mut made);
    unfit_equal(&mut made);
    paths(&mut made);
    edges(&mut made);
    difference(&mut made);
    writing_questions(&mut made);
    writing_lists(&mut made);
    writing_numbers(&mut made);
    by_chance(&mut made);
    made.all.write(163840);
    println!("{:5} by the merge that the Difference asks for", made.merged);
    println!("{:5} refused as U3 asks, where the original says something else", made.refused);
}
