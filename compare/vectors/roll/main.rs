//! Makes the cases of `crates/roll_cases` and what must be printed for each: batches. The states' answers, p, s, the value count, the registers and
//! the written bytes are those of the Rust original (`compare/original`). What it has no counterpart of is worked out here from document 01: the
//! chain with questions 24 and 25, the lent sizes with question 17, questions 21 and 22, and the merge that "Difference" asks for; and in `model.rs` the lists with
//! s = p that document 02, U3, refuses. Where a document gives an answer, it stands here as an expectation, and another answer stops the run.

mod cases;
mod lists;
#[allow(dead_code)]
mod model;
mod states;

use cases::{hex, mark, marked, unhex, Cases, Chance, Pair};
use original::{Accumulator, Fields, Probe};
use states::{damaged, dense, edge_values, equal_lists, neither, raw, registers, some_list, some_pair, some_registers, spelled, upto};
use std::collections::BTreeMap;

const UNSTARTED: u8 = 0;
const SPARSE: u8 = 1;
const DENSE: u8 = 2;

// ---- document 01, where the original has no counterpart

/// "Lending 65,536 registers, three lists of 16,384 and 65,536 output bytes."
const REGISTERS: usize = 65536;
const CELLS: usize = 16384;
const OUTPUT: usize = 65536;

/// "Limit L = 3 × 2^(p−2)."
fn limit(p: i32) -> usize {
    3 << (p - 2)
}

/// "Where kept holds equal values or two marked values of one index."
fn repeats(p: i32, s: i32, list: &[u32]) -> bool {
    let mark = mark((p, s));
    list.windows(2).any(|w| w[0] == w[1] || w[0] >= mark && (w[0] - mark) / 64 == (w[1] - mark) / 64)
}

/// Question 17: "Has register memory 2^p bytes (the roll-up's p, the state's if unstarted), and, where the sparse field is not empty, each u32
/// list kept + waiting + that field's byte length?"
fn has_room(x: &Probe, f: &Fields) -> bool {
    let p = if x.form == UNSTARTED { f.precision } else { x.precision };
    let listed = f.sparse_data.as_ref().map_or(0, Vec::len);
    REGISTERS >= 1 << p && (listed == 0 || CELLS >= x.sparse.len() + x.pending.len() + listed)
}

/// How many values are listed in an accepted state; 0 where it has no list bytes.
fn listed(f: &Fields) -> usize {
    f.sparse_data.as_ref().map_or(0, |l| original::decode_sparse(l, f.precision, f.sparse_precision).expect("an accepted list").len())
}

fn has_data(f: &Fields) -> bool {
    f.data.as_ref().is_some_and(|d| !d.is_empty())
}

/// Whether an accepted list at a list roll-up waits, and whether it is short enough to be inserted.
fn waits(x: &Probe, k: usize) -> bool {
    x.sparse_bytes + 5 * x.pending.len() + 5 * k < limit(x.precision) && x.pending.len() + k <= 2048
}

fn short(x: &Probe, k: usize) -> bool {
    k <= 16 && 16 * k <= x.sparse.len()
}

/// Whether "Difference" has an accepted state's list merged that would be inserted.
fn differs(x: &Probe, f: &Fields) -> bool {
    let k = listed(f);
    x.form == SPARSE && k > 0 && x.pending.is_empty() && !waits(x, k) && short(x, k) && repeats(x.precision, x.sparse_precision, &x.sparse)
}

/// The path of module 6 that an accepted state takes.
fn path(x: &Probe, f: &Fields, after: &Probe) -> String {
    let k = listed(f);
    let kind = if has_data(f) { "registers" } else if k > 0 { "a list" } else { "neither" };
    let compared = match f.precision.cmp(&x.precision) {
        std::cmp::Ordering::Less => "smaller",
        std::cmp::Ordering::Equal => "equal",
        std::cmp::Ordering::Greater => "larger",
    };
    match x.form {
        UNSTARTED => format!("first, {kind}"),
        DENSE => format!("at registers, {kind} of {compared} p"),
        _ if k == 0 => format!("at a list, {kind}"),
        _ => {
            let how = if waits(x, k) {
                assert_eq!(after.pending.len(), x.pending.len() + k);
                "waits"
            } else if !x.pending.is_empty() {
                "merged with those that wait"
            } else if differs(x, f) {
                "merged as Difference asks"
            } else if short(x, k) {
                "inserted"
            } else {
                "merged"
            };
            format!("at a list, {how}{}", if after.form == DENSE { ", turns dense" } else { "" })
        }
    }
}

const PATHS: [&str; 18] = [
    "first, a list", "first, neither", "first, registers", "at a list, waits", "at a list, merged with those that wait",
    "at a list, merged with those that wait, turns dense", "at a list, inserted", "at a list, inserted, turns dense", "at a list, merged",
    "at a list, merged, turns dense", "at a list, merged as Difference asks", "at a list, merged as Difference asks, turns dense",
    "at a list, neither", "at a list, registers", "at registers, registers of smaller p", "at registers, registers of larger p",
    "at registers, a list of smaller p", "at registers, a list of larger p",
];

/// What is printed of a batch, and what came up.
#[derive(Default)]
struct Rolled {
    text: String,
    answers: Vec<u8>,
    paths: Vec<String>,
    /// How many states were refused as document 02, U3, asks, where the original says something else.
    departures: usize,
    /// 0 where the chain ends with an index of zero, else 24 or 25.
    ending: u8,
    /// The four closing numbers.
    closing: (i32, i32, i64, usize),
    /// 0, or the number of the writing refusal; the written bytes.
    written: (u8, Vec<u8>),
    form: u8,
    waiting: usize,
}

/// "Indices and lengths are 4 bytes, low first."
fn word_at(batch: &[u8], at: usize) -> u64 {
    u64::from(u32::from_le_bytes(batch[at..at + 4].try_into().expect("four bytes")))
}

/// Whether what the original writes has registers.
fn writes_registers(rust: &Accumulator) -> bool {
    Fields::parse(&rust.serialize().expect("a started roll-up")).expect("a state").data.is_some()
}

impl Rolled {
    fn line(&mut self, ordinal: usize, answer: u8) {
        self.text += &format!("{ordinal} {answer}\n");
    }

    /// The answer to a state, which is added where it is accepted.
    fn add(&mut self, rust: &mut Accumulator, state: &[u8]) -> u8 {
        let mut after = rust.clone();
        let said = original::add(&mut after, state);
        if said != 0 && said < 17 {
            return said;
        }
        let f = Fields::parse(state).expect("a state that was read");
        let x = rust.probe();
        if !has_room(&x, &f) {
            return 17;
        }
        let (answer, departure) = model::listed(&f, said);
        self.departures += usize::from(departure != model::Departure::None);
        if answer != 0 {
            return answer;
        }
        if differs(&x, &f) {
            after = rust.clone();
            after.probe_merge(state).expect("an accepted list");
        }
        self.paths.push(path(&x, &f, &after.probe()));
        *rust = after;
        0
    }

    fn walk(&mut self, rust: &mut Accumulator, batch: &[u8]) {
        // "24: at most 65,536 bytes, at least 4?"
        if batch.len() < 4 || batch.len() > 65536 {
            self.ending = 24;
            self.line(0, 24);
            return;
        }
        let mut before = 0;
        let mut at = word_at(batch, 0);
        // "Zero ends the chain."
        while at != 0 {
            let ordinal = self.answers.len() + 1;
            let size = batch.len() as u64;
            // "25: is each index at least 4 and above the one before, and the record inside?"
            let inside = at >= 4 && at > before && at + 8 <= size && at + 8 + word_at(batch, at as usize + 4) <= size;
            if !inside {
                self.ending = 25;
                self.line(ordinal, 25);
                return;
            }
            let i = at as usize;
            let answer = self.add(rust, &batch[i + 8..i + 8 + word_at(batch, i + 4) as usize]);
            self.answers.push(answer);
            self.line(ordinal, answer);
            before = at;
            at = word_at(batch, i);
        }
    }

    /// "Then p, s, value count, registers not zero; then the written state, or the writing refusal's number."
    fn close(&mut self, rust: &Accumulator) {
        let x = rust.probe();
        let not_zero = rust.probe_registers().iter().filter(|r| **r != 0).count();
        self.form = x.form;
        self.waiting = x.pending.len();
        self.closing = (x.precision, x.sparse_precision, x.num_values, not_zero);
        let (p, s, count, n) = self.closing;
        assert!(x.form != UNSTARTED || self.closing == (0, 0, 0, 0), "unstarted prints four zeros");
        self.text += &format!("{p} {s} {count} {n}\n");
        self.written = if x.form == UNSTARTED {
            assert!(rust.serialize().is_none());
            (21, Vec::new())
        } else if x.form == SPARSE && x.pending.is_empty() && original::encode_sparse(&x.sparse).len() >= limit(x.precision) {
            // With values waiting, kept bytes + 5 x waiting is below L, and the written length is no more.
            assert!(writes_registers(rust), "the sketch writes registers where 22 is expected");
            (22, Vec::new())
        } else {
            assert_eq!(writes_registers(rust), x.form == DENSE);
            (0, rust.serialize().expect("a started roll-up"))
        };
        assert!(self.written.1.len() <= OUTPUT && x.sparse.len() + x.pending.len() <= CELLS, "23 and the writer's 17 do not come up");
        self.text += &match &self.written {
            (0, bytes) => hex(bytes),
            (n, _) => n.to_string(),
        };
    }

    fn of(batch: &[u8]) -> Rolled {
        let mut rolled = Rolled::default();
        let mut rust = Accumulator::new();
        rolled.walk(&mut rust, batch);
        rolled.close(&rust);
        rolled
    }
}

// ---- batches

/// A batch in a case: a piece of up to five bytes that stands there several times is a word with a star.
fn spelled_out(batch: &[u8]) -> String {
    let mut words: Vec<String> = Vec::new();
    let mut open = false;
    let mut at = 0;
    while at < batch.len() {
        let times = |d: usize| batch[at..].chunks(d).take_while(|piece| *piece == &batch[at..(at + d).min(batch.len())]).count();
        let (d, n) = (1..=5).map(|d| (d, times(d))).max_by_key(|(d, n)| (d * n, 9 - d)).expect("a piece");
        if n > 2 && d * n > 9 {
            words.push(format!("{}*{n}", hex(&batch[at..at + d])));
            open = false;
            at += d * n;
            continue;
        }
        if !open {
            words.push(String::new());
            open = true;
        }
        *words.last_mut().expect("a word") += &hex(&batch[at..at + 1]);
        at += 1;
    }
    words.join(" ")
}

fn word(n: usize) -> [u8; 4] {
    (n as u32).to_le_bytes()
}

/// A record: next index, length, state.
fn record(next: usize, state: &[u8]) -> Vec<u8> {
    [&word(next)[..], &word(state.len()), state].concat()
}

/// The states as a chain, with so many bytes that belong to none before each record.
fn chain_apart(apart: usize, states: &[Vec<u8>]) -> Vec<u8> {
    if states.is_empty() {
        return vec![0; 4];
    }
    let mut batch = word(4 + apart).to_vec();
    for (i, state) in states.iter().enumerate() {
        batch.resize(batch.len() + apart, 0xee);
        let next = if i + 1 == states.len() { 0 } else { batch.len() + 8 + state.len() + apart };
        batch.extend(record(next, state));
    }
    batch
}

fn chain(states: &[Vec<u8>]) -> Vec<u8> {
    chain_apart(0, states)
}

/// Puts a number at a place.
fn put(batch: &[u8], at: usize, n: usize) -> Vec<u8> {
    let mut batch = batch.to_vec();
    batch[at..at + 4].copy_from_slice(&word(n));
    batch
}

// ---- states

/// Document 01's A.
fn a() -> Vec<u8> {
    unhex("08701002180220088207 0c 1002180a200f 320421e28004")
}

/// A list, written.
fn list(pair: Pair, values: &[u32]) -> Vec<u8> {
    states::list(pair, values).encode()
}

// ---- cases

struct Made {
    all: Cases,
    chance: Chance,
    answers: BTreeMap<u8, usize>,
    paths: BTreeMap<String, usize>,
    departures: usize,
}

impl Made {
    fn said(&mut self, line: &str, batch: &[u8]) -> Rolled {
        assert!(batch.len() <= 65537, "the program has room for 65,537 bytes");
        let rolled = Rolled::of(batch);
        let count = |n: usize| if n == 0 { "no record" } else if n < 100 { "records" } else { "100 records or more" };
        let class = match rolled.ending {
            24 => "24".to_string(),
            25 => format!("{}, then 25", count(rolled.answers.len())),
            _ => format!("{}, all of the chain", count(rolled.answers.len())),
        };
        self.all.line(line, &rolled.text, class);
        for n in rolled.answers.iter().chain([&rolled.ending, &rolled.written.0]).filter(|n| **n != 0) {
            *self.answers.entry(*n).or_default() += 1;
        }
        *self.answers.entry(0).or_default() += rolled.answers.iter().filter(|n| **n == 0).count();
        self.departures += rolled.departures;
        for p in &rolled.paths {
            *self.paths.entry(p.clone()).or_default() += 1;
        }
        rolled
    }

    fn batch(&mut self, batch: &[u8]) -> Rolled {
        self.said(&spelled_out(batch), batch)
    }

    /// A chain of states whose answers are known.
    fn answered(&mut self, states: &[Vec<u8>], want: &[u8]) -> Rolled {
        let rolled = self.batch(&chain(states));
        assert_eq!(rolled.answers, want, "{:.200}", rolled.text);
        rolled
    }

    /// A chain of states that are all accepted.
    fn taken(&mut self, states: &[Vec<u8>]) -> Rolled {
        self.answered(states, &vec![0; states.len()])
    }

    /// A batch whose chain ends in 25 behind so many records.
    fn broken(&mut self, batch: &[u8], records: usize) -> Rolled {
        let rolled = self.batch(batch);
        assert_eq!((rolled.ending, rolled.answers.len()), (25, records), "{:.200}", rolled.text);
        rolled
    }
}

fn examples(made: &mut Made) {
    made.all.remark("Case B1 of document 01");
    let b1 = unhex(&format!("04000000 23000000 17000000 {0} 00000000 17000000 {0}", hex(&a())));
    let rolled = made.batch(&b1);
    assert_eq!(rolled.text, "1 0\n2 0\n10 15 4 2\n087010041802200882070c1002180a200f320421e28004");
    assert_eq!(b1, chain(&[a(), a()]));
    made.all.remark("The same bytes in other words; and pieces of several bytes that stand there once, several times and not at all");
    made.said("04 00*3 23 00*3 17000000 08701002180220088207 0c1002180a200f 320421e28004 00*1 0000 00 17 0000*1 00 087010021802 20088207 0c10 02180a200f 32 0421e28004", &b1);
    made.said("00*4", &[0; 4]);
    made.said("0000*2", &[0; 4]);
    made.said("04000000*3 0100*2 00*0 00", &unhex("040000000400000004000000 01000100 00"));
    made.all.remark("An unstarted roll-up prints four zeros and 21");
    let rolled = made.batch(&[0; 4]);
    assert_eq!(rolled.text, "0 0 0 0\n21");
    let rolled = made.answered(&[unhex("1802")], &[11]);
    assert_eq!(rolled.text, "1 11\n0 0 0 0\n21");
    made.answered(&[Vec::new()], &[8]);
}

fn sizes(made: &mut Made) {
    made.all.remark("24: fewer than 4 bytes, more than 65,536");
    for batch in ["", "00", "04", "0000", "0400", "000000", "040000"] {
        let rolled = made.batch(&unhex(batch));
        assert_eq!(rolled.text, "0 24\n0 0 0 0\n21");
    }
    for (n, ending) in [(65535, 0), (65536, 0), (65537, 24)] {
        let rolled = made.batch(&vec![0; n]);
        assert_eq!(rolled.ending, ending);
        let mut batch = chain(&[a(), a()]);
        batch.resize(n, 0);
        let rolled = made.batch(&batch);
        assert_eq!((rolled.ending, rolled.answers.len()), (ending, if ending == 0 { 2 } else { 0 }));
        let mut batch = chain(&[a(), a()]);
        batch.resize(n, 0xff);
        made.batch(&batch);
    }
    made.all.remark("4 bytes: the first index alone");
    for n in [1, 2, 3, 4, 5, 8, 256, 65536, 1 << 24, 0x7fff_ffff, 0x8000_0000, 0xffff_ffff] {
        made.broken(&word(n), 0);
    }
    made.all.remark("A batch of 65,536 bytes whose one record ends with it, and one byte less and more in the length");
    let mut state = a();
    // A field that is skipped: number 5, wire type 2, with what is missing to 65,536 bytes.
    let fill = 65536 - 12 - state.len() - 1 - 3;
    state.extend([vec![0x2a, (fill % 128) as u8 | 0x80, (fill / 128 % 128) as u8 | 0x80, (fill / 16384) as u8], vec![0; fill]].concat());
    let whole = [word(4).to_vec(), record(0, &state)].concat();
    assert_eq!(whole.len(), 65536);
    assert_eq!(made.batch(&whole).answers, [0]);
    assert_eq!(made.batch(&put(&whole, 8, state.len() - 1)).answers, [3]);
    made.broken(&put(&whole, 8, state.len() + 1), 0);
}

fn chains(made: &mut Made) {
    let one = chain(&[a()]);
    let two = chain(&[a(), list((10, 15), &[7, 900])]);
    let three = chain(&[a(), list((10, 15), &[7, 900]), a()]);
    let second = word_at(&two, 4) as usize;
    let third = word_at(&three, second) as usize;
    made.all.remark("The first index: every number up to the end and past it");
    for n in 0..one.len() + 4 {
        made.batch(&put(&one, 0, n));
    }
    made.all.remark("The first index is below 4, and a whole record stands there: the first index is part of it");
    for n in 1..4 {
        made.broken(&[&word(n)[..], &[0; 12]].concat(), 0);
        made.broken(&[&word(n)[..n], &record(0, &a())].concat(), 0);
        made.broken(&[&word(n)[..n], &record(40, &a()), &[0; 20]].concat(), 0);
    }
    made.all.remark("The first index: 0 with records behind it; that of the second record; numbers with high bytes");
    assert_eq!(made.batch(&put(&three, 0, 0)).answers, []);
    assert_eq!(made.batch(&put(&three, 0, second)).answers, [0, 0]);
    assert_eq!(made.batch(&put(&three, 0, third)).answers, [0]);
    for n in [0x104, 0x10004, 0x0100_0004, 0x8000_0004, 0xffff_fffc, 0xffff_ffff] {
        made.broken(&put(&three, 0, n), 0);
    }
    made.all.remark("The next index: 0 early, below 4, the record's own, backwards, one byte on, past the end, high bytes; what came before counts");
    assert_eq!(made.batch(&put(&three, 4, 0)).answers, [0]);
    assert_eq!(made.batch(&put(&three, second, 0)).answers, [0, 0]);
    assert_eq!(made.batch(&put(&three, 4, third)).answers, [0, 0]);
    for n in [1, 2, 3, 4, second - 1, second, 0x10000 + third, 0x0100_0000 + third, 0x8000_0000, 0xffff_ffff] {
        made.broken(&put(&three, second, n), 2);
    }
    for n in [1, 3, 4, three.len() - 7, three.len(), three.len() + 1, 0x10000 + second] {
        made.broken(&put(&three, 4, n), 1);
    }
    made.batch(&put(&three, 4, 5));
    made.batch(&put(&three, 4, second + 1));
    made.all.remark("The last record's next index: its own, the one before, the first, the end");
    for n in [third, second, 4, third - 1, three.len() - 8, three.len() - 7, three.len()] {
        made.batch(&put(&three, third, n));
    }
    made.all.remark("A record at the very end, with no state: it fits by 8 bytes, not by 7");
    for apart in 0..9 {
        let mut batch = put(&one, 4, one.len());
        batch.extend(vec![0; apart]);
        let rolled = made.batch(&batch);
        assert_eq!((rolled.answers.len(), rolled.ending), if apart < 8 { (1, 25) } else { (2, 0) });
    }
    made.all.remark("Lengths: exactly to the end, one more, one less, into the next record, high bytes, 2^32-1");
    for n in [0, 1, 22, 23] {
        let rolled = made.batch(&put(&one, 8, n));
        assert_eq!(rolled.ending, 0);
    }
    for n in [24, 25, 256 + 23, 65536 + 23, (1 << 24) + 23, 1 << 31, 0xffff_ffff, 0xffff_fff4, 0xffff_fff8] {
        made.broken(&put(&one, 8, n), 0);
    }
    for n in [0, 22, 24, 30, 31, 60] {
        made.batch(&put(&three, 8, n));
    }
    for n in [three.len() - third - 8, three.len() - third - 7, three.len() - third - 9] {
        made.batch(&put(&three, third + 4, n));
    }
    made.all.remark("25 is the second record's, and the first was refused; it is the third's, behind a refused one");
    made.broken(&put(&chain(&[unhex("08"), a()]), 4, 3), 1);
    made.broken(&put(&chain(&[unhex("08"), a(), unhex("0870")]), second - 22, 3), 2);
    made.all.remark("Cut after each byte");
    for n in 0..two.len() {
        made.batch(&two[..n]);
    }
    made.all.remark("Bytes that belong to no record, before and between");
    for apart in [1, 2, 3, 7, 300] {
        let rolled = made.batch(&chain_apart(apart, &[a(), list((10, 15), &[7, 900]), a()]));
        assert_eq!((rolled.answers, rolled.ending), (vec![0, 0, 0], 0));
    }
}

fn overlaps(made: &mut Made) {
    made.all.remark("Records that overlap: a record in a skipped field of the one before; all are accepted");
    let inner = list((10, 15), &[7, 900, 20000]);
    let skipped = |bytes: &[u8]| [vec![0x2a, bytes.len() as u8], bytes.to_vec()].concat();
    // The first state is A and a skipped field that holds the second record.
    let at = 4 + 8 + 23 + 2;
    let batch = [word(4).to_vec(), record(at, &[a(), skipped(&record(0, &inner))].concat())].concat();
    assert_eq!(made.batch(&batch).answers, [0, 0]);
    made.all.remark("The second record's head in a skipped field, its state the end of the first one's");
    let batch = [word(4).to_vec(), record(at, &[a(), vec![0x2a, 8], word(0).to_vec(), word(inner.len()).to_vec(), inner.clone()].concat())].concat();
    let rolled = made.batch(&batch);
    assert_eq!(rolled.answers, [0, 0]);
    made.all.remark("Three in each other");
    let deep = [a(), skipped(&record(0, &inner))].concat();
    let batch = [word(4).to_vec(), record(at, &[a(), skipped(&record(at + 8 + 23 + 2, &deep))].concat())].concat();
    assert_eq!(made.batch(&batch).answers, [0, 0, 0]);
    made.all.remark("A ladder: each record is four bytes behind the one before, and its length is the next one's next index");
    for n in [16, 20, 24, 28, 32, 40, 64, 100, 400] {
        let batch: Vec<u8> = (0..n / 4).flat_map(|i| word(4 * i + 4)).collect();
        made.batch(&batch);
    }
    made.all.remark("Records one byte behind each other");
    let batch = unhex("04000000 05000000 06000000 07000000 00000000 00000000 00000000");
    made.batch(&batch);
    made.batch(&unhex("04000000 05000000 00000000 00000000"));
    made.batch(&unhex("05000000 00 06000000 00000000 00000000"));
    made.batch(&unhex("04000000 05 00 00 00 00 00 00 00 00 00 00 00 00"));
    made.batch(&unhex("04000000 06000000 00000000 000000 00"));
}

fn answers(made: &mut Made) {
    made.all.remark("Each answer from 3 to 20: alone; between two that are accepted; and all in one batch");
    let good = |v: u32| list((10, 15), &[v, v + 40]);
    let data = |r: &[u8]| dense((10, 15), r).encode();
    let refused: Vec<(u8, Vec<u8>)> = vec![
        (3, a()[..22].to_vec()),
        (3, unhex("180282070507")),
        (4, unhex("0880808080808080808080 01")),
        (5, unhex("00")),
        (5, unhex("8080808010")),
        (6, unhex("2b")),
        (6, unhex("2e")),
        (7, Fields { kind: 111, ..neither((10, 15)) }.encode()),
        (8, Fields { encoding_version: 1, ..neither((10, 15)) }.encode()),
        (8, Vec::new()),
        (9, Fields { value_type: 6, ..neither((10, 15)) }.encode()),
        (10, raw((10, 0), 1, &[1]).encode()),
        (11, neither((3, 15)).encode()),
        (11, neither((25, 25)).encode()),
        (11, neither((-1, 25)).encode()),
        (12, data(&[0; 1023])),
        (12, data(&[0; 1])),
        (13, raw((10, 9), 1, &[1]).encode()),
        (13, raw((10, 26), 1, &[1]).encode()),
        (13, neither((10, -15)).encode()),
        (14, data(&registers(10, &[(1023, 56)]))),
        (16, neither((10, 0)).encode()),
        (16, Fields { sparse_data: Some(Vec::new()), ..dense((10, 15), &[0; 1024]) }.encode()),
        (16, Fields { sparse_data: Some(vec![1]), ..dense((10, 15), &[0; 1024]) }.encode()),
        (17, neither((17, 20)).encode()),
        (17, raw((10, 15), 1, &vec![1; 16385]).encode()),
        (18, raw((10, 15), 1, &[1, 0x80]).encode()),
        (18, raw((10, 15), 1, &unhex("80800280")).encode()),
        (18, raw((10, 15), 1, &unhex("808080800f80")).encode()),
        (19, raw((10, 15), 1, &unhex("8080808010")).encode()),
        (20, raw((10, 15), 1, &unhex("808080800f")).encode()),
        (20, raw((10, 15), 1, &unhex("b3800480")).encode()),
        (20, raw((10, 15), 1, &unhex("80800201")).encode()),
    ];
    for (n, state) in &refused {
        let rolled = made.answered(&[state.clone()], &[*n]);
        assert_eq!(rolled.written.0, 21);
        let after = if state == &neither((17, 20)).encode() { 16 } else { *n };
        let rolled = made.answered(&[good(3), state.clone(), good(99)], &[0, after, 0]);
        assert_eq!((rolled.closing.2, rolled.written.0), (4, 0));
    }
    let few: Vec<(u8, Vec<u8>)> = refused.iter().filter(|(_, s)| s.len() < 1000 && **s != neither((17, 20)).encode()).cloned().collect();
    let states: Vec<Vec<u8>> = few.iter().flat_map(|(_, s)| [s.clone(), good(3)]).collect();
    let want: Vec<u8> = few.iter().flat_map(|(n, _)| [*n, 0]).collect();
    made.answered(&states, &want);
    made.all.remark("15: the masks do not meet, at a list and at registers; a refused state changes nothing, so the mask stays");
    let typed = |t: i32, f: Fields| Fields { value_type: t, ..f }.encode();
    let l = |v: u8| raw((10, 15), 1, &[v]);
    made.answered(&[typed(7, l(1)), typed(8, l(2))], &[0, 15]);
    made.answered(&[typed(0, l(1)), typed(7, l(2)), typed(8, l(3)), typed(11, l(4)), typed(0, l(5)), typed(7, l(6))], &[0, 0, 15, 15, 0, 0]);
    made.answered(&[typed(11, dense((4, 9), &[0; 16])), typed(8, l(2)), typed(0, l(3)), typed(7, l(3)), typed(11, l(7))], &[0, 15, 0, 15, 0]);
    made.answered(&[typed(8, l(1)), typed(7, dense((10, 0), &[0; 1024])), typed(7, neither((17, 20))), typed(8, neither((10, 15)))], &[0, 15, 15, 0]);
    made.all.remark("16 at a list: another p, another s; the same at registers is accepted");
    made.answered(&[a(), list((10, 16), &[1]), list((11, 15), &[1]), neither((10, 14)).encode(), dense((9, 15), &[0; 512]).encode(), a()], &[0, 16, 16, 16, 16, 0]);
    made.taken(&[dense((10, 15), &[0; 1024]).encode(), list((10, 16), &[1]), list((11, 15), &[1]), neither((10, 14)).encode(), dense((9, 15), &[0; 512]).encode(), a()]);
    made.all.remark("16 before 17, 17 before 18 to 20");
    let long = |last: u8| [vec![1; 16384], vec![last]].concat();
    made.answered(&[a(), raw((10, 16), 1, &long(1)).encode(), raw((10, 15), 1, &long(0x80)).encode(), raw((10, 15), 1, &long(1)).encode()], &[0, 16, 17, 17]);
    made.answered(&[raw((17, 25), 1, &[0x80]).encode()], &[17]);
}

fn lent(made: &mut Made) {
    made.all.remark("p = 16: the registers just fit. p = 17 and 24: 17. At registers of a smaller p any p is accepted");
    let rolled = made.taken(&[neither((16, 20)).encode()]);
    assert_eq!(rolled.closing, (16, 20, 1, 0));
    let rolled = made.taken(&[list((16, 20), &[0, 15, 16, (1 << 20) - 1])]);
    assert_eq!(rolled.closing, (16, 20, 4, 3));
    let m = |i: u32, n: u32| marked((16, 25), i, n);
    let wide = list((16, 25), &[0, 1 << 24, (1 << 25) - 1, m(0, 0), m(7, 40), m(65535, 0), m(65535, 40)]);
    made.taken(&[wide.clone(), list((16, 25), &[5, m(65535, 3)]), wide.clone()]);
    made.taken(&[list((16, 16), &[marked((16, 16), 0, 1), marked((16, 16), 9, 1), marked((16, 16), 65535, 49)]), neither((16, 16)).encode()]);
    for p in [17, 18, 24] {
        made.answered(&[neither((p, 25)).encode(), list((p, 25), &[3]), list((16, 25), &[3])], &[17, 17, 0]);
        made.taken(&[dense((4, 25), &registers(4, &[(3, 9)])).encode(), neither((p, 25)).encode(), list((p, 25), &[3, 1 << 20, (1 << 25) - 1])]);
        made.answered(&[list((16, 25), &[3]), list((p, 25), &[3])], &[0, 16]);
    }
    made.all.remark("Registers of p = 17 do not fit in a batch; a list field of 16,384 bytes and of 16,385, in values of one byte and of five");
    let bytes = |n: usize| raw((16, 25), n as i32, &vec![1; n]).encode();
    let rolled = made.taken(&[bytes(16384)]);
    assert_eq!(rolled.closing.3, 33);
    made.answered(&[bytes(16385), bytes(1)], &[17, 0]);
    let five = |n: usize| raw((16, 25), n as i32, &unhex("8180808000").repeat(n)).encode();
    made.taken(&[five(3276)]);
    made.answered(&[five(3277), five(1)], &[17, 0]);
    made.all.remark("Kept + the field's bytes: 16,384 and 16,385; the state after them is refused too, but for one that has no list");
    made.answered(&[bytes(16384), bytes(1), neither((16, 25)).encode(), raw((16, 25), 0, &[]).encode(), bytes(2)], &[0, 17, 0, 0, 17]);
    made.answered(&[bytes(16383), bytes(1), bytes(1)], &[0, 0, 17]);
    made.answered(&[bytes(16000), bytes(384), bytes(385), bytes(1)], &[0, 0, 17, 17]);
    made.answered(&[bytes(16000), bytes(200), raw((16, 25), 1, &[vec![0x81, 0x80, 0x80, 0x80, 0], vec![1; 179]].concat()).encode(), bytes(1)], &[0, 0, 0, 0]);
    made.answered(&[bytes(16000), bytes(200), raw((16, 25), 1, &[vec![0x81, 0x80, 0x80, 0x80, 0], vec![1; 180]].concat()).encode(), bytes(1)], &[0, 0, 17, 0]);
    made.all.remark("The same after a merge, which drops what is there twice; and at registers, where nothing is kept");
    made.answered(&[bytes(12000), bytes(2049), bytes(2336), bytes(2335), bytes(4384), bytes(4385)], &[0, 0, 0, 0, 0, 17]);
    made.answered(&[dense((14, 25), &[0; 16384]).encode(), raw((15, 25), 1, &vec![1; 16385]).encode(), raw((15, 25), 1, &vec![1; 16384]).encode()], &[0, 17, 0]);
    made.all.remark("Lists nearly full at p = 15, below L = 24,576 and at it, and at p = 14, L = 12,288");
    let wide = |p: i32, gap: u32, n: u32| list((p, 25), &(1..=n).map(|i| i * gap).collect::<Vec<_>>());
    made.taken(&[wide(15, 300, 8191)]);
    made.answered(&[wide(15, 300, 8191), wide(15, 300, 4096), wide(15, 300, 4097), wide(15, 300, 2000)], &[0, 0, 17, 0]);
    made.answered(&[wide(15, 128, 8192), wide(15, 16384, 1), raw((15, 25), 1, &vec![1; 8191]).encode(), bytes(1)], &[0, 0, 0, 16]);
    let rolled = made.taken(&[raw((14, 20), 1, &vec![1; 12287]).encode()]);
    assert_eq!(rolled.written.0, 0);
    let rolled = made.taken(&[raw((14, 20), 1, &vec![1; 12288]).encode()]);
    assert_eq!(rolled.written.0, 22);
    let rolled = made.taken(&[raw((14, 20), 1, &vec![1; 12288]).encode(), raw((14, 20), 1, &vec![1; 1]).encode()]);
    assert_eq!(rolled.form, DENSE);
}

fn paths(made: &mut Made) {
    let pair = (5, 10);
    let m = |i, m| marked(pair, i, m);
    made.all.remark("Kept bytes + 5 x waiting + 5 x k is L-1, and L, with nothing and with something waiting");
    for (bytes, k) in [(3, 4), (4, 4), (8, 3), (9, 3), (18, 1), (19, 1), (13, 2), (14, 2)] {
        made.taken(&[raw(pair, 1, &spelled(bytes, 0)).encode(), list(pair, &upto(200, k))]);
    }
    for (bytes, w, k) in [(3, 2, 2), (4, 2, 2), (8, 1, 2), (9, 1, 2), (3, 3, 1), (4, 3, 1)] {
        made.taken(&[raw(pair, 1, &spelled(bytes, 0)).encode(), list(pair, &upto(300, w)), list(pair, &upto(200, k))]);
    }
    made.all.remark("Values that wait at the end: sparse size by distinct indices. A plain value with zero low bits and a marked one of its index");
    made.all.remark("count once, and both are written; an m that is not the largest is not written");
    for states in [
        vec![list(pair, &[32, 64]), list(pair, &[m(1, 3)])],
        vec![list(pair, &[32, m(1, 3)]), list(pair, &[32, m(1, 4)])],
        vec![list(pair, &[m(1, 3)]), list(pair, &[33, m(1, 2)])],
        vec![list(pair, &[0]), list(pair, &[m(0, 0)]), list(pair, &[0])],
        vec![list(pair, &[]), list(pair, &[5, 6])],
        vec![neither(pair).encode(), list(pair, &[5, 6]), neither(pair).encode()],
    ] {
        let rolled = made.taken(&states);
        assert!(rolled.waiting > 0);
    }
    made.all.remark("The field's bytes count as kept bytes, long spellings too; an insert keeps the surplus, a merge drops it. The next state shows which");
    for n in [15, 16, 17, 18] {
        for long in [0, 3, 6] {
            made.taken(&[raw(pair, 1, &spelled(n, long)).encode(), list(pair, &[600]), list(pair, &[700])]);
        }
    }
    made.all.remark("16 x k is the kept count, and one more; k = 16 and 17");
    for (p, n, k, long) in [(6, 32, 2, 8), (6, 31, 2, 8), (9, 256, 16, 60), (9, 255, 16, 60), (9, 272, 17, 40), (9, 300, 17, 20), (9, 300, 16, 20)] {
        made.taken(&[raw((p, 15), n, &spelled(n as usize, long)).encode(), list((p, 15), &upto(1000, k)), list((p, 15), &[2000])]);
    }
    made.all.remark("L-1 and L bytes after a merge, after an insert, after values waited");
    for k in [13, 14] {
        made.taken(&[list(pair, &upto(0, 10)), list(pair, &upto(10, k))]);
    }
    for (n, long) in [(16, 6), (16, 7), (20, 3), (20, 4), (24, 0), (40, 0)] {
        made.taken(&[raw(pair, 1, &spelled(n, long)).encode(), list(pair, &[60])]);
    }
    for k in [18, 19] {
        made.taken(&[list(pair, &upto(0, 3)), list(pair, &[3, 4]), list(pair, &upto(5, k))]);
    }
    made.all.remark("Waiting + k is 2048, and 2049, at p = 14");
    let plain = |n: usize| raw((14, 15), n as i32, &vec![1; n]).encode();
    let all_marked = |n: usize| raw((14, 14), n as i32, &[unhex("818040"), vec![64; n - 1]].concat()).encode();
    let many: [&dyn Fn(usize) -> Vec<u8>; 2] = [&plain, &all_marked];
    let one = |pair: Pair, i: u32| list(pair, &[if pair.0 == pair.1 { marked(pair, i, 1) } else { i }]);
    for (many, pair) in many.into_iter().zip([(14, 15), (14, 14)]) {
        made.taken(&[many(1), many(1024), many(1024)]);
        let rolled = made.taken(&[many(1), many(1024), many(1023)]);
        assert_eq!(rolled.waiting, 2047);
        made.taken(&[many(1), many(1024), many(1024), one(pair, 9)]);
        made.taken(&[one(pair, 5000), many(2049), one(pair, 6000)]);
    }
    made.all.remark("Difference: kept holds equal values or two marked values of one index");
    made.taken(&[list(pair, &[vec![4; 10], upto(5, 10)].concat()), list(pair, &[16])]);
    made.taken(&[raw((4, 9), 1, &[unhex("8100"), [0x80, 0x00].repeat(9), vec![0; 6]].concat()).encode(), list((4, 9), &[2])]);
    for v in [m(1, 9), m(1, 4), m(1, 2), 3, m(2, 0), m(0, 0), 40] {
        let kept = [upto(1, 15), vec![m(1, 3), m(1, 5), m(3, 0)]].concat();
        made.taken(&[list(pair, &kept), list(pair, &[v])]);
    }
    made.taken(&[list(pair, &[upto(0, 23), vec![22, 22]].concat()), list(pair, &[700])]);
    made.taken(&[list(pair, &[upto(0, 19), vec![18, 18]].concat()), list(pair, &[300]), list(pair, &[20])]);
}

fn writing(made: &mut Made) {
    made.all.remark("22: a list of L bytes or more. At p = 4, 11 bytes are written and 12 are not; long spellings are written short");
    for n in [10, 11, 12, 13, 40] {
        let rolled = made.taken(&[raw((4, 9), n, &spelled(n as usize, 0)).encode()]);
        assert_eq!(rolled.written.0, if n < 12 { 0 } else { 22 });
    }
    let rolled = made.taken(&[raw((4, 9), 11, &spelled(11, 11)).encode()]);
    assert!(rolled.written.1.ends_with(&[vec![11], vec![1; 11]].concat()));
    let rolled = made.taken(&[raw((4, 9), 6, &spelled(12, 12)).encode(), neither((4, 9)).encode()]);
    assert_eq!(rolled.written.0, 22);
    made.taken(&[raw((4, 9), 12, &spelled(12, 0)).encode(), list((4, 9), &[1])]);
    made.all.remark("Nothing waiting: kept is written as it is, zero gaps too, and sparse size is the first state's number, a negative one in ten bytes");
    let pair = (10, 15);
    made.taken(&[list(pair, &[3, 3, 3, 9, 9])]);
    for size in [0, 77, -1, i32::MIN, i32::MAX] {
        made.taken(&[raw(pair, size, &[33]).encode()]);
        made.taken(&[Fields { sparse_size: size, ..dense((4, 9), &registers(4, &[(5, 7)])) }.encode(), list((4, 9), &[3])]);
    }
    made.all.remark("A list roll-up has field 6 even when empty");
    made.taken(&[neither(pair).encode()]);
    made.taken(&[raw(pair, 5, &[]).encode()]);
    made.taken(&[Fields { data: Some(Vec::new()), ..neither(pair) }.encode()]);
    made.all.remark("Value counts: signed numbers that wrap");
    let counted = |n: i64, v: u8| Fields { num_values: n, ..raw(pair, 1, &[v]) }.encode();
    for counts in [vec![0], vec![-1], vec![i64::MAX], vec![i64::MIN], vec![i64::MAX, 1], vec![i64::MIN, -1], vec![-1, -1], vec![-5, 5], vec![i64::MIN, i64::MIN], vec![i64::MAX, i64::MAX, 3]] {
        let states: Vec<Vec<u8>> = counts.iter().zip(1..).map(|(n, v)| counted(*n, v)).collect();
        let rolled = made.taken(&states);
        assert_eq!(rolled.closing.2, counts.iter().fold(0i64, |a, b| a.wrapping_add(*b)));
    }
    made.taken(&[Fields { num_values: i64::MAX, ..dense((4, 9), &[1; 16]) }.encode(), counted(i64::MAX, 1), Fields { num_values: -7, ..neither((4, 9)) }.encode()]);
    made.all.remark("Value types are the first state's");
    for (first, second) in [(0, 7), (7, 0), (0, 11), (11, 0), (8, 8)] {
        made.taken(&[Fields { value_type: first, ..raw(pair, 1, &[1]) }.encode(), Fields { value_type: second, ..raw(pair, 1, &[2]) }.encode()]);
    }
    made.all.remark("What was written goes into another batch, with itself and before another");
    for states in [vec![a(), list(pair, &[7, 8])], vec![dense((5, 10), &registers(5, &[(3, 60)])).encode(), list((4, 9), &[5])], vec![list((5, 10), &upto(0, 30))]] {
        let rolled = made.taken(&states);
        if rolled.written.0 == 0 {
            let again = made.taken(&[rolled.written.1.clone()]);
            assert_eq!((again.written.1, again.closing), (rolled.written.1.clone(), rolled.closing));
            let twice = made.taken(&[rolled.written.1.clone(), rolled.written.1.clone()]);
            assert_eq!(twice.closing.3, rolled.closing.3);
        }
    }
}

fn registers_of_all_kinds(made: &mut Made) {
    let p6 = registers(6, &[(0, 1), (1, 2), (5, 59), (62, 3)]);
    let p5 = registers(5, &[(0, 60), (1, 1), (4, 2), (8, 7), (31, 5)]);
    let p4 = registers(4, &[(0, 1), (7, 61), (15, 2)]);
    let d = |pair: Pair, r: &[u8]| dense(pair, r).encode();
    let l = |pair: Pair| list(pair, &edge_values(pair));
    let n = |pair: Pair| neither(pair).encode();
    made.all.remark("Unlike precisions, both ways: registers with registers, with a list, with neither");
    for (x, y, z) in [(d((6, 11), &p6), d((5, 10), &p5), d((4, 9), &p4)), (d((6, 11), &p6), l((5, 10)), l((4, 4))), (d((6, 11), &p6), n((5, 12)), n((4, 4)))] {
        for states in [[&x, &y, &z], [&x, &z, &y], [&x, &x, &y]] {
            made.taken(&states.map(|s| s.clone()));
        }
    }
    made.taken(&[d((4, 9), &p4), d((6, 11), &p6), d((5, 10), &p5)]);
    made.taken(&[d((5, 9), &p5), l((6, 11)), l((14, 20)), l((24, 25)), n((24, 25))]);
    made.taken(&[d((5, 9), &p5), l((5, 11)), d((5, 8), &p5), n((5, 7))]);
    made.all.remark("A list turns dense by registers, values waiting too");
    made.taken(&[list((6, 11), &[5, 100]), d((6, 11), &p6), l((6, 11))]);
    made.taken(&[list((6, 11), &[5, 100]), list((6, 11), &[1, 2]), d((6, 11), &p6)]);
    made.taken(&[n((6, 11)), d((6, 11), &[0; 64])]);
    made.all.remark("s of registers without a list is any number but 0, and the smaller is the signed minimum");
    for (x, y) in [(10, -1), (-1, 10), (-5, -6), (-6, -5), (i32::MIN, i32::MAX), (i32::MAX, i32::MIN), (3, 26), (26, 3), (1, 1)] {
        let rolled = made.taken(&[d((4, x), &p4), d((4, y), &p4)]);
        assert_eq!(rolled.closing.1, x.min(y));
    }
    made.taken(&[d((4, -3), &p4)]);
    made.taken(&[d((4, -3), &p4), list((4, 9), &[3]), n((5, 5))]);
    made.all.remark("Registers that are zero are no listeners");
    made.taken(&[d((4, 9), &[0; 16])]);
    made.taken(&[d((4, 9), &[0; 16]), d((5, 9), &[0; 32])]);
    made.all.remark("The count is of registers, not of values: two values of a register, a plain and a marked one of an index, repeats");
    for (values, want) in [(vec![32, 33, 63], 1), (vec![32, marked((10, 15), 1, 0)], 1), (vec![5, 5, 5], 1), (vec![0, 31, 32], 2), (vec![marked((10, 15), 7, 1), marked((10, 15), 7, 2)], 1)] {
        assert_eq!(made.taken(&[list((10, 15), &values)]).closing.3, want);
        let rolled = made.taken(&[list((10, 15), &values), list((10, 15), &values)]);
        assert_eq!((rolled.closing.3, rolled.waiting), (want, values.len()));
    }
}

fn equal_precisions(made: &mut Made) {
    made.all.remark("Document 02, U3: with s = p a plain value is 20 at the end of the list, and m = 0 where it is read. Each list alone, at a list, at registers, and all in one batch");
    let e9 = unhex("0870100118028207091001180a200a320101");
    made.answered(&[e9.clone()], &[20]);
    made.answered(&[list((10, 10), &[marked((10, 10), 7, 1)]), e9.clone()], &[0, 20]);
    made.answered(&[dense((4, 4), &[0; 16]).encode(), e9], &[0, 20]);
    for pair in [(4, 4), (5, 5), (10, 10), (16, 16)] {
        let good = list(pair, &[marked(pair, 1, 1), marked(pair, 7, 9)]);
        let state = |bytes: &[u8]| raw(pair, 1, bytes).encode();
        let zeros = dense((4, 4), &[0; 16]).encode();
        let m = |i, m| marked(pair, i, m);
        let accepted = [vec![m(0, 1), m(2, 1), m(2, (65 - pair.1) as u32)], vec![m(2, 1), m(2, 1), m((1 << pair.0) - 1, 1)], vec![]];
        let lists: Vec<(u8, Vec<u8>)> = equal_lists(pair).into_iter().chain(accepted.map(|l| (0, original::encode_sparse(&l)))).collect();
        for (n, bytes) in &lists {
            made.answered(&[state(bytes)], &[*n]);
            let rolled = made.answered(&[good.clone(), state(bytes), good.clone()], &[0, *n, 0]);
            assert!(*n == 0 || (rolled.closing.2, rolled.closing.3) == (4, 2));
            made.answered(&[zeros.clone(), state(bytes)], &[0, *n]);
        }
        let (want, states): (Vec<u8>, Vec<Vec<u8>>) = lists.iter().map(|(n, bytes)| (*n, state(bytes))).unzip();
        made.answered(&states, &want);
    }
    made.all.remark("At (24,24) and (17,17), for which roll lends no registers, 17 comes before; at registers of a smaller p it does not");
    for p in [17, 24] {
        let state = |v: u32| list((p, p), &[v]);
        let m = |i, m| marked((p, p), i, m);
        made.answered(&[state(1), state(m(0, 0)), state(m(0, 1))], &[17, 17, 17]);
        made.answered(&[dense((4, 4), &[0; 16]).encode(), state(1), state(m(0, 0)), state(m(0, 1)), state(m((1 << p) - 1, (65 - p) as u32))], &[0, 20, 20, 0, 0]);
    }
    made.all.remark("Where s is p+1, plain values and m = 0 are accepted as before");
    for pair in [(4, 5), (10, 11), (16, 17)] {
        let rolled = made.taken(&[list(pair, &[0, 2]), list(pair, &[marked(pair, 1, 0)]), list(pair, &[marked(pair, 3, 0), marked(pair, 3, 1)])]);
        assert_eq!(rolled.closing.3, 3);
    }
    made.taken(&[dense((4, 5), &[0; 16]).encode(), list((24, 25), &[0, 1, marked((24, 25), 0, 0)])]);
    made.all.remark("Ranks: the rank is m, and lowered it is m+1 at an even index and 1 at an odd one; registers of 65-p are written, and read again");
    let m = |i, m| marked((5, 5), i, m);
    for values in [vec![m(0, 1)], vec![m(1, 1)], vec![m(0, 60), m(1, 60), m(30, 60), m(31, 60)]] {
        let rolled = made.taken(&[list((5, 5), &values), dense((5, 5), &[0; 32]).encode()]);
        assert_eq!(rolled.closing.3, values.len());
        made.taken(&[rolled.written.1.clone()]);
        made.taken(&[rolled.written.1, neither((4, 4)).encode()]);
        made.taken(&[dense((4, 5), &[0; 16]).encode(), list((5, 5), &values)]);
    }
}

fn full_size(made: &mut Made) {
    made.all.remark("Full-size batches: A 2,113 times, and a record without a state behind them: 65,515 bytes");
    let mut states = vec![a(); 2113];
    states.push(Vec::new());
    let batch = chain(&states);
    let rolled = made.batch(&batch);
    assert_eq!((batch.len(), rolled.answers.len(), rolled.closing.2), (65515, 2114, 4226));
    made.all.remark("8,191 records without a state take 65,532 bytes, and the last one's next index is behind the end");
    let batch = put(&chain(&vec![Vec::new(); 8191]), 65524, 65532);
    assert_eq!(batch.len(), 65532);
    let rolled = made.broken(&batch, 8191);
    assert!(rolled.answers.iter().all(|n| *n == 8));
    made.all.remark("One large state at p = 15 and some small ones; its registers are 32,768 of 50, and of 51: 14");
    let large = |r: u8| dense((15, 20), &[r; 32768]).encode();
    let rolled = made.taken(&[large(50), list((15, 20), &[3]), list((14, 20), &[3])]);
    assert_eq!(rolled.closing.0, 14);
    made.taken(&[large(50), list((15, 25), &[3]), neither((16, 20)).encode()]);
    made.answered(&[large(51), a()], &[14, 0]);
    made.all.remark("Another that does not fit: the whole has more than 65,536 bytes; cut to 65,536, the second record is not inside");
    let both = chain(&[large(1), large(2)]);
    assert!(both.len() > 65536);
    made.batch(&both[..65537]);
    let rolled = made.broken(&both[..65536], 1);
    assert_eq!(rolled.closing.3, 32768);
    made.all.remark("The second one overlaps the first: its registers are the first one's behind its head, which is in a skipped field");
    let head = large(3).len() - 32768;
    let inner = [word(0).to_vec(), word(large(3).len()).to_vec()].concat();
    let first = [vec![0x2a, 8], inner, large(3)].concat();
    let batch = [word(4).to_vec(), record(4 + 8 + 2, &first)].concat();
    assert!(head < 40);
    assert_eq!(made.batch(&batch).answers, [0, 0]);
    made.all.remark("Many lists that wait, are merged and turn it dense, at p = 11");
    let states: Vec<Vec<u8>> = (0..600).map(|i| list((11, 20), &[i * 37 % 2048 * 512, i * 37 % 2048 * 512 + 1 + i % 9])).collect();
    let rolled = made.taken(&states);
    assert_eq!(rolled.form, DENSE);
}

impl Made {
    /// A valid state, mostly of this pair; mostly a list.
    fn some_state(&mut self, pair: Pair) -> Vec<u8> {
        let pair = if self.chance.below(12) == 0 { some_pair(&mut self.chance) } else { pair };
        let mut f = match self.chance.below(16) {
            0 => dense(pair, &some_registers(&mut self.chance, pair.0)),
            1 => neither(pair),
            2 => {
                let s = [-1, 3, 30, 9][self.chance.below(4) as usize];
                dense((pair.0, s), &some_registers(&mut self.chance, pair.0))
            }
            n => {
                let values = some_list(&mut self.chance, pair, if n < 6 { 16 } else { 3 });
                raw(pair, values.len() as i32, &original::encode_sparse(&values))
            }
        };
        f.value_type = if self.chance.below(10) == 0 { [7, 8, 11][self.chance.below(3) as usize] } else { 0 };
        f.num_values = self.chance.below(9) as i64 - 2;
        f.encode()
    }

    /// A copy in which one index or length is another number.
    fn misled(&mut self, batch: &[u8]) -> Vec<u8> {
        let mut places = vec![0];
        let mut at = word_at(batch, 0) as usize;
        while at != 0 {
            places.extend([at, at + 4]);
            at = word_at(batch, at) as usize;
        }
        let place = places[self.chance.below(places.len() as u64) as usize];
        let n = word_at(batch, place);
        let size = batch.len() as u64;
        let other = [n + 1, n.wrapping_sub(1), 0, size, self.chance.below(size), self.chance.below(size), n ^ 1 << self.chance.below(32), place as u64][self.chance.below(8) as usize];
        put(batch, place, other as usize)
    }
}

fn by_chance(made: &mut Made) {
    made.all.remark("Batches by chance, each with copies of it that are damaged: a byte, an index or a length");
    for _ in 0..70 {
        let pair = some_pair(&mut made.chance);
        let n = 1 + made.chance.below(9);
        let states: Vec<Vec<u8>> = (0..n)
            .map(|_| {
                let state = made.some_state(pair);
                if made.chance.below(8) == 0 { damaged(&mut made.chance, &state) } else { state }
            })
            .collect();
        let apart = [0, 0, 0, 1, 5][made.chance.below(5) as usize];
        let batch = chain_apart(apart, &states);
        made.batch(&batch);
        let damaged = damaged(&mut made.chance, &batch);
        made.batch(&damaged);
        for _ in 0..2 {
            let misled = made.misled(&batch);
            made.batch(&misled);
        }
    }
}

fn main() {
    let mut made = Made { all: Cases::default(), chance: Chance(0x9abe_68bf_8701_ba7c), answers: BTreeMap::new(), paths: BTreeMap::new(), departures: 0 };
    examples(&mut made);
    sizes(&mut made);
    chains(&mut made);
    overlaps(&mut made);
    answers(&mut made);
    lent(&mut made);
    paths(&mut made);
    writing(&mut made);
    registers_of_all_kinds(&mut made);
    equal_precisions(&mut made);
    full_size(&mut made);
    by_chance(&mut made);
    made.all.write(524288);
    for (n, count) in &made.answers {
        println!("{count:5} times {n}");
    }
    for (path, count) in &made.paths {
        println!("{count:5} {path}");
    }
    println!("{:5} refused as U3 asks, where the original says something else", made.departures);
    // 1, 2 and 23 cannot come up (docs/DECISIONS.md).
    let numbers: Vec<u8> = made.answers.keys().copied().collect();
    assert_eq!(numbers, [0].into_iter().chain(3..=22).chain([24, 25]).collect::<Vec<u8>>());
    for path in PATHS {
        assert!(made.paths.contains_key(path), "{path} did not come up");
    }
}
