//! Both sides on the same inputs, in one run: the tables of docs/PERFORMANCE.md. Each figure is the time of the Rattle side divided by that of the Rust, by
//! medians of many runs that take turns.

use crate::cases::{marked, Chance, Pair};
use crate::gen::{dense, list, neither};
use crate::lent::Side;
use original::{Accumulator, Fields};
use std::hint::black_box;
use std::time::Instant;

pub(crate) const RUNS: usize = 101;

/// With lists the runs go through so many sets of states, so that the machine's branch predictor does not know one set by heart. Of registers no branch depends on a
/// value, and one set stays in the cache.
const SETS: usize = 16;

/// States that are added, and those that come before.
pub(crate) struct Set {
    before: Joined,
    pub(crate) states: Joined,
}

/// What is timed: states added to a roll-up that others were added to before.
pub(crate) struct Case {
    pub(crate) name: String,
    pub(crate) sets: Vec<Set>,
    registers: usize,
    cells: usize,
}

/// Medians in nanoseconds, of all the states of a case.
struct Times {
    add_bytes: f64,
    reference: f64,
    fold: f64,
    add: f64,
}

fn median(mut times: Vec<f64>) -> f64 {
    times.sort_by(f64::total_cmp);
    times[times.len() / 2]
}

pub(crate) fn timed(f: impl FnOnce()) -> f64 {
    let start = Instant::now();
    f();
    start.elapsed().as_nanos() as f64
}

/// States one behind the other, and where each ends. Both sides read them there, so that neither finds its input better placed than the other.
pub(crate) struct Joined {
    pub(crate) bytes: Vec<u8>,
    pub(crate) ends: Vec<u64>,
}

impl Joined {
    fn new(states: &[Vec<u8>]) -> Joined {
        let mut end = 0;
        let ends = states
            .iter()
            .map(|s| {
                end += s.len() as u64;
                end
            })
            .collect();
        Joined { bytes: states.concat(), ends }
    }

    pub(crate) fn states(&self) -> impl Iterator<Item = &[u8]> {
        let mut start = 0;
        self.ends.iter().map(move |end| {
            let state = &self.bytes[start..*end as usize];
            start = *end as usize;
            state
        })
    }
}

/// Both sides with the states that come before. The Rust keeps its buffers over `reset`, the Rattle side its lent memory.
pub(crate) struct Both {
    pub(crate) rust: Accumulator,
    pub(crate) side: Side,
    pub(crate) answers: Vec<u8>,
}

impl Both {
    pub(crate) fn new(case: &Case) -> Both {
        Both {
            rust: Accumulator::new(),
            side: Side::new(10, case.registers, case.cells, case.cells, case.cells),
            answers: vec![0; case.sets.iter().map(|s| s.before.ends.len().max(s.states.ends.len())).max().expect("a set")],
        }
    }

    pub(crate) fn start_rust(&mut self, set: &Set) {
        self.rust.reset();
        for state in set.before.states() {
            self.rust.add_bytes(state).expect("a sound state");
        }
    }

    pub(crate) fn start_side(&mut self, set: &Set) {
        assert_eq!(self.side.fresh(), 0);
        assert_eq!(self.side.fold(&set.before.bytes, &set.before.ends, &mut self.answers), 0);
        assert!(self.answers[..set.before.ends.len()].iter().all(|a| *a == 0));
    }

    /// Both wrote the same, so both did the same work.
    pub(crate) fn agree(&mut self, name: &str) {
        let bytes = self.rust.serialize().expect("a roll-up");
        let (mut out, mut len) = (vec![0; bytes.len()], [0]);
        assert_eq!(self.side.write(&mut out, &mut len), 0, "{name}");
        assert!(out == bytes, "{name}: both sides write the same");
    }
}

fn time(case: &Case) -> Times {
    let mut both = Both::new(case);
    let mut times: [Vec<f64>; 4] = Default::default();
    // The first runs warm up and are not counted.
    for run in 0..RUNS + 5 {
        let set = &case.sets[run % case.sets.len()];
        let joined = &set.states;
        for turn in 0..4 {
            let which = (run + turn) % 4;
            let t = match which {
                0 => {
                    both.start_rust(set);
                    timed(|| {
                        for state in joined.states() {
                            black_box(both.rust.add_bytes(black_box(state)).is_ok());
                        }
                    })
                }
                1 => {
                    both.start_rust(set);
                    timed(|| {
                        for state in joined.states() {
                            black_box(both.rust.probe_add(black_box(state)).is_ok());
                        }
                    })
                }
                2 => {
                    both.start_side(set);
                    timed(|| {
                        black_box(both.side.fold(black_box(&joined.bytes), &joined.ends, &mut both.answers));
                    })
                }
                _ => {
                    both.start_side(set);
                    timed(|| {
                        for state in joined.states() {
                            black_box(both.side.add(black_box(state)));
                        }
                    })
                }
            };
            if run >= 5 {
                times[which].push(t);
            }
        }
        if run == 0 {
            both.agree(&case.name);
        }
    }
    let [add_bytes, reference, fold, add] = times.map(median);
    Times { add_bytes, reference, fold, add }
}

fn registers(chance: &mut Chance, p: i32) -> Vec<u8> {
    (0..1 << p).map(|_| 1 + chance.below(12) as u8).collect()
}

/// So many different values of a pair, in order; one in 40 is marked.
fn values(chance: &mut Chance, pair: Pair, n: usize) -> Vec<u32> {
    let mut values: Vec<u32> = (0..n)
        .map(|_| {
            if chance.below(40) == 0 {
                marked(pair, chance.below(1 << pair.0) as u32, chance.below(5) as u32)
            } else {
                chance.below(1 << pair.1) as u32
            }
        })
        .collect();
    values.sort_unstable();
    values.dedup_by_key(|v| if *v >= crate::cases::mark(pair) { *v / 64 + (1 << 31) } else { *v });
    values
}

fn dense_states(chance: &mut Chance, pair: Pair, n: usize) -> Vec<Vec<u8>> {
    (0..n).map(|_| dense(pair, registers(chance, pair.0)).encode()).collect()
}

fn list_states(chance: &mut Chance, pair: Pair, n: usize, least: u64, most: u64) -> Vec<Vec<u8>> {
    (0..n)
        .map(|_| {
            let k = least + chance.below(most - least + 1);
            let v = values(chance, pair, k as usize);
            list(pair, &v).encode()
        })
        .collect()
}

fn set(before: Vec<Vec<u8>>, states: Vec<Vec<u8>>) -> Set {
    Set { before: Joined::new(&before), states: Joined::new(&states) }
}

fn case(name: &str, p: i32, sets: usize, mut next: impl FnMut() -> Set) -> Case {
    Case { name: name.to_string(), sets: (0..sets).map(|_| next()).collect(), registers: 1 << p, cells: 70_000 }
}

/// 16 values, of which one is new, into a list that is just short of L bytes, so that nothing waits; and how many values the list has.
fn inserted_set(chance: &mut Chance, p: i32) -> (Set, usize) {
    let pair = (p, p + 5);
    let most = (3 << (p - 2)) - 75;
    let mut kept = values(chance, pair, 5 << (p - 2));
    loop {
        let bytes = original::encode_sparse(&kept).len();
        if bytes < most {
            assert!(bytes + 80 >= most + 75, "nothing waits");
            break;
        }
        // One at a time in the end.
        for _ in 0..1 + (bytes - most) / 8 {
            kept.remove(chance.below(kept.len() as u64) as usize);
        }
    }
    let states = (0..30)
        .map(|_| {
            let mut some: Vec<u32> = (0..15).map(|_| kept[chance.below(kept.len() as u64) as usize]).collect();
            some.push(chance.below(1 << pair.1) as u32);
            some.sort_unstable();
            list(pair, &some).encode()
        })
        .collect();
    let n = kept.len();
    (set(vec![list(pair, &kept).encode()], states), n)
}

/// The same as a case, named by how many values the first list has: the others have about as many.
fn inserted(chance: &mut Chance, p: i32) -> Case {
    let mut first = None;
    let case = case("", p, SETS, || {
        let (set, n) = inserted_set(chance, p);
        first.get_or_insert(n);
        set
    });
    Case { name: format!("{}", first.expect("a set")), ..case }
}

pub(crate) fn main_cases(chance: &mut Chance) -> Vec<Case> {
    let mut all = Vec::new();
    for p in [10, 15] {
        let pair = (p, p + 5);
        let name = format!("dense into dense, p = {p}");
        all.push(case(&name, p, 1, || set(dense_states(chance, pair, 1), dense_states(chance, pair, 64))));
    }
    let pair = (15, 20);
    for (name, least, most) in [("lists of 1 value that wait", 1, 1), ("lists of 1 to 5 values that wait", 1, 5)] {
        all.push(case(name, 15, SETS, || set(list_states(chance, pair, 1, 5, 5), list_states(chance, pair, 400, least, most))));
    }
    for (name, least, most) in [("lists of 1 value into dense", 1, 1), ("lists of 1 to 16 values into dense", 1, 16)] {
        all.push(case(name, 15, SETS, || set(dense_states(chance, pair, 1), list_states(chance, pair, 1000, least, most))));
    }
    let large = inserted(chance, 15);
    all.push(Case { name: format!("16 values into a list of {}, inserted", large.name), ..large });
    // The list of a first state is kept as it is, so it may have one value twice; a fold then knows less of it.
    let name = "states without list or data at a list of 24,000 values, one of them twice";
    all.push(case(name, 15, SETS, || {
        let mut kept: Vec<u32> = (0..24_000).map(|i| 40 * i + chance.below(40) as u32).collect();
        kept[1] = kept[0];
        set(vec![list(pair, &kept).encode()], vec![neither(pair).encode(); 1000])
    }));
    let name = "lists of 3,000 values merged into a list of 4,000 and more";
    all.push(case(name, 15, SETS, || set(list_states(chance, pair, 1, 4000, 4000), list_states(chance, pair, 4, 3000, 3000))));
    let name = "dense of p = 15 into dense of p = 12";
    all.push(case(name, 15, 1, || set(dense_states(chance, (12, 17), 1), dense_states(chance, (15, 20), 32))));
    let name = "dense of p = 12 into dense of p = 15, which is lowered";
    all.push(case(name, 15, 1, || set(dense_states(chance, (15, 20), 1), dense_states(chance, (12, 17), 1))));
    let name = "lists of p = 15 into dense of p = 12";
    all.push(case(name, 15, SETS, || set(dense_states(chance, (12, 17), 1), list_states(chance, (15, 20), 1000, 1, 16))));
    all
}

fn ratio(a: f64, b: f64) -> String {
    format!("{:.2}", a / b)
}

fn table(title: &str, cases: &[Case]) {
    println!("\n| {title} | `filmoed_fold` / `add_bytes` | `filmoed_add` / `add_bytes` | `filmoed_fold` / reference path | `filmoed_add` / `filmoed_fold` |");
    println!("|---|---|---|---|---|");
    for case in cases {
        let t = time(case);
        println!(
            "| {} | {} | {} | {} | {} |",
            case.name,
            ratio(t.fold, t.add_bytes),
            ratio(t.add, t.add_bytes),
            ratio(t.fold, t.reference),
            ratio(t.add, t.fold)
        );
    }
}

/// A growth table: each row's times for one unit of work, relative to those of the first row.
fn growth(title: &str, unit: &str, cases: &[(Case, f64)]) {
    println!("\n| {title} | `filmoed_fold` / `add_bytes` | time for a {unit}, here | the Rust's |");
    println!("|---|---|---|---|");
    let mut first = None;
    for (case, units) in cases {
        let t = time(case);
        let (here, rust) = (t.fold / units, t.add_bytes / units);
        let (h, r) = *first.get_or_insert((here, rust));
        println!("| {} | {} | {} | {} |", case.name, ratio(t.fold, t.add_bytes), ratio(here, h), ratio(rust, r));
    }
}

/// The share of the machine's memory speed: how long a copy of a state's registers over others takes, as a part of the time for adding it. A copy reads the
/// state once and writes the registers once; adding reads the state twice (question 14, and then the larger of each) and the registers once, and writes these once.
fn memory(cases: &[(Case, f64)]) {
    println!("\n| dense into dense, p | a copy of the registers / `filmoed_fold` | a copy of the registers / `add_bytes` |");
    println!("|---|---|---|");
    for (case, _) in cases {
        let t = time(case);
        let mut target = vec![0; case.registers];
        let joined = &case.sets[0].states;
        let copies = (0..RUNS + 5)
            .map(|_| {
                timed(|| {
                    for state in joined.states() {
                        target.copy_from_slice(&black_box(state)[state.len() - case.registers..]);
                        black_box(&target);
                    }
                })
            })
            .skip(5)
            .collect();
        let copy = median(copies);
        println!("| {} | {} | {} |", case.name, ratio(copy, t.fold), ratio(copy, t.add_bytes));
    }
}

/// What is written: of no case a state is added, those before are all there is.
pub(crate) fn written_cases(chance: &mut Chance) -> Vec<Case> {
    let pair = (15, 20);
    vec![
        case("dense, p = 10", 10, 1, || set(dense_states(chance, (10, 15), 1), vec![])),
        case("dense, p = 15", 15, 1, || set(dense_states(chance, pair, 1), vec![])),
        case("a list of 5 values", 15, SETS, || set(list_states(chance, pair, 1, 5, 5), vec![])),
        case("a list of 8,000 values, none waiting", 15, SETS, || set(list_states(chance, pair, 1, 8000, 8000), vec![])),
        case("4,000 values kept and about 1,200 waiting", 15, SETS, || {
            set([list_states(chance, pair, 1, 4000, 4000), list_states(chance, pair, 400, 1, 5)].concat(), vec![])
        }),
    ]
}

/// Writing: `filmoed_write`, which asks question 1, and `serialize`, which gives a new `Vec`.
fn writing(chance: &mut Chance) {
    println!("\n| writing | `filmoed_write` / `serialize` |");
    println!("|---|---|");
    for case in written_cases(chance) {
        let mut both = Both::new(&case);
        let mut out = vec![0; 70_000];
        let (mut rust, mut here) = (Vec::new(), Vec::new());
        for run in 0..RUNS + 5 {
            let set = &case.sets[run % case.sets.len()];
            // The values that wait are sorted where they stand, so they are added again before each write.
            both.start_side(set);
            both.start_rust(set);
            let mut len = [0];
            let write = |both: &mut Both, out: &mut [u8], len: &mut [u64]| timed(|| { black_box(both.side.write(out, len)); });
            let serialize = |both: &Both| timed(|| { black_box(both.rust.serialize()); });
            let (h, r) = if run % 2 == 0 {
                let h = write(&mut both, &mut out, &mut len);
                (h, serialize(&both))
            } else {
                let r = serialize(&both);
                (write(&mut both, &mut out, &mut len), r)
            };
            if run == 0 {
                assert!(out[..len[0] as usize] == both.rust.serialize().expect("a roll-up")[..], "{}", case.name);
            }
            if run >= 5 {
                here.push(h);
                rust.push(r);
            }
        }
        println!("| {} | {} |", case.name, ratio(median(here), median(rust)));
    }
}

/// States of another type, which are read and then refused with 7.
pub(crate) fn parsed_sets(chance: &mut Chance) -> Vec<(&'static str, Vec<Joined>)> {
    let pair = (15, 20);
    let other_type = |states: Vec<Vec<u8>>| {
        let states: Vec<Vec<u8>> = states.iter().map(|s| Fields { kind: 113, ..Fields::parse(s).expect("a state") }.encode()).collect();
        Joined::new(&states)
    };
    let small = (0..SETS).map(|_| other_type(list_states(chance, pair, 1000, 1, 5))).collect();
    let large = (0..SETS).map(|_| other_type(list_states(chance, pair, 200, 1000, 1000))).collect();
    let dense = vec![other_type(dense_states(chance, (10, 15), 200))];
    vec![("lists of 1 to 5 values", small), ("lists of 1,000 values", large), ("dense, p = 10", dense)]
}

/// Parsing alone: such states, beside `StateView::parse`. And the loop alone: states without bytes, which are refused with 8.
fn parsing(chance: &mut Chance) {
    println!("\n| parsing alone | `filmoed_fold`, 7 / `StateView::parse` | as many states without bytes, 8 / `StateView::parse` |");
    println!("|---|---|---|");
    for (name, sets) in parsed_sets(chance) {
        let n = sets[0].ends.len();
        let mut side = Side::new(10, 1 << 15, 100, 100, 100);
        let mut answers = vec![0; n];
        let none = vec![0; n];
        let (mut rust, mut here, mut empty) = (Vec::new(), Vec::new(), Vec::new());
        for run in 0..RUNS + 5 {
            let joined = &sets[run % sets.len()];
            let e = timed(|| {
                black_box(side.fold(black_box(&[]), &none, &mut answers));
            });
            assert!(answers.iter().all(|a| *a == 8));
            let read = || {
                for state in joined.states() {
                    black_box(original::reads(black_box(state)));
                }
            };
            // Whoever reads a set first waits for the memory, so it is read once before.
            read();
            let h = timed(|| {
                black_box(side.fold(black_box(&joined.bytes), &joined.ends, &mut answers));
            });
            let r = timed(read);
            if run >= 5 {
                empty.push(e);
                here.push(h);
                rust.push(r);
            }
        }
        assert!(answers.iter().all(|a| *a == 7));
        let rust = median(rust);
        println!("| {name} | {} | {} |", ratio(median(here), rust), ratio(median(empty), rust));
    }
}

/// A table of growth: what its rows are, the unit of work, and each row's case with how many units it has.
pub(crate) struct Growth {
    pub(crate) title: &'static str,
    unit: &'static str,
    pub(crate) cases: Vec<(Case, f64)>,
}

pub(crate) fn growths(chance: &mut Chance) -> Vec<Growth> {
    let dense = (10..=16)
        .map(|p| {
            let pair = (p, p + 5);
            let case = case(&format!("{p}"), p, 1, || set(dense_states(chance, pair, 1), dense_states(chance, pair, 32)));
            (case, 32.0 * f64::from(1 << p))
        })
        .collect();
    let pair = (16, 21);
    let waiting = [1, 4, 16, 64, 256, 1024]
        .iter()
        .map(|k| {
            let states = |chance: &mut Chance| list_states(chance, pair, 1024 / k, *k as u64, *k as u64);
            (case(&format!("{k}"), 16, SETS, || set(list_states(chance, pair, 1, 5, 5), states(chance))), 1024.0)
        })
        .collect();
    let merged = [2100, 4000, 8000, 16000]
        .iter()
        .map(|k| {
            let one = |chance: &mut Chance| list_states(chance, pair, 1, *k, *k);
            (case(&format!("{k}"), 16, SETS, || set(one(chance), one(chance))), 2.0 * *k as f64)
        })
        .collect();
    let into = (10..=16).map(|p| (inserted(chance, p), 30.0)).collect();
    let pair = (15, 20);
    let records = [100, 1000, 10_000, 100_000]
        .iter()
        .map(|n| {
            let case = case(&format!("{n}"), 15, SETS, || {
                let states = list_states(chance, pair, *n, 1, 5);
                set(vec![states[0].clone()], states)
            });
            (case, *n as f64)
        })
        .collect();
    vec![
        Growth { title: "dense into dense, p", unit: "register", cases: dense },
        Growth { title: "lists that wait, values in each", unit: "value", cases: waiting },
        Growth { title: "two lists merged, values in each", unit: "value", cases: merged },
        Growth { title: "16 values inserted, values kept", unit: "state", cases: into },
        Growth { title: "records of 1 to 5 values, from a list to dense", unit: "record", cases: records },
    ]
}

pub(crate) fn chance() -> Chance {
    Chance(0x5eed_0000_0001)
}

pub fn run() {
    println!("Time of the Rattle side divided by the Rust's: below 1 it is the faster one. Medians of {RUNS} runs that take turns.");
    let mut chance = chance();
    let cases = main_cases(&mut chance);
    table("adding", &cases);
    writing(&mut chance);
    parsing(&mut chance);
    let growths = growths(&mut chance);
    for g in &growths {
        growth(g.title, g.unit, &g.cases);
    }
    memory(&growths[0].cases);
}
