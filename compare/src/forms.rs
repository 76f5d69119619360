//! Several archives of `crates/capi` in one program, by turns on the same inputs: the table "Before and now" of docs/PERFORMANCE.md. The script `compare/forms` makes the
//! archive with all of them, each with its functions at four places, and a function that chooses one.

use crate::speed::{chance, growths, main_cases, parsed_sets, timed, written_cases, Both, Case, RUNS};
use std::hint::black_box;

extern "C" {
    fn choose_form(n: usize);
    fn form_count() -> usize;
}

/// The lower fifth: what else the machine does makes a run longer, never shorter.
fn low(mut times: Vec<f64>) -> f64 {
    times.sort_by(f64::total_cmp);
    times[times.len() / 5]
}

/// A row: its name, and each form's time divided by the Rust's. `run` is one run of the form that was chosen, or of the Rust.
fn row(name: &str, mut run: impl FnMut(usize, bool) -> f64) {
    let n = unsafe { form_count() };
    let mut times = vec![Vec::new(); n + 1];
    // The first runs warm up and are not counted.
    for turn in 0..RUNS + 5 {
        for i in 0..=n {
            let which = (turn + i) % (n + 1);
            if which < n {
                unsafe { choose_form(which) };
            }
            let t = run(turn, which < n);
            if turn >= 5 {
                times[which].push(t);
            }
        }
    }
    let mut times: Vec<f64> = times.into_iter().map(low).collect();
    let rust = times.pop().expect("the Rust's");
    let quotients: Vec<String> = times.iter().map(|t| format!("{:.4}", t / rust)).collect();
    println!("{name}\t{}", quotients.join("\t"));
}

fn added(name: &str, case: &Case) {
    let mut both = Both::new(case);
    row(name, |turn, here| {
        let set = &case.sets[turn % case.sets.len()];
        if here {
            both.start_side(set);
            timed(|| {
                black_box(both.side.fold(black_box(&set.states.bytes), &set.states.ends, &mut both.answers));
            })
        } else {
            both.start_rust(set);
            timed(|| {
                for state in set.states.states() {
                    black_box(both.rust.add_bytes(black_box(state)).is_ok());
                }
            })
        }
    });
}

fn written(case: &Case) {
    let mut both = Both::new(case);
    let (mut out, mut len) = (vec![0; 70_000], [0]);
    row(&format!("writing {}", case.name), |turn, here| {
        let set = &case.sets[turn % case.sets.len()];
        if here {
            both.start_side(set);
            timed(|| {
                black_box(both.side.write(&mut out, &mut len));
            })
        } else {
            both.start_rust(set);
            timed(|| {
                black_box(both.rust.serialize());
            })
        }
    });
}

pub fn run() {
    let mut chance = chance();
    for case in main_cases(&mut chance) {
        added(&case.name, &case);
    }
    for case in written_cases(&mut chance) {
        written(&case);
    }
    for (name, sets) in parsed_sets(&mut chance) {
        let mut side = crate::lent::Side::new(10, 1 << 15, 100, 100, 100);
        let mut answers = vec![0; sets[0].ends.len()];
        row(&format!("parsing {name}"), |turn, here| {
            let joined = &sets[turn % sets.len()];
            timed(|| {
                if here {
                    black_box(side.fold(black_box(&joined.bytes), &joined.ends, &mut answers));
                } else {
                    for state in joined.states() {
                        black_box(original::reads(black_box(state)));
                    }
                }
            })
        });
    }
    for growth in growths(&mut chance) {
        for (case, _) in &growth.cases {
            added(&format!("{}: {}", growth.title, case.name), case);
        }
    }
}
