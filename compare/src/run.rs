//! A script is memory, perhaps a head that is set, and calls. It is run on both sides, and after each call all is compared that documents 01 and 02 determine.

use crate::cases::{hex, text};
use crate::lent::{Lent, Side, BYTE, CELL, NUMBER};
use crate::model::{Departure, Head, Rollup, DENSE, SPARSE, UNSTARTED};
use original::Fields;
use std::borrow::Cow;
use std::panic::{catch_unwind, AssertUnwindSafe};

/// How many numbers the row of a head has; two stand behind the head.
const ROW: usize = 12;

#[derive(Clone, Debug)]
pub enum Call {
    Add(Vec<u8>),
    /// The states one behind the other, their ends, and how many cells there are for answers.
    Fold(Vec<u8>, Vec<u64>, usize),
    /// The size of the output.
    Write(usize),
    /// Two writes: into an output that just fits, and into one with a byte less. None where a write is refused.
    Near,
}

/// A head that is set before the first call, and the front of its memory.
#[derive(Clone, Default)]
pub struct Set {
    pub head: Head,
    pub registers: Vec<u8>,
    pub kept: Vec<u32>,
    pub waiting: Vec<u32>,
    /// A cell of the row that is set to a number past its field's range.
    pub cell: Option<(usize, u64)>,
    /// The row is cut to nine numbers.
    pub short: bool,
}

#[derive(Clone, Default)]
pub struct Script {
    pub registers: usize,
    pub kept: usize,
    pub waiting: usize,
    pub working: usize,
    pub set: Option<Set>,
    pub calls: Vec<Call>,
}

impl std::fmt::Display for Script {
    fn fmt(&self, f: &mut std::fmt::Formatter) -> std::fmt::Result {
        writeln!(f, "lent: {} register bytes; {}, {} and {} cells", self.registers, self.kept, self.waiting, self.working)?;
        if let Some(set) = &self.set {
            writeln!(f, "set: {:?}; cell {:?}, short {}", set.head, set.cell, set.short)?;
            writeln!(f, "  registers {}", hex(&set.registers))?;
            writeln!(f, "  kept {}; waiting {}", text(&set.kept), text(&set.waiting))?;
        }
        for call in &self.calls {
            match call {
                Call::Add(state) => writeln!(f, "add {}", hex(state))?,
                Call::Fold(states, ends, answers) => writeln!(f, "fold {} ends {ends:?} with {answers} cells", hex(states))?,
                Call::Write(space) => writeln!(f, "write into {space}")?,
                Call::Near => writeln!(f, "write into what just fits, and a byte less")?,
            }
        }
        Ok(())
    }
}

pub const PATHS: [&str; 26] = [
    "first, a list",
    "first, registers",
    "first, neither",
    "at a list, neither",
    "at a list, waits",
    "at a list, all sorted and merged",
    "at a list, inserted",
    "at a list, merged",
    "at a list, merged as the Difference asks",
    "at a list, registers",
    "turned dense after all were sorted and merged",
    "turned dense after an insertion",
    "turned dense after a merge",
    "turned dense after the merge of the Difference",
    "at registers, equal precisions: a list",
    "at registers, equal precisions: registers",
    "at registers, equal precisions: neither",
    "at registers, only s differs: a list",
    "at registers, only s differs: registers",
    "at registers, only s differs: neither",
    "at registers, larger p: a list",
    "at registers, larger p: registers",
    "at registers, larger p: neither",
    "at registers, smaller p: a list",
    "at registers, smaller p: registers",
    "at registers, smaller p: neither",
];

/// How often each answer was given, and each path taken.
#[derive(Clone)]
pub struct Counts {
    pub add: [u64; 24],
    pub fold: [u64; 24],
    pub write: [u64; 24],
    pub paths: [u64; 26],
    /// States that were refused as document 02, U3, asks: which the original accepts, and in which it finds a fault further on.
    pub refused: [u64; 2],
    /// Written: a list, a list with values waiting, registers.
    pub written: [u64; 3],
    /// Calls of `filmoed_fold`, and those that it answered with 1 and with 100.
    pub folds: [u64; 3],
    /// Calls with a row that is no head.
    pub no_head: u64,
    /// States that were given to `add_bytes` of the original too.
    pub add_bytes: u64,
    pub scripts: u64,
}

impl Counts {
    pub fn new() -> Counts {
        Counts { add: [0; 24], fold: [0; 24], write: [0; 24], paths: [0; 26], refused: [0; 2], written: [0; 3], folds: [0; 3], no_head: 0, add_bytes: 0, scripts: 0 }
    }

    /// States added and roll-ups written.
    pub fn calls(&self) -> u64 {
        self.add.iter().chain(&self.fold).chain(&self.write).sum()
    }

    pub fn print(&self) {
        println!("{:>10} scripts, {} calls (each state that is added, and each write)", self.scripts, self.calls());
        for (what, counts) in [("add", &self.add), ("fold", &self.fold), ("write", &self.write)] {
            for (answer, n) in counts.iter().enumerate().filter(|(_, n)| **n > 0) {
                println!("{n:>10} {what} answered {answer}");
            }
        }
        for (path, n) in PATHS.iter().zip(&self.paths) {
            println!("{n:>10} {path}");
        }
        println!("{:>10} refused as U3 asks, which the Rust accepts", self.refused[0]);
        println!("{:>10} refused as U3 asks, in which the Rust finds a fault further on", self.refused[1]);
        for (form, n) in ["a list", "a list with values waiting", "registers"].iter().zip(&self.written) {
            println!("{n:>10} written: {form}");
        }
        println!("{:>10} folds, {} of them answered with 1 and {} with 100", self.folds[0], self.folds[1], self.folds[2]);
        println!("{:>10} calls with a row that is no head", self.no_head);
        println!("{:>10} states given to the original's add_bytes too", self.add_bytes);
    }
}

fn row(h: &Head) -> [u64; 10] {
    [
        u64::from(h.form),
        u64::from(h.allowed),
        u64::from(h.value_type as u32),
        h.num_values as u64,
        u64::from(h.p as u32),
        u64::from(h.s as u32),
        u64::from(h.size as u32),
        h.kept,
        h.bytes,
        h.waiting,
    ]
}

/// The path that an accepted state took.
fn path(before: &Head, after: &Head, f: &Fields, departure: Departure) -> usize {
    let registers = f.data.as_ref().is_some_and(|d| !d.is_empty());
    let list = f.sparse_data.as_ref().is_some_and(|l| !l.is_empty());
    let kind = if list { 0 } else if registers { 1 } else { 2 };
    match before.form {
        UNSTARTED => kind,
        SPARSE if kind == 2 => 3,
        SPARSE if kind == 1 => 9,
        SPARSE => {
            let dense = after.form == DENSE;
            if before.waiting > 0 && after.waiting == 0 {
                return if dense { 10 } else { 5 };
            }
            if after.waiting > before.waiting {
                return 4;
            }
            if departure == Departure::Merged {
                return if dense { 13 } else { 8 };
            }
            let k = original::decode_sparse(f.sparse_data.as_ref().unwrap(), before.p, before.s).expect("an accepted list").len() as u64;
            match (k <= 16 && 16 * k <= before.kept, dense) {
                (true, false) => 6,
                (true, true) => 11,
                (false, false) => 7,
                (false, true) => 12,
            }
        }
        _ => {
            let at = match f.precision.cmp(&before.p) {
                std::cmp::Ordering::Equal if f.sparse_precision == before.s => 14,
                std::cmp::Ordering::Equal => 17,
                std::cmp::Ordering::Greater => 20,
                std::cmp::Ordering::Less => 23,
            };
            at + kind
        }
    }
}

/// The states that a fold adds; none where its ends do not fit, or there are fewer cells than ends.
fn splits<'a>(states: &'a [u8], ends: &[u64], cells: usize) -> Option<Vec<&'a [u8]>> {
    let mut start = 0;
    let split = ends.iter().map(|end| {
        let end = usize::try_from(*end).ok()?;
        let state = states.get(start..end)?;
        start = end;
        Some(state)
    });
    split.collect::<Option<Vec<_>>>().filter(|split| split.len() <= cells)
}

/// Both sides while a script runs.
struct Both<'a> {
    model: Rollup,
    side: Side,
    /// The row that is no head, where it is none.
    odd: Option<Vec<u64>>,
    counts: &'a mut Counts,
}

type Found = Result<(), String>;

fn same<T: PartialEq + std::fmt::Debug>(what: &str, rattle: T, expected: T) -> Found {
    if rattle == expected {
        return Ok(());
    }
    let (mut r, mut e) = (format!("{rattle:?}"), format!("{expected:?}"));
    r.truncate(2000);
    e.truncate(2000);
    Err(format!("{what}: {r}, expected {e}"))
}

impl Both<'_> {
    fn new<'a>(script: &Script, counts: &'a mut Counts) -> Both<'a> {
        let mut model = Rollup {
            registers: vec![BYTE; script.registers],
            kept: vec![CELL; script.kept],
            waiting: vec![CELL; script.waiting],
            working: script.working,
            ..Rollup::default()
        };
        let short = script.set.as_ref().is_some_and(|s| s.short);
        let cells = if short { 9 } else { ROW };
        let mut side = Side::new(cells, script.registers, script.kept, script.waiting, script.working);
        let mut odd = None;
        if let Some(set) = &script.set {
            model.head = set.head.clone();
            model.registers[..set.registers.len()].copy_from_slice(&set.registers);
            model.kept[..set.kept.len()].copy_from_slice(&set.kept);
            model.waiting[..set.waiting.len()].copy_from_slice(&set.waiting);
            side.registers.get_mut().copy_from_slice(&model.registers);
            side.sparse.get_mut().copy_from_slice(&model.kept);
            side.pending.get_mut().copy_from_slice(&model.waiting);
            let head = side.head.get_mut();
            head[..cells.min(10)].copy_from_slice(&row(&set.head)[..cells.min(10)]);
            if let Some((at, number)) = set.cell {
                head[at] = number;
            }
            if short || set.cell.is_some() {
                odd = Some(head.to_vec());
            }
        }
        Both { model, side, odd, counts }
    }

    /// All that documents 01 and 02 determine.
    fn compare(&self) -> Found {
        let (side, model) = (&self.side, &self.model);
        if let Some(row) = &self.odd {
            same("the row that is no head", side.head.get(), &row[..])?;
        } else {
            same("head", &side.head.get()[..10], &row(&model.head)[..])?;
            same("behind the head", &side.head.get()[10..], &[NUMBER; ROW - 10][..])?;
        }
        if side.registers.get() != &model.registers[..] {
            let at = side.registers.get().iter().zip(&model.registers).position(|(a, b)| a != b).unwrap_or(0);
            return Err(format!("register byte {at}: {}, expected {}", side.registers.get()[at], model.registers[at]));
        }
        let kept = model.kept();
        same("kept", &side.sparse.get()[..kept.len()], kept)?;
        let mut expected = model.waiting().to_vec();
        if !expected.is_empty() {
            let mut waiting = side.pending.get()[..expected.len()].to_vec();
            waiting.sort_unstable();
            expected.sort_unstable();
            same("waiting", waiting, expected)?;
        }
        if !side.guarded() {
            return Err("a cell outside of the lent memory is changed".to_string());
        }
        Ok(())
    }

    /// What is expected of a state. Some of them go to the original's `add_bytes` too, which must do what the reference does.
    fn expect(&mut self, state: &[u8], folded: bool) -> Result<u8, String> {
        if self.odd.is_some() {
            self.counts.no_head += 1;
            self.counts.add[1] += 1;
            return Ok(1);
        }
        let before = self.model.head.clone();
        let ask = state.len() < 4096 && !state.is_empty() && self.counts.calls() % 4 == 0;
        let public = if ask { self.model.rust.clone() } else { None };
        let (answer, departure) = self.model.add(state);
        match departure {
            Departure::Refused => self.counts.refused[0] += 1,
            Departure::RefusedSooner => self.counts.refused[1] += 1,
            Departure::None | Departure::Merged => {}
        }
        if let Some(mut public) = public {
            // 1, 2 and 17 are not the original's, the sketch is not run for 16, and in a departure it does something else.
            if ![1, 2, 16, 17].contains(&answer) && departure == Departure::None {
                self.counts.add_bytes += 1;
                let given = public.add_bytes(state).map_or_else(|e| original::number(&e), |()| 0);
                same("add_bytes of the original", given, answer)?;
                same("the original after add_bytes", public.probe(), self.model.rust.as_ref().expect("an accumulator").probe())?;
            }
        }
        if answer == 0 {
            let f = Fields::parse(state).expect("an accepted state");
            self.counts.paths[path(&before, &self.model.head, &f, departure)] += 1;
        }
        let counts = if folded { &mut self.counts.fold } else { &mut self.counts.add };
        counts[answer as usize] += 1;
        Ok(answer)
    }

    fn call(&mut self, call: &Call) -> Found {
        match call {
            Call::Near => {
                let (answer, bytes) = if self.odd.is_some() { (1, Vec::new()) } else { self.model.write(usize::MAX) };
                if answer == 0 {
                    self.call(&Call::Write(bytes.len()))?;
                    self.call(&Call::Write(bytes.len() - 1))?;
                }
            }
            Call::Add(state) => {
                let untouched = self.untouched();
                // A state of 2^31 bytes is not copied.
                let given = if state.len() < 1 << 26 { Cow::Owned(state.clone()) } else { Cow::Borrowed(state) };
                let answer = self.side.add(&given);
                same("the state's bytes", &*given, state)?;
                let expected = self.expect(state, false)?;
                same("answer", answer, expected)?;
                self.is_untouched(untouched)?;
            }
            Call::Fold(states, ends, cells) => {
                let mut answers = Lent::new(*cells, BYTE);
                let split = splits(states, ends, *cells);
                let whole = match split {
                    None => 100,
                    Some(_) => u8::from(self.odd.is_some() || !self.model.fits()),
                };
                let untouched = if whole == 0 { None } else { Some(self.side.clone()) };
                let (given, given_ends) = (states.clone(), ends.clone());
                let answer = self.side.fold(&given, &given_ends, answers.get_mut());
                same("the states' bytes", &given, states)?;
                same("the ends", &given_ends, ends)?;
                same("answer of a fold", answer, whole)?;
                self.counts.folds[0] += 1;
                self.counts.folds[1] += u64::from(whole == 1);
                self.counts.folds[2] += u64::from(whole == 100);
                let mut expected = vec![BYTE; *cells];
                if whole == 0 {
                    for (cell, state) in expected.iter_mut().zip(split.expect("ends that fit")) {
                        *cell = self.expect(state, true)?;
                    }
                }
                same("answers of a fold", answers.get(), &expected[..])?;
                if !answers.guarded() {
                    return Err("a cell outside of the answers is changed".to_string());
                }
                self.is_untouched(untouched)?;
            }
            Call::Write(space) => {
                let sparse = self.side.sparse.clone();
                let untouched = self.untouched();
                let (mut out, mut len) = (Lent::new(*space, BYTE), Lent::new(2, NUMBER));
                let answer = self.side.write(out.get_mut(), len.get_mut());
                let (expected, bytes) = if self.odd.is_some() {
                    self.counts.no_head += 1;
                    (1, Vec::new())
                } else {
                    self.model.write(*space)
                };
                self.counts.write[expected as usize] += 1;
                if expected == 0 {
                    let h = &self.model.head;
                    self.counts.written[if h.form == DENSE { 2 } else { usize::from(h.waiting > 0) }] += 1;
                }
                same("answer of a write", answer, expected)?;
                same("written length", len.get(), &[bytes.len() as u64, NUMBER][..])?;
                if out.get()[..bytes.len()] != bytes[..] {
                    return Err(format!("written {}, expected {}", hex(&out.get()[..bytes.len().min(500)]), hex(&bytes[..bytes.len().min(500)])));
                }
                if !out.guarded() || !len.guarded() || out.get()[bytes.len()..].iter().any(|b| *b != BYTE) {
                    return Err("a byte behind the written ones is changed".to_string());
                }
                if self.side.sparse.get() != sparse.get() {
                    return Err("a write changed `sparse`".to_string());
                }
                self.is_untouched(untouched)?;
            }
        }
        self.compare()
    }

    /// Where the row is no head, nothing at all may change.
    fn untouched(&self) -> Option<Side> {
        self.odd.as_ref().map(|_| self.side.clone())
    }

    fn is_untouched(&self, before: Option<Side>) -> Found {
        let Some(before) = before else { return Ok(()) };
        let side = &self.side;
        let all = before.registers.get() == side.registers.get()
            && before.sparse.get() == side.sparse.get()
            && before.pending.get() == side.pending.get();
        if all { Ok(()) } else { Err("memory is changed though the row is no head, or a fold was refused".to_string()) }
    }
}

/// Runs a script on both sides. The first difference, with the number of its call.
pub fn run(script: &Script, counts: &mut Counts) -> Result<(), (usize, String)> {
    let mut both = Both::new(script, counts);
    both.counts.scripts += 1;
    for (i, call) in script.calls.iter().enumerate() {
        both.call(call).map_err(|e| (i, e))?;
    }
    Ok(())
}

/// The same; where the expected side itself stops, that is told as a difference too.
pub fn run_guarded(script: &Script, counts: &mut Counts) -> Result<(), (usize, String)> {
    match catch_unwind(AssertUnwindSafe(|| run(script, counts))) {
        Ok(found) => found,
        Err(e) => {
            let text = e.downcast_ref::<String>().cloned().or_else(|| e.downcast_ref::<&str>().map(|s| s.to_string()));
            Err((script.calls.len(), format!("stopped: {}", text.unwrap_or_default())))
        }
    }
}

/// A script that is as small as dropping calls, states and bytes makes it, and still has a difference.
pub fn smallest(script: &Script) -> (Script, String) {
    std::panic::set_hook(Box::new(|_| {}));
    let differs = |s: &Script| run_guarded(s, &mut Counts::new()).err();
    let mut best = script.clone();
    let mut found = differs(&best).map_or("not found again".to_string(), |(_, e)| e);
    let mut tries = 0;
    loop {
        let mut smaller = false;
        let mut accept = |candidate: Script, best: &mut Script| {
            tries += 1;
            if tries > 20000 {
                return false;
            }
            if let Some((_, e)) = differs(&candidate) {
                *best = candidate;
                found = e;
                smaller = true;
                return true;
            }
            false
        };
        let mut chunk = best.calls.len();
        while chunk > 0 {
            let mut at = 0;
            while at < best.calls.len() {
                let mut candidate = best.clone();
                candidate.calls.drain(at..(at + chunk).min(best.calls.len()));
                if !accept(candidate, &mut best) {
                    at += chunk;
                }
            }
            chunk /= 2;
        }
        for i in 0..best.calls.len() {
            if let Call::Fold(states, ends, cells) = best.calls[i].clone() {
                let mut candidate = best.clone();
                let adds = splits(&states, &ends, cells).unwrap_or_default().iter().map(|s| Call::Add(s.to_vec())).collect::<Vec<_>>();
                candidate.calls.splice(i..=i, adds);
                if accept(candidate, &mut best) {
                    break;
                }
            }
        }
        for i in 0..best.calls.len() {
            let mut at = 0;
            while let Call::Add(state) = &best.calls[i] {
                if at >= state.len() {
                    break;
                }
                let mut shorter = state.clone();
                shorter.remove(at);
                let mut candidate = best.clone();
                candidate.calls[i] = Call::Add(shorter);
                if !accept(candidate, &mut best) {
                    at += 1;
                }
            }
        }
        if !smaller || tries > 20000 {
            return (best, found);
        }
    }
}
