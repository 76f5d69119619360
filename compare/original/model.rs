//! The roll-up that is expected: the Rust original's accumulator, and documents 01 and 02 for what that has no counterpart of. It is what the maker of the vectors
//! of `rollup_cases` and the comparison share; both have `cases.rs` and `lists.rs` beside it.

use crate::cases::{mark, Pair};
use crate::lists;
use original::{Accumulator, Fields, Probe};
use std::collections::BTreeSet;

pub const UNSTARTED: u8 = 0;
pub const SPARSE: u8 = 1;
pub const DENSE: u8 = 2;

/// Document 01's head.
#[derive(Clone, Debug, Default)]
pub struct Head {
    pub form: u8,
    pub allowed: u8,
    pub value_type: i32,
    pub num_values: i64,
    pub p: i32,
    pub s: i32,
    pub size: i32,
    pub kept: u64,
    pub bytes: u64,
    pub waiting: u64,
}

/// A roll-up: a head, the memory that is lent with it (of working only the length counts), and the original's accumulator.
#[derive(Clone, Default)]
pub struct Rollup {
    pub head: Head,
    pub registers: Vec<u8>,
    pub kept: Vec<u32>,
    pub waiting: Vec<u32>,
    pub working: usize,
    /// None after the head or the memory was set.
    pub rust: Option<Accumulator>,
}

/// Where the original does something else.
#[derive(Clone, Copy, Debug, PartialEq)]
pub enum Departure {
    None,
    /// Document 01's "Difference": merged in the place of an insertion.
    Merged,
    /// Document 02, U3: refused, where the original accepts the list.
    Refused,
    /// The same, where the original finds a fault further on.
    RefusedSooner,
}

// ---- documents 01 and 02, where the original has no counterpart

/// "Limit L = 3 × 2^(p−2)."
pub fn limit(p: i32) -> u64 {
    3 << (p - 2)
}

/// Whether a list may have a value. The original says the same where s > p, and where s = p it takes these and more.
pub fn is_valid(p: i32, s: i32, v: u32) -> bool {
    let valid = lists::is_valid((p, s), v);
    if valid || s > p {
        assert_eq!(valid, original::is_valid(p, s, v), "{v} at ({p},{s})");
    }
    valid
}

/// The values of a list, or 18, 19 or 20. The original reads the same where s > p, and where s = p it reads these and more.
fn decode((p, s): Pair, bytes: &[u8]) -> Result<Vec<u32>, u8> {
    let read = lists::decode((p, s), bytes);
    if read.is_ok() || s > p {
        assert_eq!(read, original::decode_sparse(bytes, p, s), "{bytes:x?} at ({p},{s})");
    }
    read
}

/// The answer to a state's list, which the original answered with 0, 18, 19 or 20; and whether U3 had a say.
pub fn listed(f: &Fields, rust: u8) -> (u8, Departure) {
    let Some(list) = f.sparse_data.as_ref().filter(|l| !l.is_empty()) else {
        return (rust, Departure::None);
    };
    let pair = (f.precision, f.sparse_precision);
    match (decode(pair, list), rust) {
        (Ok(_), 0) => (0, Departure::None),
        (Err(n), _) if n == rust => (n, Departure::None),
        (Err(20), 0) if pair.0 == pair.1 => (20, Departure::Refused),
        (Err(20), 18 | 19) if pair.0 == pair.1 => (20, Departure::RefusedSooner),
        (read, _) => panic!("the original answers {rust}, the words {read:?}"),
    }
}

pub fn ascends(list: &[u32]) -> bool {
    list.windows(2).all(|w| w[0] <= w[1])
}

/// "Where kept holds equal values or two marked values of one index."
pub fn repeats(p: i32, s: i32, list: &[u32]) -> bool {
    let mark = mark((p, s));
    list.windows(2).any(|w| w[0] == w[1] || w[0] >= mark && (w[0] - mark) / 64 == (w[1] - mark) / 64)
}

/// The sparse index of a value (module 3): a plain value is one, a marked one has the index of a register.
pub fn index((p, s): Pair, v: u32) -> u32 {
    match v.checked_sub(mark((p, s))) {
        None => v,
        Some(rest) => rest / 64 << (s - p),
    }
}

impl Rollup {
    pub fn kept(&self) -> &[u32] {
        &self.kept[..(self.head.kept as usize).min(self.kept.len())]
    }

    pub fn waiting(&self) -> &[u32] {
        &self.waiting[..(self.head.waiting as usize).min(self.waiting.len())]
    }

    /// Question 1. Document 02, U3: it "asks for registers at most 65−p".
    pub fn fits(&self) -> bool {
        let h = &self.head;
        let started = (4..=24).contains(&h.p) && h.s != 0;
        let no_lists = h.kept == 0 && h.waiting == 0;
        match h.form {
            UNSTARTED => no_lists,
            DENSE => {
                started && no_lists && self.registers.len() >= 1 << h.p && self.registers[..1 << h.p].iter().all(|r| i32::from(*r) <= 65 - h.p)
            }
            _ => {
                started
                    && (h.p..=25).contains(&h.s)
                    && h.kept <= self.kept.len() as u64
                    && h.waiting <= self.waiting.len() as u64
                    && self.kept().iter().chain(self.waiting()).all(|v| is_valid(h.p, h.s, *v))
                    && ascends(self.kept())
                    && h.waiting <= 2048
                    && original::encode_sparse(self.kept()).len() as u64 <= h.bytes
                    && h.bytes <= 2147483647
                    && (h.waiting == 0 || h.bytes + 5 * h.waiting < limit(h.p))
            }
        }
    }

    /// Question 17.
    pub fn has_room(&self, f: &Fields) -> bool {
        let p = if self.head.form == UNSTARTED { f.precision } else { self.head.p };
        let listed = f.sparse_data.as_ref().map_or(0, Vec::len);
        let want = (self.head.kept + self.head.waiting) as usize + listed;
        self.registers.len() >= 1 << p
            && (listed == 0 || [self.kept.len(), self.waiting.len(), self.working].iter().all(|n| *n >= want))
    }

    /// Whether a list that is accepted would be inserted, but "Difference" has it merged.
    pub fn differs(&self, f: &Fields) -> bool {
        let h = &self.head;
        let Some(list) = f.sparse_data.as_ref().filter(|l| !l.is_empty()) else {
            return false;
        };
        if h.form != SPARSE || h.waiting > 0 {
            return false;
        }
        let k = original::decode_sparse(list, h.p, h.s).expect("an accepted list").len() as u64;
        let waits = h.bytes + 5 * k < limit(h.p) && k <= 2048;
        !waits && k <= 16 && 16 * k <= h.kept && repeats(h.p, h.s, self.kept())
    }

    /// The original's accumulator with this head and memory.
    pub fn accumulator(&self) -> Accumulator {
        let h = &self.head;
        if h.form == UNSTARTED {
            return Accumulator::new();
        }
        Accumulator::probe_from(Probe {
            form: h.form,
            allowed: h.allowed,
            value_type: h.value_type,
            num_values: h.num_values,
            precision: h.p,
            sparse_precision: h.s,
            sparse_size: h.size,
            sparse_bytes: h.bytes as usize,
            sparse: self.kept().to_vec(),
            pending: self.waiting().to_vec(),
            registers: if h.form == DENSE { self.registers[..1 << h.p].to_vec() } else { Vec::new() },
        })
    }

    /// The answer to a state, which is added where it is accepted; and where the original does something else.
    pub fn add(&mut self, bytes: &[u8]) -> (u8, Departure) {
        if !self.fits() {
            return (1, Departure::None);
        }
        if bytes.len() > 2147483647 {
            return (2, Departure::None);
        }
        let before = self.rust.take().unwrap_or_else(|| self.accumulator());
        let mut after = before.clone();
        let rust = original::add(&mut after, bytes);
        if rust != 0 && rust < 17 {
            self.rust = Some(before);
            return (rust, Departure::None);
        }
        let f = Fields::parse(bytes).expect("a state that was read");
        let (answer, departure) = if self.has_room(&f) { listed(&f, rust) } else { (17, Departure::None) };
        if answer != 0 {
            self.rust = Some(before);
            return (answer, departure);
        }
        let differs = self.differs(&f);
        if differs {
            after = before;
            after.probe_merge(bytes).expect("an accepted list");
        }
        self.take(&after.probe());
        self.rust = Some(after);
        assert!(self.fits(), "what an accepted call leaves fits");
        (0, if differs { Departure::Merged } else { Departure::None })
    }

    /// The answer to writing into an output of this many bytes, and the written bytes: the original's where no question is answered no.
    pub fn write(&self, space: usize) -> (u8, Vec<u8>) {
        let h = &self.head;
        if !self.fits() {
            return (1, Vec::new());
        }
        let made;
        let rust = match &self.rust {
            Some(rust) => rust,
            None => {
                made = self.accumulator();
                &made
            }
        };
        if h.form == UNSTARTED {
            assert_eq!(rust.serialize(), None);
            return (21, Vec::new());
        }
        if (self.working as u64) < h.kept + h.waiting {
            return (17, Vec::new());
        }
        // With values waiting, kept bytes + 5 x waiting is below L, and the written length is no more.
        if h.form == SPARSE && h.waiting == 0 && original::encode_sparse(self.kept()).len() as u64 >= limit(h.p) {
            // The sketch refuses a value type that no state has.
            if [0, 7, 8, 11].contains(&h.value_type) {
                let bytes = rust.serialize().expect("a state");
                assert!(Fields::parse(&bytes).expect("a state").data.is_some(), "the sketch writes registers where 22 is expected");
            }
            return (22, Vec::new());
        }
        let bytes = rust.serialize().expect("a state");
        self.look_at(&bytes);
        if space < bytes.len() {
            return (23, Vec::new());
        }
        (0, bytes)
    }

    /// Document 01 on a written state.
    pub fn look_at(&self, bytes: &[u8]) {
        let h = &self.head;
        let f = Fields::parse(bytes).expect("a state");
        assert_eq!((f.kind, f.encoding_version, f.value_type, f.num_values), (112, 2, h.value_type, h.num_values));
        assert_eq!((f.precision, f.sparse_precision), (h.p, h.s));
        if h.form == DENSE {
            assert_eq!((f.sparse_size, f.data, f.sparse_data), (h.size, Some(self.registers[..1 << h.p].to_vec()), None));
            return;
        }
        let list = f.sparse_data.expect("a list roll-up has field 6 even when empty");
        assert!(f.data.is_none() && (list.len() as u64) < limit(h.p));
        let indices: BTreeSet<u32> = self.kept().iter().chain(self.waiting()).map(|v| index((h.p, h.s), *v)).collect();
        assert_eq!(f.sparse_size, if h.waiting == 0 { h.size } else { indices.len() as i32 });
        if h.waiting == 0 {
            assert_eq!(list, original::encode_sparse(self.kept()));
        }
    }

    /// The head and the memory become what the original holds.
    pub fn take(&mut self, x: &Probe) {
        let before = self.head.clone();
        let dense = x.form == DENSE;
        self.head = Head {
            form: x.form,
            allowed: x.allowed,
            value_type: x.value_type,
            num_values: x.num_values,
            p: x.precision,
            s: x.sparse_precision,
            size: x.sparse_size,
            kept: x.sparse.len() as u64,
            // Turning dense sets the kept bytes to 0, where the original leaves them; a head that was dense keeps its own.
            bytes: match (dense, before.form) {
                (false, _) => x.sparse_bytes as u64,
                (true, DENSE) => before.bytes,
                (true, _) => 0,
            },
            waiting: x.pending.len() as u64,
        };
        self.kept[..x.sparse.len()].copy_from_slice(&x.sparse);
        self.waiting[..x.pending.len()].copy_from_slice(&x.pending);
        if dense {
            // "Freed register bytes are zero, other bytes past 2^p untouched."
            if before.form == DENSE {
                self.registers[..1 << before.p].fill(0);
            }
            assert_eq!(x.registers.len(), 1 << x.precision);
            self.registers[..x.registers.len()].copy_from_slice(&x.registers);
        }
    }
}
