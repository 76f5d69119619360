//! Scripts by chance, the same for the same seed.

use crate::cases::{least_m, mark, marked, Chance, Pair};
use crate::model::{limit, Head, DENSE, SPARSE, UNSTARTED};
use crate::run::{Call, Script, Set};
use original::Fields;

pub struct Gen {
    chance: Chance,
}

/// A state with neither data nor a list.
pub fn neither((p, s): Pair) -> Fields {
    Fields { kind: 112, num_values: 1, encoding_version: 2, value_type: 0, sparse_size: 0, precision: p, sparse_precision: s, data: None, sparse_data: None }
}

/// A state whose list has these values.
pub fn list(pair: Pair, values: &[u32]) -> Fields {
    let bytes = original::encode_sparse(values);
    Fields { num_values: values.len() as i64, sparse_size: values.len() as i32, sparse_data: Some(bytes), ..neither(pair) }
}

/// A state with these registers.
pub fn dense(pair: Pair, registers: Vec<u8>) -> Fields {
    Fields { num_values: 100, data: Some(registers), ..neither(pair) }
}

/// The i-th of values that ascend in steps of one byte, as far as the pair has them. With s = p every value is marked.
fn step((p, s): Pair, i: u32) -> u32 {
    if s == p { marked((p, s), i.min((1 << p) - 1), 1) } else { i.min((1 << s) - 1) }
}

fn put_varint(out: &mut Vec<u8>, mut v: u64) {
    while v >= 128 {
        out.push(v as u8 | 128);
        v >>= 7;
    }
    out.push(v as u8);
}

impl Gen {
    pub fn new(seed: u64, script: u64) -> Gen {
        // Each script has numbers of its own (splitmix64, Steele and others 2014).
        let mut z = seed.wrapping_mul(0x9e37_79b9_7f4a_7c15).wrapping_add(script).wrapping_add(1).wrapping_mul(0x9e37_79b9_7f4a_7c15);
        z = (z ^ z >> 30).wrapping_mul(0xbf58_476d_1ce4_e5b9);
        z = (z ^ z >> 27).wrapping_mul(0x94d0_49bb_1331_11eb);
        Gen { chance: Chance((z ^ z >> 31) | 1) }
    }

    pub fn below(&mut self, n: u64) -> u64 {
        self.chance.below(n)
    }

    /// Once in n times.
    pub fn once(&mut self, n: u64) -> bool {
        self.below(n) == 0
    }

    fn one<T: Copy>(&mut self, of: &[T]) -> T {
        of[self.below(of.len() as u64) as usize]
    }

    fn p(&mut self) -> i32 {
        match self.below(100) {
            0..=74 => 4 + self.below(4) as i32,
            75..=95 => 8 + self.below(4) as i32,
            _ => 12 + self.below(5) as i32,
        }
    }

    fn pair_of(&mut self, p: i32) -> Pair {
        let s = if self.once(4) { p + self.below((26 - p) as u64) as i32 } else { p + self.one(&[0, 0, 1, 2, 4, 5, 5, 5, 6, 7, 8]) };
        (p, s.min(25))
    }

    pub fn pair(&mut self) -> Pair {
        let p = self.p();
        self.pair_of(p)
    }

    fn value(&mut self, (p, s): Pair, few: u64) -> u32 {
        let least = least_m((p, s));
        match self.below(40) {
            0 if s > p => return (1 << s) - 1,
            1 => return marked((p, s), (1 << p) - 1, (65 - s) as u32),
            2 => return marked((p, s), 0, least),
            _ => {}
        }
        if s == p || self.once(3) {
            let index = self.below(few.min(1 << p)) as u32;
            return marked((p, s), index, least + self.below((66 - s) as u64 - u64::from(least)) as u32);
        }
        let v = self.below((few * few * 4).min(1 << s)) as u32;
        if self.once(4) { v >> (s - p) << (s - p) } else { v }
    }

    /// A list that ascends; values may repeat.
    fn values(&mut self, pair: Pair, most: u64) -> Vec<u32> {
        let n = self.below(most + 1);
        let few = 1 + self.one(&[3, 12, 40, 400, 4000]);
        let mut values: Vec<u32> = (0..n).map(|_| self.value(pair, few)).collect();
        values.sort_unstable();
        if self.once(2) {
            values.dedup();
        }
        values
    }

    /// A varint with up to this many bytes.
    fn long(&mut self, v: u64, most: usize) -> Vec<u8> {
        let mut out = Vec::new();
        put_varint(&mut out, v);
        let n = out.len() as u64 + self.below(most as u64 + 1 - out.len().min(most) as u64);
        while (out.len() as u64) < n {
            *out.last_mut().unwrap() |= 128;
            out.push(0);
        }
        out
    }

    /// The bytes of a list; now and then with longer spellings. A value that is less than the one before takes a gap that wraps.
    fn spelled(&mut self, values: &[u32]) -> Vec<u8> {
        let longer = self.once(3);
        let mut last = 0;
        let mut out = Vec::new();
        for v in values {
            let gap = u64::from(v.wrapping_sub(last));
            last = *v;
            if longer && self.once(2) {
                out.extend(self.long(gap, 5));
            } else {
                put_varint(&mut out, gap);
            }
        }
        out
    }

    /// A value that no list with s = p has: a plain one, one between the plain ones and the mark, m = 0, m above 65-s, bits above the mark with the mark bit clear or set.
    fn unlisted(&mut self, (p, s): Pair) -> u32 {
        let flag = mark((p, s));
        let index = self.below(1 << p) as u32;
        let m = (66 - s) as u32 + self.below((s - 2) as u64) as u32;
        match self.below(8) {
            0 => self.one(&[0, 1, (1 << s) - 1]),
            1 => self.below(1 << s) as u32,
            2 => (1 << s) + self.below(u64::from(flag - (1 << s))) as u32,
            3 | 4 => marked((p, s), index, 0),
            5 => marked((p, s), index, m),
            6 => 2 * flag + 64 * index + self.one(&[0, 1, m]),
            _ => 3 * flag + 64 * index + self.one(&[0, 0, 1, m]),
        }
    }

    /// Something behind a list, or the end of it taken away: a cut gap, an overlong one, one that wraps.
    fn ended(&mut self, mut bytes: Vec<u8>) -> Vec<u8> {
        match self.below(8) {
            0 => bytes.push(0x80 | self.below(128) as u8),
            1 => bytes.extend([0x80 | self.below(128) as u8, 0x80, 0x80, 0x80, self.below(256) as u8]),
            2 => bytes.extend([0xff, 0xff, 0xff, 0xff, 0x0f]),
            3 => bytes.extend([0x80, 0x80, 0x80, 0x80]),
            4 => bytes.truncate(self.below(bytes.len() as u64 + 1) as usize),
            _ => {}
        }
        bytes
    }

    /// The bytes of a list with s = p that has a fault or two somewhere, mostly in order.
    fn equal_faulty(&mut self, pair: Pair) -> Vec<u8> {
        let mut values = self.values(pair, 3);
        for _ in 0..1 + self.below(2) {
            let at = self.below(values.len() as u64 + 1) as usize;
            let v = self.unlisted(pair);
            values.insert(at, v);
        }
        if !self.once(4) {
            values.sort_unstable();
        }
        let mut bytes = self.spelled(&values);
        if self.once(8) {
            let at = self.below(bytes.len() as u64 + 1) as usize;
            bytes.splice(at..at, [0x80, 0x80, 0x80, 0x80, 0x10]);
        }
        self.ended(bytes)
    }

    /// The bytes of a list with a fault somewhere.
    fn faulty(&mut self, (p, s): Pair) -> Vec<u8> {
        if s == p && !self.once(4) {
            return self.equal_faulty((p, s));
        }
        let mut values = self.values((p, s), 4);
        let flag = mark((p, s));
        let last = match self.below(9) {
            0 => (1 << s) + self.below(5) as u32,
            1 => flag + 64 * (1 << p) + self.below(70) as u32,
            2 => flag + 64 * self.below(1 << p) as u32 + (66 - s) as u32 + self.below(3) as u32,
            3 => flag.wrapping_mul(2).wrapping_add(self.below(200) as u32),
            4 => flag.wrapping_mul(3).wrapping_add(self.below(200) as u32),
            5 => u32::MAX - self.below(4) as u32,
            6 => flag - 1,
            7 => 1u32 << 31,
            _ => values.last().copied().unwrap_or(0),
        };
        if values.last().is_none_or(|v| *v <= last) {
            values.push(last);
        }
        let bytes = self.spelled(&values);
        let mut bytes = self.ended(bytes);
        if self.once(4) {
            bytes.push(self.below(256) as u8);
        }
        bytes
    }

    fn registers(&mut self, p: i32) -> Vec<u8> {
        let often = self.one(&[1, 2, 5, 40, 400]);
        let most = (65 - p) as u64;
        (0..1 << p)
            .map(|_| if self.once(often) { if self.once(9) { self.below(most + 1) as u8 } else { 1 + self.below(most.min(6)) as u8 } } else { 0 })
            .collect()
    }

    /// A state of this pair; `odd` in 100 have something unusual or wrong in their fields.
    fn fields(&mut self, pair: Pair, odd: u64, most: u64) -> Fields {
        let mut f = match self.below(20) {
            0 | 1 => {
                let r = self.registers(pair.0);
                dense(pair, r)
            }
            2 => neither(pair),
            3 => Fields { sparse_data: Some(Vec::new()), ..neither(pair) },
            _ => {
                let few = if self.once(3) { most } else { most.min(3) };
                let values = self.values(pair, few);
                Fields { sparse_data: Some(self.spelled(&values)), ..list(pair, &values) }
            }
        };
        f.num_values = match self.below(12) {
            0 => self.one(&[0, -1, i64::MAX, i64::MIN, i64::MAX - 3]),
            _ => f.num_values + self.below(200) as i64,
        };
        if self.once(12) {
            f.value_type = self.one(&[7, 8, 11]);
        }
        if self.once(12) {
            f.sparse_size = self.one(&[0, -1, 7, i32::MAX, i32::MIN, 300]);
        }
        if self.below(100) >= odd {
            return f;
        }
        let p = pair.0;
        match self.below(16) {
            0 => f.kind = self.one(&[0, 111, 113, -112]),
            1 => f.encoding_version = self.one(&[0, 1, 3, -2]),
            2 => f.value_type = self.one(&[-1, 1, 6, 9, 10, 12, 263]),
            3 => f.sparse_precision = 0,
            4 => f.precision = self.one(&[-1, 0, 3, 25, 24, p + 1, p - 1]),
            5 => f.sparse_precision = self.one(&[-1, 3, p - 1, 26, 25, p, i32::MIN, i32::MAX]),
            6 => f.data = Some(vec![1; self.below(40) as usize]),
            7 => {
                let mut r = self.registers(p);
                let at = self.below(r.len() as u64) as usize;
                r[at] = (65 - p) as u8 + self.below(3) as u8;
                f.data = Some(r);
                f.sparse_data = None;
            }
            8 => f.data = Some(self.registers(p)),
            9 => {
                f.data = Some(self.registers(p));
                f.sparse_data = Some(Vec::new());
            }
            10 => f.data = Some(Vec::new()),
            11 => {
                f.sparse_precision = self.one(&[-1, 1, 3, 26, 30, i32::MIN, i32::MAX, p, -7]);
                f.data = Some(self.registers(p));
                f.sparse_data = None;
            }
            _ => {
                f.data = None;
                f.sparse_data = Some(self.faulty(pair));
            }
        }
        f
    }

    /// Field number and wire type as a tag, now and then spelled long.
    fn tag(&mut self, field: u64, wire: u64) -> Vec<u8> {
        self.number(field << 3 | wire)
    }

    /// A number as a varint, now and then spelled long, with bits above the 64th too.
    fn number(&mut self, v: u64) -> Vec<u8> {
        match self.below(12) {
            0 => {
                let mut out = self.long(v, 10);
                if out.len() == 10 && self.once(2) {
                    out[9] |= 0x7e & self.below(128) as u8;
                }
                out
            }
            _ => {
                let mut out = Vec::new();
                put_varint(&mut out, v);
                out
            }
        }
    }

    fn bytes(&mut self, most: u64) -> Vec<u8> {
        let n = self.below(most + 1);
        (0..n).map(|_| self.chance.byte()).collect()
    }

    /// A field that is skipped, or that cannot be.
    fn unknown(&mut self) -> Vec<u8> {
        let field = self.one(&[1, 2, 3, 4, 5, 6, 7, 15, 16, 111, 112, 113, 2000, (1 << 29) - 1]);
        let wire = match self.below(30) {
            0 => self.one(&[3, 4, 6, 7]),
            n => [0, 1, 2, 5][n as usize % 4],
        };
        // A known field is skipped only with another wire type.
        let field = if wire == 0 && field < 5 || wire == 2 && [5, 6, 112].contains(&field) { 9 } else { field };
        let mut out = self.tag(field, wire);
        match wire {
            0 => {
                let v = self.below(1 << 40);
                out.extend(self.number(v));
            }
            1 => out.extend((0..8).map(|_| self.chance.byte())),
            5 => out.extend((0..4).map(|_| self.chance.byte())),
            2 => {
                let b = self.bytes(6);
                out.extend(self.number(b.len() as u64));
                out.extend(b);
            }
            _ => {}
        }
        out
    }

    fn shuffle<T>(&mut self, of: &mut [T]) {
        for i in (1..of.len()).rev() {
            of.swap(i, self.below(i as u64 + 1) as usize);
        }
    }

    fn message(&mut self, mut parts: Vec<Vec<u8>>, shuffled: bool) -> Vec<u8> {
        if shuffled {
            self.shuffle(&mut parts);
        }
        let n = parts.len() as u64;
        for _ in 0..self.one(&[0, 0, 1, 2]) {
            let at = self.below(n + 1) as usize;
            let unknown = self.unknown();
            parts.insert(at, unknown);
        }
        parts.concat()
    }

    fn field(&mut self, field: u64, v: i64) -> Vec<u8> {
        [self.tag(field, 0), self.number(v as u64)].concat()
    }

    fn part(&mut self, field: u64, bytes: &[u8]) -> Vec<u8> {
        [self.tag(field, 2), self.number(bytes.len() as u64), bytes.to_vec()].concat()
    }

    /// A state as no writer writes it: any order, fields twice, skipped fields, several nested messages, long varints.
    fn oddly(&mut self, f: &Fields) -> Vec<u8> {
        let mut inner = Vec::new();
        for (n, v) in [(2, f.sparse_size), (3, f.precision), (4, f.sparse_precision)] {
            if v != 0 || self.once(3) {
                inner.push(self.field(n, i64::from(v)));
            }
        }
        for (n, bytes) in [(5, &f.data), (6, &f.sparse_data)] {
            if let Some(bytes) = bytes {
                inner.push(self.part(n, bytes));
            }
        }
        self.shuffle(&mut inner);
        let cut = if self.once(3) { self.below(inner.len() as u64 + 1) as usize } else { 0 };
        let rest = inner.split_off(cut);
        let mut outer = Vec::new();
        for (n, v, absent) in
            [(1, i64::from(f.kind), 112), (2, f.num_values, 0), (3, i64::from(f.encoding_version), 1), (4, i64::from(f.value_type), 0)]
        {
            if v != absent || self.once(3) {
                outer.push(self.field(n, v));
            }
        }
        if cut > 0 {
            let m = self.message(inner, true);
            outer.push(self.part(112, &m));
        }
        let m = self.message(rest, true);
        outer.push(self.part(112, &m));
        let mut out = Vec::new();
        if self.once(3) {
            // Replaced by what comes later.
            let (n, v) = (1 + self.below(4), self.below(300) as i64);
            out.push(self.field(n, v));
        }
        if self.once(6) {
            let inner = match self.below(4) {
                0 => self.part(5, &[]),
                1 => self.part(6, &[]),
                2 => self.field(3, 9),
                _ => {
                    let b = self.bytes(3);
                    self.part(6, &b)
                }
            };
            out.push(self.part(112, &inner));
        }
        let m = self.message(outer, true);
        out.push(m);
        if self.once(8) {
            let inner = match self.below(3) {
                0 => self.part(5, &[]),
                1 => self.field(4, i64::from(f.sparse_precision)),
                _ => Vec::new(),
            };
            out.push(self.part(112, &inner));
        }
        out.concat()
    }

    /// A copy that is damaged somewhere.
    fn damaged(&mut self, bytes: &[u8]) -> Vec<u8> {
        let mut out = bytes.to_vec();
        if out.is_empty() {
            return vec![self.chance.byte()];
        }
        let at = self.below(out.len() as u64) as usize;
        let near = at.min(self.below(40) as usize);
        match self.below(9) {
            0 => out[at] ^= 1 << self.below(8),
            1 => out[near] ^= 1 << self.below(8),
            2 => out.truncate(at),
            3 => out[near] = self.chance.byte(),
            4 => out.insert(near, self.chance.byte()),
            5 => {
                out.remove(near);
            }
            6 => {
                // Two neighbouring parts change places.
                let end = (near + 1 + self.below(8) as usize).min(out.len());
                let middle = near + self.below((end - near) as u64) as usize;
                out[near..end].rotate_left(middle - near);
            }
            7 => {
                let end = (near + 1 + self.below(12) as usize).min(out.len());
                let part = out[near..end].to_vec();
                out.splice(end..end, part);
            }
            _ => {
                let b = self.bytes(4);
                out.extend(b);
            }
        }
        out
    }

    /// A state, mostly sound and of this pair.
    fn state(&mut self, pair: Pair, elsewhere: u64, most: u64) -> Vec<u8> {
        let pair = if self.once(elsewhere) { if self.once(2) { self.pair() } else { self.near(pair) } } else { pair };
        let f = self.fields(pair, 12, most);
        let bytes = if self.once(4) && f.data.as_ref().is_none_or(|d| d.len() < 5000) { self.oddly(&f) } else { f.encode() };
        if self.once(12) { self.damaged(&bytes) } else { bytes }
    }

    /// Another pair that is not far.
    fn near(&mut self, (p, s): Pair) -> Pair {
        let p = (p + self.below(5) as i32 - 2).clamp(4, 17);
        (p, (s + self.below(5) as i32 - 2).clamp(p, 25))
    }

    fn fold(&mut self, states: Vec<Vec<u8>>) -> Call {
        let mut end = 0;
        let mut ends: Vec<u64> = states
            .iter()
            .map(|s| {
                end += s.len() as u64;
                end
            })
            .collect();
        let mut cells = ends.len();
        match self.below(12) {
            0 => cells += self.below(3) as usize,
            1 => cells -= self.below(cells as u64 + 1) as usize,
            2 => {
                let at = self.below(ends.len() as u64) as usize;
                ends[at] = self.one(&[0, 1, u64::MAX, end, end + 1, end / 2]);
            }
            _ => {}
        }
        Call::Fold(states.concat(), ends, cells)
    }

    fn space(&mut self, most: u64) -> usize {
        match self.below(4) {
            0 => self.below(60) as usize,
            _ => most as usize,
        }
    }

    /// Calls at one pair, mostly.
    fn calls(&mut self, pair: Pair, n: u64, elsewhere: u64, most: u64) -> Vec<Call> {
        let room = (1 << pair.0.min(17)) + 4 * most + 200;
        let mut calls = Vec::new();
        for _ in 0..n {
            match self.below(10) {
                0 | 1 => {
                    let states = (0..1 + self.below(8)).map(|_| self.state(pair, elsewhere, most)).collect();
                    calls.push(self.fold(states));
                }
                2 if self.once(3) => calls.push(Call::Near),
                2 => calls.push(Call::Write(self.space(room))),
                _ => calls.push(Call::Add(self.state(pair, elsewhere, most))),
            }
        }
        calls.push(Call::Write(room as usize));
        calls
    }

    fn lent(&mut self, p: i32, cells: usize) -> Script {
        let more = self.below(4) as usize;
        let mut script = Script { registers: (1 << p) + more, kept: cells, waiting: cells, working: cells, ..Script::default() };
        if self.once(10) {
            // Little of something.
            let n = self.below(cells as u64 / 2 + 1) as usize;
            match self.below(4) {
                0 => script.registers = self.below(1 << p) as usize,
                1 => script.kept = n,
                2 => script.waiting = n,
                _ => script.working = n,
            }
        }
        script
    }

    fn sequence(&mut self) -> Script {
        let pair = self.pair();
        let most = self.one(&[3, 8, 20, 60]);
        let n = self.one(&[4, 12, 40]);
        let mut script = self.lent(pair.0, (limit(pair.0) as usize).min(2100) + 400);
        script.calls = self.calls(pair, n, 20, most);
        script
    }

    /// Lists at a small precision, which come near L all the time.
    fn at_the_limit(&mut self) -> Script {
        let p = 4 + self.below(5) as i32;
        let pair = self.pair_of(p);
        let mut script = self.lent(p, 900);
        let l = limit(p);
        let first = self.below(l + 3);
        let mut values = self.values(pair, first);
        if self.once(2) {
            let few = 2 * l as u32 + self.below(300) as u32;
            values = (0..first as u32).map(|i| step(pair, i * few.min(1 << pair.1) / l as u32 % (1 << pair.1))).collect();
            values.sort_unstable();
        }
        let f = Fields { sparse_data: Some(self.spelled(&values)), ..list(pair, &values) };
        script.calls.push(Call::Add(f.encode()));
        for _ in 0..self.one(&[2, 6, 20]) {
            let few = self.one(&[1, 2, 4, 17, 40]);
            let values = self.values(pair, few);
            let f = Fields { sparse_data: Some(self.spelled(&values)), ..list(pair, &values) };
            script.calls.push(Call::Add(f.encode()));
            if self.once(3) {
                script.calls.push(Call::Write(2 * l as usize + 100));
            }
        }
        script
    }

    /// A few values into a list that is nearly as long as it may be; some lists have repeats or two marked values of one index.
    fn few_into_many(&mut self) -> Script {
        let p = 5 + self.below(6) as i32;
        let pair = self.pair_of(p);
        let mut script = self.lent(p, limit(p) as usize + 300);
        let l = limit(p) as u32;
        let n = l - 1 - self.below(u64::from(l / 4)) as u32;
        let mut values: Vec<u32> = (0..n).map(|i| step(pair, i)).collect();
        let some = self.one(&[0, 0, 1, 3, 9]);
        for _ in 0..some {
            let v = self.value(pair, 40);
            let at = self.below(values.len() as u64) as usize;
            values[at] = v;
        }
        values.sort_unstable();
        if self.once(3) {
            values.dedup();
            let seen = &mut None;
            let flag = mark(pair);
            values.reverse();
            values.retain(|v| *v < flag || seen.replace(*v / 64) != Some(*v / 64));
            values.reverse();
        }
        let f = Fields { sparse_data: Some(self.spelled(&values)), ..list(pair, &values) };
        script.calls.push(Call::Add(f.encode()));
        for _ in 0..3 + self.below(9) {
            let k = 1 + self.one(&[0, 0, 1, 2, 4, 15, 16]);
            let few = self.one(&[4, 40, 400]);
            let mut some: Vec<u32> = (0..k)
                .map(|_| if self.once(2) { values[self.below(values.len() as u64) as usize] } else { self.value(pair, few) })
                .collect();
            some.sort_unstable();
            let f = Fields { sparse_data: Some(self.spelled(&some)), ..list(pair, &some) };
            script.calls.push(Call::Add(f.encode()));
            if self.once(3) {
                script.calls.push(Call::Write(2 * l as usize + 100));
            }
        }
        script
    }

    /// A list of k values into one of just 16 x k, one less or one more, that is too long for waiting.
    fn sixteen(&mut self) -> Script {
        let k = 1 + self.below(17) as u32;
        let p = if k == 1 { 5 } else if k < 3 { 6 } else if k < 6 { 7 } else if k < 11 { 8 } else { 9 };
        let pair = self.pair_of(p);
        let mut script = self.lent(p, limit(p) as usize + 300);
        let n = 16 * k - 1 + self.below(3) as u32;
        let wide = self.one(&[1, 1, 3]);
        let mut values: Vec<u32> = (0..n).map(|i| step(pair, i * wide)).collect();
        if self.once(2) {
            let at = self.below(u64::from(n) - 1) as usize;
            values[at + 1] = values[at];
        }
        // Long gaps, until the field has about L bytes.
        let most = limit(p) as usize + self.below(8) as usize;
        let mut last = 0;
        let mut bytes = Vec::new();
        for (i, v) in values.iter().enumerate() {
            let left = values.len() - i - 1;
            let gap = u64::from(v - last);
            last = *v;
            if bytes.len() + left + 8 < most && self.once(2) {
                bytes.extend(self.long(gap, 5));
            } else {
                put_varint(&mut bytes, gap);
            }
        }
        let f = Fields { sparse_data: Some(bytes), ..list(pair, &values) };
        script.calls.push(Call::Add(f.encode()));
        for _ in 0..2 {
            let mut some: Vec<u32> = (0..k)
                .map(|_| if self.once(3) { values[self.below(values.len() as u64) as usize] } else { self.value(pair, 40) })
                .collect();
            some.sort_unstable();
            script.calls.push(Call::Add(list(pair, &some).encode()));
        }
        script.calls.push(Call::Near);
        script
    }

    /// Precisions that need much memory.
    fn large_p(&mut self) -> Script {
        let p = if self.once(20) { 21 + self.below(2) as i32 } else { 17 + self.below(4) as i32 };
        let pair = self.pair_of(p);
        let mut script = self.lent(p, 400);
        for _ in 0..3 {
            let f = match self.below(4) {
                0 => {
                    let mut r = vec![0; 1 << p];
                    for _ in 0..200 {
                        let at = self.below(1 << p) as usize;
                        r[at] = self.below((66 - p) as u64) as u8;
                    }
                    dense(pair, r)
                }
                1 => neither(pair),
                _ => {
                    let values = self.values(pair, 60);
                    list(pair, &values)
                }
            };
            script.calls.push(Call::Add(f.encode()));
        }
        script.calls.push(Call::Write((1 << p) + 100));
        let other = self.pair();
        let state = self.state(other, 9, 20);
        script.calls.push(Call::Add(state));
        script.calls.push(Call::Write((1 << p) + 100));
        script
    }

    /// Registers of many precisions, and lists into them.
    fn lowered(&mut self) -> Script {
        let p = if self.once(12) { 13 + self.below(4) as i32 } else { 4 + self.below(9) as i32 };
        let pair = self.pair_of(p);
        let mut script = self.lent(p, 300);
        let registers = self.registers(p);
        script.calls.push(Call::Add(dense(pair, registers).encode()));
        for _ in 0..self.one(&[2, 5, 9]) {
            let q = if self.once(3) { p } else { 4 + self.below(11) as i32 };
            let pair = self.pair_of(q);
            let state = match self.below(4) {
                0 => self.state(pair, 9, 40),
                1 => {
                    let values = self.values(pair, 60);
                    list(pair, &values).encode()
                }
                2 => {
                    let r = self.registers(q);
                    let s = if self.once(4) { self.one(&[-1, 1, 3, 26, i32::MIN, i32::MAX, -9]) } else { pair.1 };
                    dense((q, s), r).encode()
                }
                _ => neither(pair).encode(),
            };
            script.calls.push(Call::Add(state));
            if self.once(5) {
                script.calls.push(Call::Write((1 << p) + 100));
            }
        }
        // A list of the largest precisions needs no registers of its own.
        let large = (17 + self.below(8) as i32, 25);
        let values = self.values(large, 30);
        script.calls.push(Call::Add(list(large, &values).encode()));
        script
    }

    /// Lists with s = p, sound ones and ones with a fault, at a fresh roll-up, at a list and at registers.
    fn equal_precisions(&mut self) -> Script {
        let p = if self.once(12) { 10 + self.below(7) as i32 } else { 4 + self.below(6) as i32 };
        let pair = (p, p);
        let mut script = self.lent(p, 300);
        for _ in 0..self.one(&[4, 12, 30]) {
            let f = match self.below(12) {
                0 => {
                    let r = self.registers(p);
                    dense(pair, r)
                }
                1 => neither(pair),
                2..=5 => {
                    let values = self.values(pair, 12);
                    Fields { sparse_data: Some(self.spelled(&values)), ..list(pair, &values) }
                }
                _ => Fields { sparse_data: Some(self.equal_faulty(pair)), ..neither(pair) },
            };
            script.calls.push(Call::Add(f.encode()));
            if self.once(6) {
                script.calls.push(Call::Near);
            }
        }
        // Lowered, and read from a precision above.
        let other = self.near(pair);
        let values = self.values(other, 12);
        script.calls.extend([Call::Add(list(other, &values).encode()), Call::Write((1 << p) + 400)]);
        script
    }

    /// Each front of a state, each flipped bit, and each byte left out, after a few sound ones.
    fn each_damage(&mut self) -> Script {
        let p = 4 + self.below(3) as i32;
        let pair = self.pair_of(p);
        let mut script = self.lent(p, 400);
        for _ in 0..self.below(3) {
            let f = self.fields(pair, 0, 12);
            script.calls.push(Call::Add(f.encode()));
        }
        let f = self.fields(pair, 12, 12);
        let bytes = if self.once(2) { self.oddly(&f) } else { f.encode() };
        let n = bytes.len().min(110);
        for i in 0..n {
            script.calls.push(Call::Add(bytes[..i].to_vec()));
            let mut without = bytes.clone();
            without.remove(i);
            script.calls.push(Call::Add(without));
            for bit in 0..8 {
                let mut flipped = bytes.clone();
                flipped[i] ^= 1 << bit;
                script.calls.push(Call::Add(flipped));
            }
        }
        script
    }

    /// Many values that wait, up to 2048 of them.
    fn many_wait(&mut self) -> Script {
        let p = 13 + self.below(4) as i32;
        let pair = self.pair_of(p);
        let mut script = self.lent(p, 9000);
        if p > 13 && self.once(2) {
            // Just as many as may wait, one less, or one more; in one or more calls, and then a few more.
            let mut left = 2047 + self.below(3) as usize;
            let largest = self.one(&[2049, 1024, 700, 300]);
            let mut sizes = vec![1];
            while left > 0 {
                let k = left.min(1 + self.below(largest) as usize);
                sizes.push(k);
                left -= k;
            }
            sizes.extend([1, 3]);
            for k in sizes {
                let mut values: Vec<u32> = (0..k).map(|_| self.value(pair, 4000)).collect();
                values.sort_unstable();
                script.calls.push(Call::Add(list(pair, &values).encode()));
            }
            script.calls.push(Call::Near);
            return script;
        }
        for _ in 0..10 + self.below(60) {
            let most = self.one(&[1, 60, 300, 900, 2100]);
            let mut values: Vec<u32> = (0..self.below(most) + 1).map(|_| self.value(pair, 4000)).collect();
            values.sort_unstable();
            script.calls.push(Call::Add(list(pair, &values).encode()));
            if self.once(20) {
                script.calls.push(Call::Write((1 << p) + 9000));
            }
        }
        script.calls.push(Call::Near);
        script
    }

    /// A head that is set: one that fits, one that is changed in a number or a value, or a row that is no head.
    fn set(&mut self) -> Script {
        let p = 4 + self.below(6) as i32;
        let pair = self.pair_of(p);
        let mut script = self.lent(p, 300);
        let value_type = if self.once(5) { self.one(&[7, 8, 11, -3]) } else { 0 };
        let mut set = Set {
            head: Head {
                form: SPARSE,
                allowed: self.one(&[15, 15, 12, 1, 2, 200, 0]),
                value_type,
                num_values: self.one(&[0, -3, 7, i64::MAX]),
                p,
                s: pair.1,
                size: self.one(&[0, 8, -1]),
                ..Head::default()
            },
            ..Set::default()
        };
        match self.below(6) {
            0 => {
                set.head.form = DENSE;
                set.registers = self.registers(p);
                set.registers[3] = (65 - p) as u8;
                if self.once(4) {
                    set.head.s = self.one(&[-1, 1, i32::MIN, i32::MAX]);
                }
                set.head.bytes = self.one(&[0, 9, u64::MAX]);
            }
            1 => {
                set.head = Head { form: UNSTARTED, p: self.one(&[0, 9, 99, -1]), bytes: self.one(&[0, 9, u64::MAX]), ..set.head };
            }
            _ => {
                let few = self.one(&[0, 5, 24, 90]);
                set.kept = self.values(pair, few);
                set.head.kept = set.kept.len() as u64;
                set.head.bytes = original::encode_sparse(&set.kept).len() as u64 + self.one(&[0, 0, 0, 1, 3, 20, 1000]);
                let most = limit(p).saturating_sub(set.head.bytes + 1) / 5;
                set.waiting = self.values(pair, most.min(20));
                self.shuffle(&mut set.waiting);
                set.head.waiting = set.waiting.len() as u64;
            }
        }
        if self.once(3) {
            self.unfit(&mut set);
        }
        script.registers = script.registers.max(set.registers.len());
        script.kept = script.kept.max(set.kept.len());
        script.waiting = script.waiting.max(set.waiting.len());
        if self.once(5) {
            // Working is just too short for a write, or just long enough.
            let wanted = (set.kept.len() + set.waiting.len()) as u64;
            script.working = self.one(&[wanted, wanted.saturating_sub(1), wanted / 2, 0]) as usize;
        }
        if self.once(8) {
            match self.below(9) {
                0 => set.short = true,
                n => {
                    let (cell, most) = [(0, 2u64), (1, 255), (2, u64::from(u32::MAX)), (4, u64::from(u32::MAX)), (5, u64::from(u32::MAX)), (6, u64::from(u32::MAX)), (0, 2), (1, 255)][n as usize - 1];
                    set.cell = Some((cell, self.one(&[most + 1, u64::MAX, 1 << 40, most + 2])));
                }
            }
        }
        script.set = Some(set);
        script.calls.push(Call::Write((1 << p) + 400));
        let n = 1 + self.below(4);
        let calls = self.calls(pair, n, 20, 20);
        script.calls.extend(calls);
        script
    }

    /// A value that a list may not have; some are valid at some pairs.
    fn unfit_value(&mut self, (p, s): Pair) -> u32 {
        if s == p && !self.once(4) { self.unlisted((p, s)) } else { self.one(&[0, 1, 1 << 25, 1 << 31, 1 << 16, u32::MAX, 1 << 12]) }
    }

    /// A list head with s = p gets a value that is plain, or marked with m = 0, and mostly fits but for it.
    fn unfit_equal(&mut self, set: &mut Set) {
        let pair = (set.head.p, set.head.s);
        let v = if self.once(2) { self.below(1 << pair.1) as u32 } else { marked(pair, self.below(1 << pair.0) as u32, 0) };
        if !set.waiting.is_empty() && self.once(2) {
            let at = self.below(set.waiting.len() as u64) as usize;
            set.waiting[at] = v;
            return;
        }
        set.kept.push(v);
        set.kept.sort_unstable();
        set.waiting.clear();
        set.head = Head { kept: set.kept.len() as u64, bytes: set.head.bytes + 10, waiting: 0, ..set.head };
    }

    /// One thing of a head or its memory is changed; some of these heads still fit.
    fn unfit(&mut self, set: &mut Set) {
        if set.head.form == SPARSE && set.head.s == set.head.p && self.once(2) {
            return self.unfit_equal(set);
        }
        let h = &mut set.head;
        let some = |g: &mut Gen| g.one(&[0, 1, 2, 3, 21, 300, 301, 2048, 2049, 1 << 31, (1 << 31) - 1, u64::MAX]);
        match self.below(10) {
            0 => h.p = self.one(&[0, 3, 4, 25, 24, -5, 11, 5]),
            1 => h.s = self.one(&[0, 4, 26, 25, -10, i32::MIN, 9]),
            2 => h.kept = some(self),
            3 => h.waiting = some(self),
            4 => h.bytes = some(self),
            5 => h.form = self.below(3) as u8,
            6 if !set.kept.is_empty() => {
                let at = self.below(set.kept.len() as u64) as usize;
                set.kept[at] = self.unfit_value((h.p, h.s));
            }
            7 if !set.waiting.is_empty() => {
                let at = self.below(set.waiting.len() as u64) as usize;
                set.waiting[at] = self.unfit_value((h.p, h.s));
            }
            8 if !set.registers.is_empty() => {
                let at = self.below(set.registers.len() as u64) as usize;
                set.registers[at] = (65 - h.p) as u8 + self.below(2) as u8;
            }
            _ => h.bytes = h.bytes.wrapping_sub(1),
        }
    }

    pub fn script(&mut self) -> Script {
        if self.once(700) {
            return self.large_p();
        }
        match self.below(100) {
            0..=31 => self.sequence(),
            32..=46 => self.at_the_limit(),
            47..=52 => self.few_into_many(),
            53..=55 => self.sixteen(),
            56..=69 => self.lowered(),
            70..=73 => self.each_damage(),
            74 => self.many_wait(),
            75..=80 => self.equal_precisions(),
            _ => self.set(),
        }
    }
}
