//! States to make cases of: those of one kind, and by chance. Shared by the makers of the vectors of `rollup_cases` and `roll_cases`.

use crate::cases::{least_m, mark, marked, unhex, Chance, Pair};
use original::Fields;

/// A state with neither data nor a list.
pub fn neither((p, s): Pair) -> Fields {
    Fields { kind: 112, num_values: 1, encoding_version: 2, value_type: 0, sparse_size: 0, precision: p, sparse_precision: s, data: None, sparse_data: None }
}

/// A state whose list has these bytes.
pub fn raw(pair: Pair, size: i32, bytes: &[u8]) -> Fields {
    Fields { sparse_size: size, sparse_data: Some(bytes.to_vec()), ..neither(pair) }
}

pub fn list(pair: Pair, values: &[u32]) -> Fields {
    assert!(values.is_sorted());
    Fields { num_values: values.len() as i64, ..raw(pair, values.len() as i32, &original::encode_sparse(values)) }
}

pub fn dense(pair: Pair, registers: &[u8]) -> Fields {
    Fields { num_values: 100, data: Some(registers.to_vec()), ..neither(pair) }
}

/// Registers of precision p: zero but for these.
pub fn registers(p: i32, some: &[(usize, u8)]) -> Vec<u8> {
    let mut bytes = vec![0; 1 << p];
    for (i, r) in some {
        bytes[*i] = *r;
    }
    bytes
}

/// The list 1, 2, .. n: its first `long` gaps are spelled with two bytes.
pub fn spelled(n: usize, long: usize) -> Vec<u8> {
    (0..n).flat_map(|i| if i < long { vec![0x81, 0x00] } else { vec![0x01] }).collect()
}

pub fn upto(first: u32, n: u32) -> Vec<u32> {
    (first..first + n).collect()
}

/// Values at the edges of a pair. With s = p every value is marked.
pub fn edge_values(pair: Pair) -> Vec<u32> {
    let (p, s) = pair;
    let plain = if s == p { vec![] } else { vec![0, 1, 9, (1 << s) - 1] };
    [plain, vec![marked(pair, 0, 3), marked(pair, 5, least_m(pair)), marked(pair, (1 << p) - 1, (65 - s) as u32)]].concat()
}

/// Lists with s = p that are refused, and their numbers: document 02, U3.
pub fn equal_lists(pair: Pair) -> Vec<(u8, Vec<u8>)> {
    let flag = mark(pair);
    let (last, most) = ((1 << pair.0) - 1, (65 - pair.1) as u32);
    let m = |i, m| marked(pair, i, m);
    let values = |values: &[u32]| original::encode_sparse(values);
    let then = |values: &[u32], bytes: &str| [original::encode_sparse(values), unhex(bytes)].concat();
    vec![
        // A plain value: alone, before a valid one, before a cut gap and one that is too long.
        (20, values(&[0])),
        (20, values(&[1])),
        (20, values(&[last])),
        (20, values(&[last + 1])),
        (20, values(&[flag - 1])),
        (20, values(&[0, m(0, 1)])),
        (20, values(&[1, 1, m(3, 1), m(4, most)])),
        (18, then(&[1], "80")),
        (19, then(&[1], "8080808010")),
        (18, then(&[1, m(3, 1)], "80")),
        // m = 0: alone, before and after a valid value, after a plain one, before a cut gap and one that is too long.
        (20, values(&[m(0, 0)])),
        (20, values(&[m(last, 0)])),
        (20, values(&[m(0, 0), m(0, 1)])),
        (20, values(&[m(0, 1), m(1, 0)])),
        (20, values(&[1, m(1, 0)])),
        (20, then(&[m(1, 0)], "80")),
        (20, then(&[m(1, 0)], "8080808010")),
        (20, then(&[m(0, 1), m(1, 0)], "80")),
        (20, then(&[1, m(1, 0)], "80")),
        // m above 65-s.
        (20, values(&[m(3, most + 1)])),
        (20, then(&[m(3, most + 1)], "80")),
        (20, then(&[1, m(3, 63)], "8080808010")),
        // Bits above the mark: the mark bit set and m = 0, m in range, m above; the mark bit clear.
        (20, then(&[3 * flag], "80")),
        (18, then(&[3 * flag + 1], "80")),
        (20, then(&[3 * flag + most + 1], "80")),
        (18, then(&[2 * flag], "80")),
        (20, values(&[m(0, 1), 3 * flag + 1])),
        (20, values(&[2 * flag + 1])),
        // A sum that wraps, a cut gap and one that is too long behind a valid value.
        (20, then(&[m(1, 1)], "ffffffff0f 80")),
        (18, then(&[m(1, 1)], "80")),
        (19, then(&[m(1, 1)], "8080808010 80")),
    ]
}

// ---- by chance

pub fn some_pair(chance: &mut Chance) -> Pair {
    let p = 4 + chance.below(3) as i32;
    (p, p + [0, 1, 4, 5, 5, 6][chance.below(6) as usize])
}

pub fn some_value(chance: &mut Chance, (p, s): Pair) -> u32 {
    let few = 1 + chance.below(12);
    if s == p || chance.below(2) == 0 {
        let index = chance.below(few.min(1 << p)) as u32;
        let least = least_m((p, s));
        return marked((p, s), index, least + chance.below((66 - s) as u64 - u64::from(least)) as u32);
    }
    let v = chance.below((few * few * 4).min(1 << s)) as u32;
    if chance.below(3) == 0 { v >> (s - p) << (s - p) } else { v }
}

pub fn some_list(chance: &mut Chance, pair: Pair, most: u64) -> Vec<u32> {
    let n = chance.below(most + 1);
    let mut values: Vec<u32> = (0..n).map(|_| some_value(chance, pair)).collect();
    values.sort();
    values
}

pub fn some_registers(chance: &mut Chance, p: i32) -> Vec<u8> {
    let often = [2, 5, 40][chance.below(3) as usize];
    (0..1 << p).map(|_| if chance.below(often) == 0 { 1 + chance.below((65 - p) as u64) as u8 } else { 0 }).collect()
}

/// A copy that is damaged somewhere.
pub fn damaged(chance: &mut Chance, bytes: &[u8]) -> Vec<u8> {
    let mut out = bytes.to_vec();
    let at = chance.below(out.len() as u64) as usize;
    match chance.below(4) {
        0 => out[at] ^= 1 << chance.below(8),
        1 => out.truncate(at),
        2 => out[at] = chance.byte(),
        _ => out.insert(at, chance.byte()),
    }
    out
}
