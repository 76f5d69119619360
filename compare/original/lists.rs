//! Values and lists by the words of documents 01 and 02, for the makers of vectors and the comparison. The Rust original takes more lists with s = p: document 02, U3, is
//! the departure. Those that use this see that the original says the same wherever it can.

use crate::cases::{least_m, mark, Pair};

/// What the low six bits of a marked value can be: "m at most 65−s"; U3: "With s = p, a plain value and a marked value with m = 0 now get 20"
fn is_m(pair: Pair, m: u32) -> bool {
    least_m(pair) <= m && m <= (65 - pair.1) as u32
}

/// Module 3: "A plain value is an index below 2^s"; "a marked value is mark + 64 × index + m, with index below 2^p and m at most 65−s". U3: "In the 2013 paper's coding every
/// value is marked when no bits lie between the precisions."
pub fn is_valid(pair: Pair, v: u32) -> bool {
    let (p, s) = pair;
    match v.checked_sub(mark(pair)) {
        None => s > p && v < 1 << s,
        Some(rest) => rest / 64 < 1 << p && is_m(pair, rest % 64),
    }
}

/// Whether 20 is the answer where a value is read: "Is each sum no smaller than the last, the low six bits at most 65−s where the mark bit is set"; U3: "the marked one where it is
/// read". The mark bit decides, whatever stands above it.
fn is_refused_here(pair: Pair, last: u32, v: u32) -> bool {
    v < last || v & mark(pair) != 0 && !is_m(pair, v % 64)
}

/// The gap at the front of these bytes, and how many of them it takes. "18: Is each gap whole? 19: Has a fifth byte no bit of f0?"
fn gap(bytes: &[u8]) -> Result<(u32, usize), u8> {
    let mut gap = 0;
    for (i, byte) in bytes.iter().enumerate() {
        if i == 4 && byte & 0xf0 != 0 {
            return Err(19);
        }
        gap |= u32::from(byte & 0x7f) << (7 * i);
        if byte & 0x80 == 0 {
            return Ok((gap, i + 1));
        }
    }
    Err(18)
}

/// The values of a list, or 18, 19 or 20, "in order of bytes". Module 4: "Bytes are varint gaps from 0"; "running sums wrap in u32". 20: "at the end, every value valid?" U3: "plain
/// ones at the end of the list".
pub fn decode(pair: Pair, bytes: &[u8]) -> Result<Vec<u32>, u8> {
    let mut values = Vec::new();
    let (mut last, mut rest) = (0u32, bytes);
    while !rest.is_empty() {
        let (gap, n) = gap(rest)?;
        let v = last.wrapping_add(gap);
        if is_refused_here(pair, last, v) {
            return Err(20);
        }
        values.push(v);
        (last, rest) = (v, &rest[n..]);
    }
    if values.iter().all(|v| is_valid(pair, *v)) { Ok(values) } else { Err(20) }
}
