//! Makes the cases of `crates/wire_cases` and what must be printed for each. The answers are those of the Rust original,
//! `proto.rs`, which `make` puts beside this file unchanged. Where a public document gives the answer, it stands here as an
//! expectation, and a difference stops the run.

mod cases;
#[allow(dead_code)]
mod proto;
mod stand_in;

use cases::{hex, unhex, Cases};
use proto::StateView;
use stand_in::error::{self, Error};

/// Document 01's number for a message of the original.
fn number(e: &Error) -> u8 {
    match e {
        Error::Proto("truncated varint" | "truncated field" | "length overflow") => 3,
        Error::Proto("malformed varint") => 4,
        Error::Proto("invalid tag") => 5,
        Error::Proto("unsupported wire type") => 6,
        other => panic!("no number for {other:?}"),
    }
}

/// A data field in an answer: absent, empty, or its bytes.
fn field(data: Option<&[u8]>) -> String {
    match data {
        None => "-".to_string(),
        Some([]) => ".".to_string(),
        Some(bytes) => hex(bytes),
    }
}

fn parse_answer(bytes: &[u8]) -> String {
    match StateView::parse(bytes) {
        Err(e) => format!("refused {}", number(&e)),
        Ok(v) => format!(
            "{} {} {} {} {} {} {} {} {}",
            v.r#type,
            v.num_values,
            v.encoding_version,
            v.value_type,
            v.sparse_size,
            v.precision,
            v.sparse_precision,
            field(v.data),
            field(v.sparse_data)
        ),
    }
}

/// The original's varint reader is private. It is asked by a state that has it behind the tag of field 2, which keeps all
/// 64 bits: the varint is the shortest front of the bytes with which that state is read.
fn varint_answer(at: usize, bytes: &[u8]) -> String {
    let rest = bytes.get(at..).unwrap_or(&[]);
    for n in 0..=rest.len() {
        let state = [&[0x10], &rest[..n]].concat();
        if n > 0 {
            if let Ok(v) = StateView::parse(&state) {
                return format!("{} {}", v.num_values as u64, at + n);
            }
        }
    }
    match StateView::parse(&[&[0x10], rest].concat()) {
        Err(e) => format!("refused {}", number(&e)),
        Ok(_) => panic!("a varint that no front of its bytes holds"),
    }
}

#[derive(Default)]
struct Made {
    all: Cases,
    /// The states that were read, in order, one for each answer: what is written again.
    good: Vec<Vec<u8>>,
}

impl Made {
    fn parse(&mut self, bytes: &[u8]) -> String {
        let answer = parse_answer(bytes);
        self.all.case("p", &hex(bytes), &answer);
        if !answer.starts_with("refused") && self.good.iter().all(|g| parse_answer(g) != answer) {
            self.good.push(bytes.to_vec());
        }
        answer
    }

    /// A state in hexadecimal (blanks are dropped).
    fn p(&mut self, text: &str) {
        self.parse(&unhex(text));
    }

    /// A state whose answer a document gives.
    fn told(&mut self, text: &str, answer: &str) {
        assert_eq!(self.parse(&unhex(text)), answer, "{text}");
    }

    fn v(&mut self, at: usize, text: &str) {
        let bytes = unhex(text);
        self.all.case("v", &format!("{at} {}", hex(&bytes)), &varint_answer(at, &bytes));
    }

    fn w(&mut self, value: u64) {
        self.all.case("w", &value.to_string(), &hex(&varint(value)));
    }

    fn l(&mut self, value: u32) {
        self.all.case("l", &value.to_string(), &proto::varint_len(value).to_string());
    }

    /// A value and its varint, as a document gives them: read and written.
    fn varint_told(&mut self, value: u64, text: &str) {
        assert_eq!(varint(value), unhex(text), "{text}");
        assert_eq!(varint_answer(0, &unhex(text)), format!("{value} {}", unhex(text).len()), "{text}");
        self.w(value);
        self.v(0, text);
    }

    /// A state that is read and written again into an output of `size` bytes.
    fn e(&mut self, size: usize, bytes: &[u8]) {
        let written = StateView::parse(bytes).expect("a state that is read").encode();
        let answer = if size < written.len() { "refused 23".to_string() } else { hex(&written) };
        self.all.case("e", &format!("{size} {}", hex(bytes)), &answer);
    }
}

fn varint(value: u64) -> Vec<u8> {
    let mut out = Vec::new();
    proto::put_varint(&mut out, value);
    out
}

fn tag(field: u64, wire: u64) -> Vec<u8> {
    varint(field << 3 | wire)
}

fn num(field: u64, value: u64) -> Vec<u8> {
    [tag(field, 0), varint(value)].concat()
}

fn len(field: u64, bytes: &[u8]) -> Vec<u8> {
    [tag(field, 2), varint(bytes.len() as u64), bytes.to_vec()].concat()
}

/// The payload of a field of wire type 0, 1, 2 or 5, with bytes that read as no field.
fn payload(wire: u64) -> Vec<u8> {
    match wire {
        0 => unhex("ffff03"),
        1 => unhex("0001020304050607"),
        2 => unhex("03070707"),
        _ => unhex("00010203"),
    }
}

/// The same field in the outer and in the nested message.
fn both(made: &mut Made, bytes: &[u8]) {
    made.parse(bytes);
    made.parse(&len(112, bytes));
}

/// Case B1's state A of document 01: a list state.
const A: &str = "0870 1002 1802 2008 8207 0c 1002 180a 200f 3204 21e28004";

/// A dense state at p = 4, s = 9, whose numbers take one to ten bytes, with a skipped field outside and inside.
fn dense() -> Vec<u8> {
    let outer = unhex("08f000 10808004 1802 2008 7a0161");
    let nested = unhex("10ffffffffffffffffff01 1804 2009 5805 2a10 000102030405060708090a0b0c0d0e0f");
    [outer, len(112, &nested)].concat()
}

fn examples(made: &mut Made) {
    made.all.remark("Encoding document, Base 128 Varints and More Integer Types: 1, 150, -2");
    made.varint_told(1, "01");
    made.varint_told(150, "9601");
    made.varint_told(18446744073709551614, "feffffffffffffffff01");
    made.all.remark("Encoding document: 150 in field 1; the same with -2, then -2 in each other number");
    made.told("089601", "150 0 1 0 0 0 0 - -");
    made.told("08feffffffffffffffff01", "-2 0 1 0 0 0 0 - -");
    made.told("10feffffffffffffffff01", "112 -2 1 0 0 0 0 - -");
    made.told("18feffffffffffffffff01", "112 0 -2 0 0 0 0 - -");
    made.told("20feffffffffffffffff01", "112 0 1 -2 0 0 0 - -");
    made.told("82070b 10feffffffffffffffff01", "112 0 1 0 -2 0 0 - -");
    made.told("82070b 18feffffffffffffffff01", "112 0 1 0 0 -2 0 - -");
    made.told("82070b 20feffffffffffffffff01", "112 0 1 0 0 0 -2 - -");
    made.all.remark("Encoding document: \"testing\" in field 2, a nested 150 in field 3, \"hello\" in 4 with 1 2 3 in 5, packed 3 270 86942 in 6");
    made.told("120774657374696e67", "112 0 1 0 0 0 0 - -");
    made.told("1a03089601", "112 0 1 0 0 0 0 - -");
    made.told("220568656c6c6f 2801 2802 2803", "112 0 1 0 0 0 0 - -");
    made.told("3206038e029ea705", "112 0 1 0 0 0 0 - -");
    made.varint_told(3, "03");
    made.varint_told(270, "8e02");
    made.varint_told(86942, "9ea705");
    made.all.remark("The same inside field 112: known there are 2, 3, 4 as varints, 5 and 6 as bytes");
    made.told("820703 089601", "112 0 1 0 0 0 0 - -");
    made.told("820709 120774657374696e67", "112 0 1 0 0 0 0 - -");
    made.told("820705 1a03089601", "112 0 1 0 0 0 0 - -");
    made.told("820709 2a0774657374696e67", "112 0 1 0 0 0 0 74657374696e67 -");
    made.told("820708 3206038e029ea705", "112 0 1 0 0 0 0 - 038e029ea705");
}

fn varints(made: &mut Made) {
    made.all.remark("The first and the last value of each length, written and read");
    for n in 1..=10u32 {
        let first = if n == 1 { 0 } else { 1u64 << (7 * (n - 1)) };
        let last = if n == 10 { u64::MAX } else { (1u64 << (7 * n)) - 1 };
        for value in [first, last] {
            let bytes = varint(value);
            assert_eq!(bytes.len(), n as usize);
            made.w(value);
            made.v(0, &hex(&bytes));
        }
    }
    made.all.remark("varint_len of the first and the last value of each length");
    for value in [0, 1, 127, 128, 16383, 16384, 2097151, 2097152, 268435455, 268435456, u32::MAX] {
        made.l(value);
    }
    made.all.remark("Longer spellings, and bits above the 64th, which vanish");
    for text in [
        "8000",
        "968100",
        "80808080808080808000",
        "80808080808080808001",
        "80808080808080808002",
        "8080808080808080807e",
        "8880808080808080807e",
        "ffffffffffffffffff01",
        "ffffffffffffffffff7f",
    ] {
        made.v(0, text);
    }
    made.all.remark("Cut off; ten continuation bytes, at the end and with more behind; nine and the end");
    for text in ["", "80", "ff", "8080", "808080808080808080", "80808080808080808080", "8080808080808080808001", "ffffffffffffffffffff00"] {
        made.v(0, text);
    }
    made.all.remark("At a cursor: the second value, the end, past the end; what follows is not touched");
    made.v(0, "05960107");
    made.v(1, "05960107");
    made.v(2, "05960107");
    made.v(3, "05960107");
    made.v(4, "05960107");
    made.v(5, "05960107");
    made.v(9, "05960107");
}

fn states(made: &mut Made) {
    made.all.remark("Good states: a list (document 01's A), dense with p = 4, with both data fields, with empty and absent ones");
    made.told(A, "112 2 2 8 2 10 15 - 21e28004");
    made.parse(&dense());
    let numbers = unhex("1002180a200f");
    let outer = unhex("0870100218022008");
    let nested = |rest: &[Vec<u8>]| [outer.clone(), len(112, &[numbers.clone(), rest.concat()].concat())].concat();
    made.parse(&nested(&[len(5, &[1, 2]), len(6, &[3, 4, 5])]));
    made.parse(&nested(&[len(6, &[3, 4, 5]), len(5, &[1, 2])]));
    made.parse(&nested(&[len(5, &[])]));
    made.parse(&nested(&[len(6, &[])]));
    made.parse(&nested(&[len(5, &[]), len(6, &[])]));
    made.parse(&nested(&[len(5, &[]), len(6, &[9])]));
    made.parse(&nested(&[len(5, &[9]), len(6, &[])]));
    made.parse(&nested(&[]));
    made.parse(&outer);
    made.all.remark("No fields, an empty nested message, and each field alone");
    made.told("", "112 0 1 0 0 0 0 - -");
    made.told("820700", "112 0 1 0 0 0 0 - -");
    for field in 1..=4 {
        made.parse(&num(field, 5));
        made.parse(&num(field, 0));
    }
    for field in 2..=4 {
        made.parse(&len(112, &num(field, 5)));
        made.parse(&len(112, &num(field, 0)));
    }
    for field in 5..=6 {
        made.parse(&len(112, &len(field, &[7])));
        made.parse(&len(112, &len(field, &[])));
    }
    made.all.remark("32-bit fields keep the low 32 bits, signed (type 112 + 2^32 is 112); the value count keeps 64");
    made.told("08f080808010", "112 0 1 0 0 0 0 - -");
    for value in [1u64 << 31, (1 << 31) - 1, u32::MAX.into(), u64::MAX, 1 << 63] {
        for field in 1..=4 {
            made.parse(&num(field, value));
        }
        let inside: Vec<u8> = (2..=4).flat_map(|field| num(field, value)).collect();
        made.parse(&len(112, &inside));
    }
    made.all.remark("Data and nested messages of 127 and 128 bytes");
    for n in [127usize, 128] {
        let bytes: Vec<u8> = (0..n).map(|i| i as u8).collect();
        made.parse(&len(112, &len(5, &bytes)));
        made.parse(&len(112, &len(6, &bytes)));
        made.parse(&len(112, &len(6, &bytes[..n - 2])));
    }
}

fn damaged(made: &mut Made) {
    made.all.remark("Each truncation of two good states");
    for state in [unhex(A), dense()] {
        for n in 0..state.len() {
            made.parse(&state[..n]);
        }
    }
    made.all.remark("Each bit of document 01's A turned over");
    for at in 0..unhex(A).len() {
        for bit in 0..8 {
            let mut state = unhex(A);
            state[at] ^= 1 << bit;
            made.parse(&state);
        }
    }
}

fn tags(made: &mut Made) {
    made.all.remark("Field number 0 under each wire type, outside and inside");
    for wire in 0..8 {
        both(made, &[tag(0, wire), payload(wire)].concat());
    }
    made.all.remark("The largest tag, tags from 2^32 on, field number 0 spelled long");
    for text in ["f8ffffff0f 01", "f9ffffff0f 0001020304050607", "ffffffff0f", "8080808010 01", "8880808010 01", "ffffffffffffffffff01 01", "8000 01"] {
        both(made, &unhex(text));
    }
    made.all.remark("Tags spelled long: 8 in two and in ten bytes, with bits that vanish (tag 8 again); 898 in three; nested 42 in two");
    for text in ["8800 05", "88808080808080808000 05", "8880808080808080807e 05", "828700 02 1805", "820705 aa00 020102"] {
        made.p(text);
    }
    made.all.remark("Varints in a state that are too long or cut: a tag, a value, a length; nine continuation bytes and the end, ten and the end, eleven bytes");
    for more in ["808080808080808080", "80808080808080808080", "8080808080808080808001"] {
        for front in ["", "08", "10", "1805 20", "8207", "7a", "78"] {
            made.p(&format!("{front}{more}"));
        }
        for front in ["", "10", "18", "20", "2a", "32", "5a", "58"] {
            made.parse(&len(112, &unhex(&format!("{front}{more}"))));
        }
    }
}

fn skipping(made: &mut Made) {
    made.all.remark("Skipped fields of each wire type, outside and inside, whole, one byte short, empty; 3, 4, 6 and 7 are refused");
    for field in [15, 536870911] {
        for wire in [0, 1, 2, 5] {
            let whole = [tag(field, wire), payload(wire)].concat();
            both(made, &whole);
            if field == 15 {
                both(made, &whole[..whole.len() - 1]);
                both(made, &tag(field, wire));
                both(made, &[whole.clone(), num(3, 9)].concat());
            }
        }
    }
    for wire in [3, 4, 6, 7] {
        both(made, &tag(15, wire));
        both(made, &[num(3, 9), tag(15, wire), num(3, 8)].concat());
    }
    made.all.remark("Known field numbers under another wire type, outside, then inside");
    for (field, own) in [(1, 0), (2, 0), (3, 0), (4, 0), (112, 2)] {
        for wire in (0..6).filter(|w| *w != own) {
            made.parse(&[tag(field, wire), payload(wire)].concat());
        }
    }
    for (field, own) in [(2, 0), (3, 0), (4, 0), (5, 2), (6, 2)] {
        for wire in (0..6).filter(|w| *w != own) {
            made.parse(&len(112, &[tag(field, wire), payload(wire)].concat()));
        }
    }
    made.all.remark("Fields of the one message in the other");
    made.p("2a0101 320102");
    made.p("820705 0805 820700");
}

fn repeated(made: &mut Made) {
    made.all.remark("Repeated fields: the later one holds");
    for field in 1..=4 {
        made.parse(&[num(field, 300), num(field, 2)].concat());
    }
    for field in 2..=4 {
        made.parse(&len(112, &[num(field, 300), num(field, 2)].concat()));
    }
    for field in 5..=6 {
        made.parse(&len(112, &[len(field, &[1, 2]), len(field, &[3])].concat()));
        made.parse(&len(112, &[len(field, &[1, 2]), len(field, &[])].concat()));
    }
    made.all.remark("Two nested messages: the second replaces only what it holds; an empty data field undoes an earlier one");
    let first = len(112, &[num(2, 1), num(3, 10), num(4, 15), len(5, &[1, 2]), len(6, &[3, 4])].concat());
    for second in [vec![], num(2, 0), num(3, 11), num(4, 12), len(5, &[9]), len(6, &[9]), len(5, &[]), len(6, &[])] {
        made.parse(&[first.clone(), len(112, &second)].concat());
        made.parse(&[first.clone(), num(2, 200), len(112, &second), num(1, 300)].concat());
    }
    made.all.remark("A good nested message, then a bad one; and one that is bad after its first field");
    made.parse(&[first.clone(), unhex("820702 1080")].concat());
    made.parse(&[first.clone(), unhex("820704 1803 00 01")].concat());
    made.parse(&[first.clone(), unhex("820701 5b")].concat());
}

fn lengths(made: &mut Made) {
    made.all.remark("Lengths past the end, by one and by far, up to 2^64 - 1; a length whose bits above the 64th vanish");
    let vast = ["ffffffffffffffffff01", "80808080808080808001", "ffffffffffffffff7f", "8080808010", "ffffffff0f", "ffffffff07"];
    for length in vast {
        made.p(&format!("8207{length}"));
        made.p(&format!("7a{length} 0102"));
        made.parse(&len(112, &unhex(&format!("2a{length} 0102"))));
        made.parse(&len(112, &unhex(&format!("32{length} 0102"))));
        made.parse(&len(112, &unhex(&format!("5a{length}"))));
    }
    for text in ["820702 18", "820701", "7a03 0102", "820704 2a030102", "820704 32030102", "820704 5a030102 1805", "820781808080808080808002 00"] {
        made.p(text);
    }
    made.all.remark("A field is whole before it is opened (3, not 5); an inner length may not reach past its message into the outer one");
    made.told("180282070507", "refused 3");
    made.p("820703 2a0301 020304");
    made.p("820702 3202 0102");
    made.p("820701 10 05");
}

fn short(made: &mut Made) {
    made.all.remark("Each state of one byte below 130, and the last two: from 128 on the tag is cut off");
    for b in (0..130).chain([254, 255]) {
        made.parse(&[b]);
    }
    made.all.remark("Some of two bytes");
    for a in [0x00, 0x07, 0x08, 0x09, 0x0a, 0x10, 0x18, 0x20, 0x2a, 0x78, 0x7a, 0x82] {
        for b in [0x00, 0x01, 0x07, 0x7f, 0x80] {
            made.parse(&[a, b]);
        }
    }
}

/// Every state that was read is written again with just room enough; the fuller ones with one byte too few, more, and none.
fn writing(made: &mut Made) {
    made.all.remark("Read and written again: the output just long enough");
    for state in made.good.clone() {
        let written = StateView::parse(&state).expect("a good state").encode();
        made.e(written.len(), &state);
    }
    made.all.remark("One byte too few, a longer output, none");
    for (i, state) in made.good.clone().into_iter().enumerate() {
        if i % 5 == 0 {
            let written = StateView::parse(&state).expect("a good state").encode();
            made.e(written.len() - 1, &state);
            made.e(written.len() + 1 + i, &state);
            if i < 20 {
                made.e(0, &state);
            }
        }
    }
    made.all.remark("What is 0 is left out, but for the value count and the data fields; version 1 too, and 0 is written");
    for mask in 0..16u32 {
        let value = |bit: u32, yes: u64, no: u64| if mask >> bit & 1 == 1 { yes } else { no };
        let inside = [num(2, value(0, 3, 0)), num(3, value(1, 4, 0)), num(4, value(2, 9, 0))].concat();
        let state = [num(1, value(3, 112, 0)), num(3, value(0, 2, 1)), num(4, value(1, 8, 0)), num(2, value(2, 700, 0)), len(112, &inside)].concat();
        let written = StateView::parse(&state).expect("a good state").encode();
        made.e(written.len(), &state);
        made.e(written.len() - 1, &state);
    }
    made.e(100, &unhex("1800"));
    made.e(100, &unhex("1801"));
}

fn main() {
    let mut made = Made::default();
    examples(&mut made);
    varints(&mut made);
    states(&mut made);
    tags(&mut made);
    skipping(&mut made);
    repeated(&mut made);
    lengths(&mut made);
    writing(&mut made);
    damaged(&mut made);
    short(&mut made);
    made.all.write(65536);
}
