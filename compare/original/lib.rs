//! The Rust original (zetasketch-rs at commit 9abe68bf87) as a library to compare with: its four files as they are, stand-ins for what they
//! name of the rest, and what a comparison asks. `prepare` lays it out; the repository has no copy of the original.

#[allow(dead_code)]
mod accumulator;
#[allow(dead_code)]
mod encoding;
#[allow(dead_code)]
mod hll;
#[allow(dead_code)]
mod proto;
mod stand_in;

pub use accumulator::{Accumulator, Probe};
pub use stand_in::error::{self, Error};
use stand_in::{estimate, hash};

/// Document 01's number for a message of the original. A message that has none stops the run.
pub fn number(e: &Error) -> u8 {
    let begins = |text: &str, n: u8| match e {
        Error::InvalidState(m) | Error::IncompatibleType(m) if m.starts_with(text) => Some(n),
        _ => None,
    };
    match e {
        Error::Proto("truncated varint" | "truncated field" | "length overflow") => 3,
        Error::Proto("malformed varint") => 4,
        Error::Proto("invalid tag") => 5,
        Error::Proto("unsupported wire type") => 6,
        Error::CorruptSparseData("truncated varint") => 18,
        Error::CorruptSparseData("varint too long") => 19,
        Error::CorruptSparseData("value out of range") => 20,
        other => begins("expected type HYPERLOGLOG_PLUS_UNIQUE but was", 7)
            .or_else(|| begins("expected encoding version", 8))
            .or_else(|| begins("unsupported value type", 9))
            .or_else(|| begins("must have a sparse precision when sparse data is set", 10))
            .or_else(|| begins("normal precision must be in", 11))
            .or_else(|| begins("expected data to consist of exactly", 12))
            .or_else(|| begins("sparse precision must be in", 13))
            .or_else(|| begins("register value out of range", 14))
            .or_else(|| begins("aggregator of types", 15))
            .unwrap_or_else(|| panic!("no number for {other:?}")),
    }
}

/// Adds a state as the reference does: document 01's number of its answer, 0 where it is accepted. 1, 2 and 17 have no counterpart.
pub fn add(a: &mut Accumulator, bytes: &[u8]) -> u8 {
    match a.probe_add(bytes) {
        Ok(true) => 0,
        Ok(false) => 16,
        Err(e) => number(&e),
    }
}

/// The fields of a state, the original's `StateView` with bytes of its own.
#[derive(Debug, Clone, PartialEq)]
pub struct Fields {
    pub kind: i32,
    pub num_values: i64,
    pub encoding_version: i32,
    pub value_type: i32,
    pub sparse_size: i32,
    pub precision: i32,
    pub sparse_precision: i32,
    pub data: Option<Vec<u8>>,
    pub sparse_data: Option<Vec<u8>>,
}

impl Fields {
    pub fn parse(bytes: &[u8]) -> error::Result<Fields> {
        proto::StateView::parse(bytes).map(|v| Fields {
            kind: v.r#type,
            num_values: v.num_values,
            encoding_version: v.encoding_version,
            value_type: v.value_type,
            sparse_size: v.sparse_size,
            precision: v.precision,
            sparse_precision: v.sparse_precision,
            data: v.data.map(<[u8]>::to_vec),
            sparse_data: v.sparse_data.map(<[u8]>::to_vec),
        })
    }

    /// The state as the original writes it.
    pub fn encode(&self) -> Vec<u8> {
        proto::StateView {
            r#type: self.kind,
            num_values: self.num_values,
            encoding_version: self.encoding_version,
            value_type: self.value_type,
            sparse_size: self.sparse_size,
            precision: self.precision,
            sparse_precision: self.sparse_precision,
            data: self.data.as_deref(),
            sparse_data: self.sparse_data.as_deref(),
        }
        .encode()
    }
}

/// Whether `StateView::parse` reads a state: what there is to time of parsing alone.
pub fn reads(bytes: &[u8]) -> bool {
    proto::StateView::parse(bytes).is_ok()
}

/// The bytes of a list.
pub fn encode_sparse(values: &[u32]) -> Vec<u8> {
    encoding::encode_sparse(values)
}

/// The values of a list at a pair of precisions, or document 01's number.
pub fn decode_sparse(bytes: &[u8], p: i32, s: i32) -> Result<Vec<u32>, u8> {
    let mut out = Vec::new();
    match encoding::decode_validated_into(bytes, encoding::Sparse::new(p, s), &mut out) {
        Ok(()) => Ok(out),
        Err(e) => Err(number(&e)),
    }
}

pub fn is_valid(p: i32, s: i32, v: u32) -> bool {
    encoding::Sparse::new(p, s).is_valid(v)
}
