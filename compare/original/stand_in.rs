//! Stand-ins for what the four files name of the rest of the original: its error type; and hashing and estimates, which are never called.
#![allow(dead_code)]

pub mod error {
    #[derive(Debug)]
    pub enum Error {
        Proto(&'static str),
        InvalidState(String),
        IncompatibleType(String),
        CorruptSparseData(&'static str),
        IncompatiblePrecision { this: (i32, i32), other: (i32, i32) },
    }

    pub type Result<T> = std::result::Result<T, Error>;
}

pub mod hash {
    pub fn fingerprint2011(_: &[u8]) -> u64 {
        panic!("hashing is not compared")
    }
}

pub mod estimate {
    pub fn linear_counting_threshold(_: i32) -> i32 {
        panic!("estimates are not compared")
    }

    pub fn java_round(_: f64) -> i64 {
        panic!("estimates are not compared")
    }

    pub fn alpha(_: i32) -> f64 {
        panic!("estimates are not compared")
    }

    pub fn estimate_bias(_: f64, _: i32) -> f64 {
        panic!("estimates are not compared")
    }
}
