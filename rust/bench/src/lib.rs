//! What the benchmark compares: two peers of the library in Rust, and the proved calls on wide numbers.
pub mod own;
pub mod plain;
pub mod wide_calls;
pub mod wide_inputs;

/// A number below 2^192: three digits of 64 bits, the least first.
#[repr(C)]
#[derive(Clone, Copy, Debug, PartialEq, Eq)]
pub struct Wide {
    pub low: u64,
    pub mid: u64,
    pub high: u64,
}
