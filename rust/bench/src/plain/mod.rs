//! The plain plan, as one would write it in Rust: the same whole numbers, with u128 limbs, worked out at every speed. It is no
//! oracle: it is held to the reference, as the library is.
pub mod ceilings;
pub mod query;
pub mod ramp;
pub mod sheet;
pub mod step;
pub mod walk;
pub mod wide;
