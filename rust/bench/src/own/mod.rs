//! The library's own plan in Rust: what it does with one word is done so here, and its wide numbers are those of the plain plan.
//! Beside it a proved call shows what the language costs. It is held to the reference, too.
pub mod query;
pub mod ramp;
pub mod step;
pub mod walk;
