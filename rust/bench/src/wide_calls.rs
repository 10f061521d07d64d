//! The calls of crates/wide_calls. Each is safe where its contract's `requires` holds, which the caller sees to.
use crate::Wide;

extern "C" {
    pub fn wide_from_word(x: u64) -> Wide;
    pub fn wide_product(a: u64, b: u64) -> Wide;
    pub fn wide_times(w: Wide, m: u64) -> Wide;
    pub fn wide_sum(a: Wide, b: Wide) -> Wide;
    pub fn wide_difference(a: Wide, b: Wide) -> Wide;
    pub fn wide_at_most(a: Wide, b: Wide) -> bool;
    pub fn wide_quotient_up(n: Wide, d: Wide) -> u32;
}
