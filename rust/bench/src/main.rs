//! ns for each operation of the library, calls included, beside two peers in Rust over the same inputs, in one run: the plain plan
//! as one would write it with u128, and the library's own plan with u128.
mod measures;

use measures::{ceilings, query, ramp, sheet, step, timing, walk, wide};

fn main() {
    timing::heading("ns, call included", &["plain", "own"]);
    step::measure();
    ramp::measure();
    ceilings::measure();
    sheet::measure();
    walk::measure();
    query::measure();
    timing::heading("ns, wide numbers below it", &["plain"]);
    wide::measure();
}
