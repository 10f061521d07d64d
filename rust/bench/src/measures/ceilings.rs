//! The ceilings of a permitted speed, worked out and looked up.
use super::timing::{compared, mixed, way, Way};
use approach::raw::{self, Limits};
use bench::plain;
use inputs::Random;

const SPEEDS: usize = 10_000;

fn answered(call: fn(u32) -> Limits) -> Way<u32> {
    way(move |&permitted| {
        let Limits { refusal, w, sbi, ebi } = call(permitted);
        mixed([refusal, w, sbi, ebi])
    })
}

pub fn measure() {
    let mut random = Random(51);
    let speeds: Vec<u32> = (0..SPEEDS).map(|_| random.below(331) as u32).collect();
    // the library's plan for either is the plain one
    let compare = |name, proved, peer| compared(name, &speeds, 1.0, &[proved, peer, peer].map(answered));
    compare("ceilings, worked out", raw::ceilings, plain::ceilings::ceilings);
    compare("ceilings, looked up", raw::ceilings_stored, plain::ceilings::stored);
}
