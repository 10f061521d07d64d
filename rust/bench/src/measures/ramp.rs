//! Ramp answers.
use super::timing::{compared, mixed, way};
use approach::raw::{self, Stop};
use approach::Inertia;
use bench::{own, plain};
use inputs::Random;

const TRAINS: usize = 20_000;

/// An accepted input: braked weight, gradient, V, TM, TR and the first values.
type Input = (u32, i32, u32, u32, u32, raw::Inertia);

fn input(random: &mut Random) -> Input {
    loop {
        let mut below = |n| random.below(n) as u32;
        let (weight, gradient, v) = (45 + 5 * below(24), below(71) as i32 - 35, 1 + below(100));
        let (tm, tr, inertia) = (below(2001), 1 + below(3000), Inertia::FIRST_VALUES.into());
        if raw::ramp(weight, gradient, v, tm, tr, inertia).refusal == 0 {
            return (weight, gradient, v, tm, tr, inertia);
        }
    }
}

fn stop(s: Stop) -> u64 {
    mixed([s.refusal, s.distance, s.moment])
}

pub fn measure() {
    let mut random = Random(41);
    let inputs: Vec<Input> = (0..TRAINS).map(|_| input(&mut random)).collect();
    let ways = [
        way(|&(weight, gradient, v, tm, tr, inertia)| stop(raw::ramp(weight, gradient, v, tm, tr, inertia))),
        way(|&(weight, gradient, v, tm, tr, inertia)| stop(plain::ramp::ramp(weight, gradient, v, tm, tr, inertia))),
        way(|&(weight, gradient, v, tm, tr, inertia)| stop(own::ramp::ramp(weight, gradient, v, tm, tr, inertia))),
    ];
    compared("ramp answer", &inputs, 1.0, &ways);
}
