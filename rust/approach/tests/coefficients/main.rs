//! Document 02, Card 5: coefficients of the train's own. Distances, rows and ways past a signal against the reference with
//! coefficients at random, at every end of every span and outside; queries are in `tests/query/coefficients.rs`. What the card adds
//! is counted, so that no test passes by finding none.
use approach::{Brake, Coefficients, Kmh, Metre, Train};
use inputs::Random;

mod counts;
mod distances;
mod first_values;
#[path = "../checked/ramp.rs"]
mod ramp;
mod ramps;
mod refusals;
mod rows;
#[path = "../checked/step.rs"]
mod step;

/// A train of which nothing but the coefficients may be refused, and these may be too weak.
fn train(random: &mut Random, coefficients: Coefficients) -> Train {
    let mut below = |n| random.below(n) as u32;
    Train {
        brake: [Brake::Passenger, Brake::Freight][below(2) as usize],
        electropneumatic: below(2) == 0,
        braked_weight: 45 + 5 * below(24),
        length: Metre(below(1001)),
        top_speed: Kmh(1 + below(330)),
        coefficients,
    }
}

/// From -35 to 35.
fn gradient(random: &mut Random) -> i32 {
    random.below(71) as i32 - 35
}
