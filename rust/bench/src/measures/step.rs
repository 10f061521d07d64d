//! Single distances and rows.
use super::timing::{compared, mixed, way, Way};
use approach::raw::{self, Curve, Distances, Train};
use approach::Coefficients;
use bench::{own, plain};
use inputs::Random;

const TRAINS: usize = 2_000;

/// A train of the first values and a gradient that every V0 of 0 to 330 accepts, and two speeds.
struct Input {
    train: Train,
    gradient: i32,
    v: u32,
    v0: u32,
}

fn input(random: &mut Random) -> Input {
    let v = random.below(331) as u32;
    Input {
        train: Train {
            freight: (random.below(2) == 0).into(),
            electropneumatic: (random.below(2) == 0).into(),
            braked_weight: 100 + 5 * random.below(13) as u32,
            length: random.below(1001) as u32,
            top_speed: 330,
            coefficients: Coefficients::FIRST_VALUES.into(),
        },
        gradient: random.below(61) as i32 - 25,
        v,
        v0: random.below(v as u64 + 1) as u32,
    }
}

fn distances(d: Distances) -> u64 {
    mixed([d.refusal, d.ebi, d.sbi, d.w, d.p])
}

/// One curve from V0 0 to 330.
fn measure_row(name: &str, inputs: &[Input], curve: Curve) {
    fn row(write: impl Fn(&Input, &mut [u32]) + 'static) -> Way<Input> {
        way(move |input| {
            let mut row = [0; 331];
            write(input, &mut row);
            mixed(row)
        })
    }
    let ways = [
        row(move |i, row| assert_eq!(raw::row(curve, i.train, 0, i.gradient, row).length, 331)),
        row(move |i, row| plain::step::row(curve, i.train, 0, i.gradient, row)),
        row(move |i, row| own::step::row(curve, i.train, 0, i.gradient, row)),
    ];
    compared(name, inputs, 331.0, &ways);
}

pub fn measure() {
    let mut random = Random(11);
    let inputs: Vec<Input> = (0..TRAINS).map(|_| input(&mut random)).collect();
    let ways = [
        way(|i: &Input| distances(raw::step(i.train, i.v, i.v0, i.gradient))),
        way(|i: &Input| distances(plain::step::step(i.train, i.v, i.v0, i.gradient))),
        way(|i: &Input| distances(own::step::step(i.train, i.v, i.v0, i.gradient))),
    ];
    compared("step distance, of a call's four", &inputs, 4.0, &ways);
    measure_row("row place, EBI, of 331", &inputs, Curve::Ebi);
    measure_row("row place, P, of 331", &inputs, Curve::P);
}
