//! The distances of one train, the ceilings of the speeds it comes from, and how far it gets past a closed signal.
mod table;

use approach::{ceilings, ramp, step, Brake, Coefficients, Hundredth, Kmh, Metre, PerMille, Refusal, Times, Train};
use std::env;
use std::process::ExitCode;
use table::{figure, line};

const TRAIN: Train = Train {
    brake: Brake::Passenger,
    electropneumatic: true,
    braked_weight: 100,
    length: Metre(200),
    top_speed: Kmh(160),
    coefficients: Coefficients::FIRST_VALUES,
};

fn braked() -> Result<String, Refusal> {
    let mut out =
        format!("A passenger train with its electropneumatic brake working, braked weight 100 %, {},\n", TRAIN.length);
    out += "down a grade of 5 per mille to a stop: its distances, and beside them the ceilings.\n";
    out += &format!("{:10}  {:-^38}  {:-^28}\n", "", " distances ", " ceilings ");
    out += &line(&["from", "EBI", "SBI", "W", "P", "W", "SBI", "EBI"]);
    out += &line(&["km/h", "m", "m", "m", "m", "km/h", "km/h", "km/h"]);
    for v in (0..=TRAIN.top_speed.0).step_by(20).map(Kmh) {
        let d = step(TRAIN, v, Kmh(0), PerMille(-5))?;
        let c = ceilings(v)?;
        let distances = [d.ebi, d.sbi, d.w, d.p].map(figure);
        let ceilings = [c.w, c.sbi, c.ebi].map(figure);
        out += &line(&[&[figure(v)], &distances[..], &ceilings[..]].concat());
    }
    Ok(out)
}

fn refused() -> String {
    let weak = step(Train { braked_weight: 45, ..TRAIN }, Kmh(60), Kmh(0), PerMille(-19));
    format!("With braked weight 45 % down 19 per mille: {}.\n", weak.expect_err("a brake that is too weak"))
}

fn past_the_signal() -> Result<String, Refusal> {
    let mut out = "Past a closed signal with dead time TM and rise time TR: how far, and when.\n".to_owned();
    out += &line(&["from", "gradient", "TM", "TR", "stops at", "after"]);
    out += &line(&["km/h", "‰", "s", "s", "m", "s"]);
    for (v, gradient, tm, tr) in [(36, 0, 200, 400), (1, 0, 0, 3000), (1, 35, 2000, 1), (30, -20, 300, 460)] {
        let (v, gradient, times) = (Kmh(v), PerMille(gradient), Times { dead: Hundredth(tm), rise: Hundredth(tr) });
        let stop = ramp(TRAIN.braked_weight, gradient, v, times, TRAIN.coefficients.inertia)?;
        let [dead, rise] = [times.dead, times.rise].map(figure);
        out += &line(&[figure(v), figure(gradient), dead, rise, figure(stop.distance), figure(stop.moment)]);
    }
    Ok(out)
}

/// Nobody is to take the example's figures for those of a train that they named.
fn main() -> Result<ExitCode, Refusal> {
    if env::args_os().len() > 1 {
        eprintln!(
            "distances takes no arguments: it prints an example. For a train of your own see compare and curves."
        );
        return Ok(ExitCode::from(2));
    }
    print!("{}{}{}", braked()?, refused(), past_the_signal()?);
    Ok(ExitCode::SUCCESS)
}

#[cfg(test)]
mod tests {
    use super::*;
    use table::tests::columns;

    #[test]
    fn every_column_has_a_heading() {
        let distances = [
            "            ------------- distances --------------  --------- ceilings ---------",
            "      from       EBI       SBI         W         P         W       SBI       EBI",
            "      km/h         m         m         m         m      km/h      km/h      km/h",
        ];
        columns(&braked().expect("an accepted train"), &distances);
        let stops = [
            "      from  gradient        TM        TR  stops at     after",
            "      km/h         \u{2030}         s         s         m         s",
        ];
        columns(&past_the_signal().expect("accepted times"), &stops);
    }
}
