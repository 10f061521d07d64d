//! Draws the EBI, SBI, W and P curves of a train on a gradient as an SVG, speed over distance, the target at the right. `HELP`
//! has the arguments and the exit statuses.
#[path = "../command/mod.rs"]
mod command;
mod drawing;
mod notes;
mod picture;
#[path = "../svg/mod.rs"]
mod svg;

use approach::{Brake, Coefficients, Kmh, Metre, PerMille, Train};
use command::{natural, whole, Trouble};
use picture::Case;
use std::io::{self, Write};
use std::process::ExitCode;

const USAGE: &str =
    "usage: curves [passenger|freight ep|- BW LENGTH TOP_SPEED GRADIENT V0] > curves.svg, or curves --help";

const HELP: &str = "\
usage: curves [passenger|freight ep|- BW LENGTH TOP_SPEED GRADIENT V0] > curves.svg

Draws the EBI, SBI, W and P curves of a train that brakes to V0, as an SVG: speed over distance, the
target at the right. The train has the first values of RFI TC.SCC SR AV 03 R02. Without arguments an
example is drawn, the same as
    curves passenger ep 100 200 160 -5 0

    passenger or freight: the brake type
    ep or -: whether the electropneumatic brake works
    BW: braked weight percentage, 45 to 160 in steps of 5
    LENGTH: in metres
    TOP_SPEED: in km/h, 1 to 330
    GRADIENT: in per mille, -35 to 35, positive uphill
    V0: the target speed in km/h, below the top speed

exit status
    0  the curves are drawn
    1  there are no such curves; the message says why
    2  the arguments are wrong, or the output was not taken whole
";

const EXAMPLE: Case = Case {
    train: Train {
        brake: Brake::Passenger,
        electropneumatic: true,
        braked_weight: 100,
        length: Metre(200),
        top_speed: Kmh(160),
        coefficients: Coefficients::FIRST_VALUES,
    },
    gradient: PerMille(-5),
    target: Kmh(0),
};

/// The case that the arguments tell; the example's where there are none.
fn told(arguments: &[String]) -> Result<Case, String> {
    let [brake, ep, braked_weight, length, top_speed, gradient, target] = arguments else {
        let wrong = || format!("{} arguments where 7 are wanted", arguments.len());
        return if arguments.is_empty() { Ok(EXAMPLE) } else { Err(wrong()) };
    };
    let train = Train {
        brake: brake.parse()?,
        electropneumatic: command::electropneumatic(ep)?,
        braked_weight: natural("BW", braked_weight)?,
        length: Metre(natural("LENGTH", length)?),
        top_speed: Kmh(natural("TOP_SPEED", top_speed)?),
        coefficients: Coefficients::FIRST_VALUES,
    };
    let (gradient, target) = (PerMille(whole("GRADIENT", gradient)?), Kmh(natural("V0", target)?));
    Ok(Case { train, gradient, target })
}

/// Writes nothing where there is no picture.
fn run(arguments: &[String], out: &mut dyn Write) -> Result<u8, Trouble> {
    if command::ask_for_help(arguments) {
        return command::write(out, HELP).map(|()| 0);
    }
    let case = told(arguments).map_err(|wrong| Trouble::with_arguments(wrong, USAGE))?;
    let svg = drawing::drawn(case).map_err(|why| Trouble::said(1, why))?;
    command::write(out, &svg).map(|()| 0)
}

fn main() -> ExitCode {
    command::end("curves", run(&command::arguments(), &mut io::stdout().lock()))
}

#[cfg(test)]
mod tests {
    use super::*;
    use command::tests::words;
    use drawing::tests::svg;

    pub fn case(line: &str) -> Case {
        told(&words(line)).expect("a case")
    }

    /// What a call of the program says, where it ends badly: its status, its message, and that it wrote nothing.
    fn refused(line: &str) -> (u8, String) {
        let mut out = Vec::new();
        let trouble = run(&words(line), &mut out).expect_err("no picture");
        assert!(out.is_empty(), "{line}");
        (trouble.status, trouble.message.expect("a message"))
    }

    #[test]
    fn what_is_not_drawn() {
        let weak = "the brake is too weak on this gradient: with the slope it gives less than 0.05 m/s² (refusal 10)";
        assert_eq!(refused("passenger ep 45 200 160 -19 0"), (1, weak.to_owned()));
        let point = "V0 is the top speed, 90 km/h: each curve is one point, and there is nothing to draw";
        assert_eq!(refused("freight ep 100 500 90 10 90"), (1, point.to_owned()));
        let above = "the target speed is above the speed, or in a row above the top speed (refusal 4)";
        assert_eq!(refused("freight ep 100 500 90 10 91"), (1, above.to_owned()));
    }

    #[test]
    fn wrong_arguments() {
        for (line, wrong) in [
            ("x", "1 arguments where 7 are wanted"),
            ("tram ep 100 200 160 -5 0", "the brake type \"tram\" is neither passenger nor freight"),
            ("passenger on 100 200 160 0 0", "\"on\" stands where ep or - is wanted"),
            ("passenger - x 200 160 0 0", "cannot read BW \"x\" as a whole number from 0 on"),
            ("passenger - 100 -1 160 0 0", "cannot read LENGTH \"-1\" as a whole number from 0 on"),
            ("passenger - 100 200 1.5 0 0", "cannot read TOP_SPEED \"1.5\" as a whole number from 0 on"),
            ("passenger - 100 200 160 flat 0", "cannot read GRADIENT \"flat\" as a whole number"),
            ("passenger - 100 200 160 0 stop", "cannot read V0 \"stop\" as a whole number from 0 on"),
        ] {
            assert_eq!(refused(line), (2, format!("{wrong}\n{USAGE}")));
        }
    }

    #[test]
    fn written_by_the_program() {
        let written = |line| {
            let mut out = Vec::new();
            run(&words(line), &mut out).expect("help or a picture");
            String::from_utf8(out).expect("text")
        };
        assert_eq!(["--help", "passenger -h"].map(written), [HELP; 2]);
        let example = "passenger ep 100 200 160 -5 0";
        assert!(HELP.contains(&format!("    curves {example}\n")));
        assert_eq!([written(""), written(example)], [svg(example), svg(example)]);
    }

    #[test]
    fn not_to_the_end() {
        command::tests::not_to_the_end(|out| run(&[], out));
    }
}
