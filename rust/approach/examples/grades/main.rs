//! Draws the gradients of a line about an approach as an SVG, and marks the stretches that govern it. `--help` tells the arguments
//! and the exit statuses.
#[path = "../asked/mod.rs"]
mod asked;
#[allow(dead_code, reason = "of a train it reads the length alone")]
#[path = "../command/mod.rs"]
mod command;
mod drawing;
mod site;
#[path = "../svg/mod.rs"]
mod svg;

use asked::Program;
use std::process::ExitCode;

const PROGRAM: Program = Program {
    name: "grades",
    into: " > grades.svg",
    about: "\
Draws the gradients of a line sheet about the approach to a signal, as an SVG: stretch by stretch, uphill
above and downhill below a line at 0. It marks the stretch that governs the way ahead, from the train's
tail to the signal, and the one that governs past the signal, from where the tail is with the head at the
signal up to the overlap's end. Without arguments an example is drawn.
",
    statuses: ["the gradients are drawn", "there is no such approach"],
    shown: drawing::drawn,
};

fn main() -> ExitCode {
    PROGRAM.main()
}

#[cfg(test)]
mod tests {
    use super::*;

    #[test]
    fn the_example() {
        PROGRAM.shows_the_example(&PROGRAM.written("", b""));
    }

    #[test]
    fn what_is_not_drawn() {
        PROGRAM.refuses();
        PROGRAM.refuses_wrong_arguments();
    }

    #[test]
    fn help_and_its_reader() {
        PROGRAM.helps_and_ends();
    }
}
