//! Prints the walk from a signal back to a train's tail, as a table to lay beside a drawing of the line. `--help` tells the arguments
//! and the exit statuses.
mod asked;
#[allow(dead_code, reason = "of a train it reads the length alone")]
mod command;
mod table;

use approach::{sheet, walk, Refusal};
use asked::{borders, Asked, Program};
use std::process::ExitCode;
use table::{figure, line};

const PROGRAM: Program = Program {
    name: "walk",
    into: "",
    about: "\
Walks along a line sheet from a signal back to the tail of a train, stretch by stretch, and prints what
gradient each has, the least so far, and the first stretch along the sheet that has it. The last least is
the gradient ahead, on which the train brakes to the signal. Without arguments an example is printed.
",
    statuses: ["the walk is printed", "there is no such walk"],
    shown: printed,
};

fn printed(bytes: &[u8], asked: Asked) -> Result<String, Refusal> {
    let Asked { signal, head, length } = asked;
    let steps: Vec<_> = walk(bytes, signal, head, length)?.collect();
    let (place, tail) = (sheet::signal(bytes, signal)?.place, asked.tail(head));
    let mut out = format!("From signal {signal} at {place} back to the tail at {tail}, with the head at {head}:\n");
    out += &line(&["step", "stretch", "from", "to", "gradient", "least", "in"]);
    out += &line(&["", "", "m", "m", "‰", "‰", "stretch"]);
    let borders = borders(bytes)?;
    for (number, step) in steps.iter().enumerate() {
        let [from, to] = [0, 1].map(|further| figure(borders[step.stretch as usize + further]));
        let [gradient, least] = [step.gradient, step.least].map(figure);
        let [stretch, of_least] = [step.stretch, step.least_stretch].map(figure);
        out += &line(&[figure(number), stretch, from, to, gradient, least, of_least]);
    }
    let last = steps.last().expect("the signal's own stretch");
    Ok(out + &format!("The gradient ahead is {}, that of stretch {}.\n", last.least, last.least_stretch))
}

fn main() -> ExitCode {
    PROGRAM.main()
}

#[cfg(test)]
mod tests {
    use super::*;

    const PRINTED: &str = include_str!("walk.out");

    #[test]
    fn the_example() {
        PROGRAM.shows_the_example(PRINTED);
        let headings = [
            "      step   stretch      from        to  gradient     least        in",
            "                             m         m         \u{2030}         \u{2030}   stretch",
        ];
        table::tests::columns(PRINTED, &headings);
    }

    /// The last stretch reaches to the line end; the tail is at 0 where the train is longer than the way behind its head.
    #[test]
    fn the_line_end() {
        let table = PROGRAM.written("1 150 200", &inputs::EXAMPLE);
        assert!(
            table.starts_with("From signal 1 at 1057 m back to the tail at 0 m, with the head at 150 m:\n"),
            "{table}"
        );
        let step = "         0         0         0      2000         0         0         0\n";
        assert!(table.ends_with(&format!("{step}The gradient ahead is 0 \u{2030}, that of stretch 0.\n")), "{table}");
    }

    #[test]
    fn what_is_not_walked() {
        PROGRAM.refuses();
        PROGRAM.refuses_wrong_arguments();
    }

    #[test]
    fn help_and_its_reader() {
        PROGRAM.helps_and_ends();
    }
}
