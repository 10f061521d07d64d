//! Holds a maker's table of stopping distances to the library's, and prints the lines that are short. `HELP` has the table's
//! format and the exit statuses.
mod command;

use approach::{step, Coefficients, Curve, Kmh, Metre, PerMille, Train, CURVES};
use command::{natural, whole, Trouble};
use std::io::{self, BufRead, Write};
use std::process::ExitCode;
use std::str::FromStr;

/// A distance in micrometres, so that six decimals of a metre are exact.
#[derive(Clone, Copy, Debug, PartialEq, Eq, PartialOrd, Ord)]
struct Micrometre(u64);

const IN_A_MILLIMETRE: u64 = 1_000;
const IN_A_METRE: u64 = 1_000_000;
const DECIMALS: usize = 6;

struct Entry {
    train: Train,
    gradient: PerMille,
    target: Kmh,
    v: Kmh,
    distance: Micrometre,
}

/// A single distance may be asked for above a train's top speed, so this one serves for all.
const TOP_SPEED: Kmh = Kmh(330);

/// The table names none of a train's own.
const COEFFICIENTS: Coefficients = Coefficients::FIRST_VALUES;

const USAGE: &str = "usage: compare [ebi|sbi|w|p] < table, or compare --help";

const HELP: &str = "\
usage: compare [ebi|sbi|w|p] < table

Holds a maker's table of stopping distances to the library's, and prints the lines that are short.
The curve is EBI (emergency brake intervention) unless SBI (service brake intervention), W (warning)
or P (permitted speed) is named. The trains have the first values of RFI TC.SCC SR AV 03 R02.

A line of the table has eight fields, parted by spaces, such as
    passenger ep 100 200 0 0 90 842.532
which are
    passenger or freight: the brake type
    ep or -: whether the electropneumatic brake works
    braked weight percentage, 45 to 160 in steps of 5
    length in metres
    gradient in per mille, positive uphill
    V0, the target speed, in km/h
    V, the speed, in km/h
    the distance in metres, at most six decimals after a point
Empty lines and lines that begin with # are passed over. A line that cannot be judged gets a message,
and the rest goes on.

exit status
    0  every line was judged, and none is short
    1  a line is short or bad, or there is none to judge
    2  the arguments are wrong, the table cannot be read to its end, or the output was not taken whole
";

/// For tables from a spreadsheet.
const HINT: &str = "; fields are parted by spaces, decimals by a point";

fn digits(text: &str) -> bool {
    !text.is_empty() && text.bytes().all(|byte| byte.is_ascii_digit())
}

impl FromStr for Micrometre {
    type Err = String;

    fn from_str(field: &str) -> Result<Micrometre, String> {
        let bad = || format!("cannot read the distance {field:?} as metres with at most six decimals, such as 842.532");
        let (metres, decimals) = field.split_once('.').unwrap_or((field, "0"));
        if !digits(metres) || !digits(decimals) || decimals.len() > DECIMALS {
            return Err(bad());
        }
        let metres: u64 = metres.parse().map_err(|_| bad())?;
        let decimals: u64 = format!("{decimals:0<DECIMALS$}").parse().map_err(|_| bad())?;
        let distance = metres.checked_mul(IN_A_METRE).and_then(|whole| whole.checked_add(decimals));
        distance.map(Micrometre).ok_or_else(bad)
    }
}

fn entry(line: &str) -> Result<Entry, String> {
    let fields: Vec<&str> = line.split_whitespace().collect();
    let [brake, ep, braked_weight, length, gradient, target, v, distance] = fields[..] else {
        return Err(format!("fields: {}, where a line has 8", fields.len()));
    };
    let (brake, electropneumatic) = (brake.parse()?, command::electropneumatic(ep)?);
    let braked_weight = natural("the braked weight", braked_weight)?;
    let length = Metre(natural("the length", length)?);
    Ok(Entry {
        train: Train {
            brake,
            electropneumatic,
            braked_weight,
            length,
            top_speed: TOP_SPEED,
            coefficients: COEFFICIENTS,
        },
        gradient: PerMille(whole("the gradient", gradient)?),
        target: Kmh(natural("V0", target)?),
        v: Kmh(natural("V", v)?),
        distance: distance.parse()?,
    })
}

/// What to say of a line whose distance is short, nothing of one that is not, or why it cannot be judged.
fn judged(curve: Curve, line: &str) -> Result<Option<String>, String> {
    let Entry { train, gradient, target, v, distance } = entry(line)?;
    let ours = step(train, v, target, gradient).map_err(|refusal| refusal.to_string())?.of(curve);
    let wanted = Micrometre(u64::from(ours.0) * IN_A_MILLIMETRE);
    if distance >= wanted {
        return Ok(None);
    }
    let short = wanted.0 - distance.0;
    let decimals = format!(".{:03}", short % IN_A_MILLIMETRE);
    let decimals = decimals.trim_end_matches('0').trim_end_matches('.');
    Ok(Some(format!("short by {}{decimals} mm, it takes {ours}", short / IN_A_MILLIMETRE)))
}

#[derive(Default)]
struct Count {
    judged: usize,
    short: usize,
    bad: usize,
}

impl Count {
    /// Judges a line, and says what is to be said of it. A byte order mark, with which spreadsheets begin a file, is passed
    /// over. Of what is repeated, control characters are escaped: a terminal would obey them.
    fn line(&mut self, curve: Curve, number: usize, line: &str, out: &mut dyn Write) -> io::Result<()> {
        let line = line.trim_start_matches('\u{feff}').trim();
        if line.is_empty() || line.starts_with('#') {
            return Ok(());
        }
        let shown = line.escape_debug();
        match judged(curve, line) {
            Ok(None) => self.judged += 1,
            Ok(Some(short)) => {
                self.judged += 1;
                self.short += 1;
                writeln!(out, "line {number}: {shown}: {short}")?;
            }
            Err(message) => {
                self.bad += 1;
                let hint = if line.contains([',', ';']) { HINT } else { "" };
                writeln!(out, "line {number}: {shown}: bad line: {message}{hint}")?;
            }
        }
        Ok(())
    }

    /// An empty table may be what a failed command left, so it is none in order.
    fn in_order(&self) -> bool {
        self.judged > 0 && self.short + self.bad == 0
    }

    fn sum(&self, curve: Curve, out: &mut dyn Write) -> io::Result<()> {
        let Count { judged, short, bad } = self;
        if judged + bad == 0 {
            writeln!(out, "no line to judge: the table is empty, or has comments only")?;
        }
        writeln!(out, "{curve} judged: {judged}, short: {short}, bad lines: {bad}")?;
        out.flush()
    }
}

/// Any bytes are taken; what is no text in them makes a bad line.
fn compare(curve: Curve, table: impl BufRead, out: &mut dyn Write) -> Result<Count, Trouble> {
    let mut count = Count::default();
    for (number, line) in (1..).zip(table.split(b'\n')) {
        let line = line.map_err(|error| Trouble::said(2, format!("cannot read the table: {error}")))?;
        count.line(curve, number, &String::from_utf8_lossy(&line), out).map_err(Trouble::with_output)?;
    }
    count.sum(curve, out).map_err(Trouble::with_output)?;
    Ok(count)
}

/// The curve that the arguments name.
fn named(arguments: &[String]) -> Result<Curve, Trouble> {
    let wrong = match arguments {
        [] => return Ok(Curve::Ebi),
        [name] => match CURVES.into_iter().find(|curve| curve.to_string().eq_ignore_ascii_case(name)) {
            Some(curve) => return Ok(curve),
            None => format!("there is no curve {name:?}"),
        },
        [_, more, ..] => format!("one curve at a time: {more:?} is too much"),
    };
    Err(Trouble::with_arguments(wrong, USAGE))
}

/// The status: 0 of a table in order, and of help.
fn run(arguments: &[String], table: impl BufRead, out: &mut dyn Write) -> Result<u8, Trouble> {
    if command::ask_for_help(arguments) {
        return command::write(out, HELP).map(|()| 0);
    }
    compare(named(arguments)?, table, out).map(|count| u8::from(!count.in_order()))
}

fn main() -> ExitCode {
    command::end("compare", run(&command::arguments(), io::stdin().lock(), &mut io::stdout().lock()))
}

#[cfg(test)]
mod tests {
    use super::*;
    use command::tests::words;

    fn compared(curve: Curve, table: &[u8]) -> String {
        let mut out = Vec::new();
        compare(curve, table, &mut out).expect("memory to write to");
        String::from_utf8(out).expect("text")
    }

    /// The right distances are document 01's figures.
    #[test]
    fn a_makers_table() {
        let lines = compared(Curve::Ebi, include_bytes!("makers-table.txt"));
        assert_eq!(lines, include_str!("makers-table.out"));
    }

    /// 90 km/h to a stop: EBI 842.532 m, P 1,056.282 m.
    #[test]
    fn just_enough_and_just_short() {
        let line = |distance: &str| format!("passenger ep 100 200 0 0 90 {distance}\n");
        let short = |curve, distance| compared(curve, line(distance).as_bytes());
        for distance in ["842.532", "842.5320", "842.532000", "842.532001", "843", "0842.532", "99999999"] {
            assert_eq!(short(Curve::Ebi, distance), "EBI judged: 1, short: 0, bad lines: 0\n", "{distance}");
        }
        for (curve, distance, by) in [
            (Curve::Ebi, "842.531", "1 mm"),
            (Curve::Ebi, "842.531999", "0.001 mm"),
            (Curve::Ebi, "842.5", "32 mm"),
            (Curve::Ebi, "842.53190", "0.1 mm"),
            (Curve::Ebi, "0", "842532 mm"),
            (Curve::P, "1056.280", "2 mm"),
        ] {
            let said = short(curve, distance);
            assert!(said.contains(&format!(": short by {by}, it takes ")), "{said}");
            assert!(said.ends_with(&format!("\n{curve} judged: 1, short: 1, bad lines: 0\n")), "{said}");
        }
    }

    #[test]
    fn bad_lines() {
        for (line, message) in [
            ("passenger ep 100 200 0 0 90", "fields: 7, where a line has 8"),
            ("passenger ep 100 200 0 0 90 1 m", "fields: 9, where a line has 8"),
            ("tram ep 100 200 0 0 90 1", "the brake type \"tram\" is neither passenger nor freight"),
            ("freight yes 100 200 0 0 90 1", "\"yes\" stands where ep or - is wanted"),
            ("freight - -5 200 0 0 90 1", "cannot read the braked weight \"-5\" as a whole number from 0 on"),
            ("freight - 100 4294967296 0 0 90 1", "cannot read the length \"4294967296\" as a whole number from 0 on"),
            ("freight - 100 200 flat 0 90 1", "cannot read the gradient \"flat\" as a whole number"),
            ("freight - 100 200 0 . 90 1", "cannot read V0 \".\" as a whole number from 0 on"),
            ("freight - 100 200 0 0 9.5 1", "cannot read V \"9.5\" as a whole number from 0 on"),
            ("freight - 100 200 36 0 90 1", "the gradient is not from -35 to 35 per mille (refusal 5)"),
        ] {
            let shown = line.escape_debug();
            let said = format!("line 2: {shown}: bad line: {message}\nW judged: 0, short: 0, bad lines: 1\n");
            assert_eq!(compared(Curve::W, format!("\n{line}").as_bytes()), said);
        }
        for distance in ["1,5", "-1", "1.", ".5", "1.0000001", "1e3", "20000000000000000000", "18446744073709552"] {
            let said = compared(Curve::Sbi, format!("freight - 100 200 0 0 90 {distance}").as_bytes());
            assert!(said.contains(&format!("{distance}: bad line: cannot read the distance \"{distance}\"")), "{said}");
        }
    }

    /// Of what an escape sequence, a carriage return or a bell would do to a terminal, nothing is left, in short lines neither.
    #[test]
    fn what_is_no_text() {
        let said = compared(Curve::Ebi, b"\xff\xfe\n# \xff\n\r\n   \npassenger ep 100 200 0 0 90 1000\r\n");
        let bad = "line 1: \u{fffd}\u{fffd}: bad line: fields: 1, where a line has 8\n";
        assert_eq!(said, format!("{bad}EBI judged: 1, short: 0, bad lines: 1\n"));
        let said = compared(Curve::Ebi, "\x1b[2J\x07 caff\u{e8}\npassenger\tep\r100\x0c200 0 0 90 1\n".as_bytes());
        assert!(said.starts_with("line 1: \\u{1b}[2J\\u{7} caff\u{e8}: bad line: "), "{said}");
        assert!(said.contains("line 2: passenger\\tep\\r100\\u{c}200 0 0 90 1: short by "), "{said}");
        assert!(said.lines().all(|line| !line.contains(char::is_control)), "{said}");
    }

    #[test]
    fn from_a_spreadsheet() {
        for line in
            ["freight,-,100,200,0,0,90,842.532", "freight;-;100;200;0;0;90;842.532", "freight - 100 200 0 0 90 842,532"]
        {
            let said = compared(Curve::Ebi, line.as_bytes());
            let first = said.lines().next().expect("a line");
            assert!(first.ends_with("; fields are parted by spaces, decimals by a point"), "{said}");
        }
        assert!(!compared(Curve::Ebi, b"freight - 100 200 0 0 90 842:532").contains("parted by"));
        let marked = "\u{feff}# EBI\n\u{feff}passenger ep 100 200 0 0 90 842.532\n";
        assert_eq!(compared(Curve::Ebi, marked.as_bytes()), "EBI judged: 1, short: 0, bad lines: 0\n");
    }

    #[test]
    fn nothing_to_judge() {
        for table in ["", "\n \r\n", "# EBI distances of a maker\n"] {
            let said = compared(Curve::Ebi, table.as_bytes());
            let none = "no line to judge: the table is empty, or has comments only\n";
            assert_eq!(said, format!("{none}EBI judged: 0, short: 0, bad lines: 0\n"), "{table:?}");
        }
    }

    /// 842.532 m is just enough for EBI and short for SBI.
    #[test]
    fn statuses() {
        let line = "passenger ep 100 200 0 0 90 842.532\n";
        assert!(HELP.contains(line));
        for (arguments, table, wanted) in [
            ("", line, 0),
            ("--help", "", 0),
            ("w -h", "", 0),
            ("sbi", line, 1),
            ("", "", 1),
            ("", "# none\n", 1),
            ("", "passenger ep 100 200 0 0 90\n", 1),
            ("x", line, 2),
            ("w p", line, 2),
        ] {
            let ending = run(&words(arguments), table.as_bytes(), &mut Vec::new());
            assert_eq!(ending.unwrap_or_else(|trouble| trouble.status), wanted, "{arguments:?} {table:?}");
        }
    }

    #[test]
    fn help_is_written() {
        let mut out = Vec::new();
        run(&words("--help"), io::empty(), &mut out).expect("help");
        assert_eq!(out, HELP.as_bytes());
    }

    /// As a directory is.
    struct Unreadable;

    impl io::Read for Unreadable {
        fn read(&mut self, _: &mut [u8]) -> io::Result<usize> {
            Err(io::ErrorKind::IsADirectory.into())
        }
    }

    #[test]
    fn not_to_the_end() {
        for arguments in ["", "--help"] {
            let line = b"passenger ep 100 200 0 0 90 842.532\n";
            command::tests::not_to_the_end(|out| run(&words(arguments), &line[..], out));
        }
        let Trouble { status, message } =
            run(&[], io::BufReader::new(Unreadable), &mut Vec::new()).expect_err("a directory");
        assert!(status == 2 && message.is_some_and(|message| message.starts_with("cannot read the table: ")));
    }

    #[test]
    fn names_of_curves() {
        let named = |line| named(&words(line)).map_err(|trouble| trouble.message.expect("a message"));
        assert_eq!(named(""), Ok(Curve::Ebi));
        assert_eq!(["ebi", "sbi", "w", "P"].map(named), CURVES.map(Ok));
        assert_eq!(named("x"), Err(format!("there is no curve \"x\"\n{USAGE}")));
        assert_eq!(named("w p"), Err(format!("one curve at a time: \"p\" is too much\n{USAGE}")));
    }
}
