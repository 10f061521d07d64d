//! What the programs share that are asked about an approach on a line sheet: how they read it, an example, and how they run.
use crate::command::{self, natural, Trouble};
use approach::{sheet, Metre, Refusal};
use std::fs::File;
use std::io::{self, Read, Write};
use std::process::ExitCode;

/// A signal's number, the place of a train's head, and its length.
#[derive(Clone, Copy, Debug, PartialEq, Eq)]
pub struct Asked {
    pub signal: u32,
    pub head: Metre,
    pub length: Metre,
}

impl Asked {
    /// Where the train's tail is with its head at a place.
    pub fn tail(self, head: Metre) -> Metre {
        Metre(head.0.saturating_sub(self.length.0))
    }
}

/// It falls and rises by turns, and its steepest fall is behind the tail.
const LINE: sheet::Lists = sheet::Lists {
    starts: &[
        Metre(0),
        Metre(600),
        Metre(1400),
        Metre(2000),
        Metre(2700),
        Metre(3300),
        Metre(4100),
        Metre(4600),
        Metre(5200),
        Metre(6000),
    ],
    gradients: &[-14, 3, -8, -11, -4, 6, 0, -3, 5, 2],
    places: &[Metre(1200), Metre(5500)],
    overlaps: &[100, 150],
    end: Metre(7000),
};

const EXAMPLE: Asked = Asked { signal: 1, head: Metre(1950), length: Metre(600) };

fn example() -> (Vec<u8>, Asked) {
    let mut buffer = [0; sheet::LONGEST];
    (sheet::write(LINE, &mut buffer).expect("a line that keeps every rule").to_vec(), EXAMPLE)
}

/// Where the stretches start, and the line end, of a sheet that was accepted. No call answers the end: the bytes have it.
pub fn borders(bytes: &[u8]) -> Result<Vec<Metre>, Refusal> {
    let end = u32::from_le_bytes([bytes[16], bytes[17], bytes[18], bytes[19]]);
    Ok(sheet::stretches(bytes)?.map(|stretch| stretch.start).chain([Metre(end)]).collect())
}

/// A byte more than the longest sheet has is enough for a refusal.
fn bytes_of(sheet: impl Read) -> io::Result<Vec<u8>> {
    let mut bytes = Vec::new();
    sheet.take(sheet::LONGEST as u64 + 1).read_to_end(&mut bytes)?;
    Ok(bytes)
}

fn asked(signal: &str, head: &str, length: &str) -> Result<Asked, String> {
    let signal = natural("SIGNAL", signal)?;
    let (head, length) = (Metre(natural("HEAD", head)?), Metre(natural("LENGTH", length)?));
    Ok(Asked { signal, head, length })
}

/// A program that shows an approach, or says by a refusal why there is none.
pub struct Program {
    pub name: &'static str,
    /// Where its output goes, as a command line has it.
    pub into: &'static str,
    /// What it does, in lines of the help.
    pub about: &'static str,
    /// What its exit statuses 0 and 1 say.
    pub statuses: [&'static str; 2],
    pub shown: fn(&[u8], Asked) -> Result<String, Refusal>,
}

const ARGUMENTS: &str = "    SIGNAL: its number on the sheet, from 0
    HEAD: the place of the train's head, in metres
    LENGTH: the train's, in metres, at most 1,000
    SHEET: a file with the bytes of the line sheet; without it they are read from the standard input
";

impl Program {
    fn command_line(&self) -> String {
        format!("usage: {} [SIGNAL HEAD LENGTH [SHEET]]{}", self.name, self.into)
    }

    fn usage(&self) -> String {
        format!("{}, or {} --help", self.command_line(), self.name)
    }

    fn help(&self) -> String {
        let (command_line, about, [done, none]) = (self.command_line(), self.about, self.statuses);
        let unread = "the arguments are wrong, the sheet cannot be read, or the output was not taken whole";
        let statuses = format!("exit status\n    0  {done}\n    1  {none}; the message says why\n    2  {unread}\n");
        format!("{command_line}\n\n{about}\n{ARGUMENTS}\n{statuses}")
    }

    /// A sheet and the approach that the arguments tell; the example's where there are none.
    fn told(&self, arguments: &[String], input: impl Read) -> Result<(Vec<u8>, Asked), Trouble> {
        let wrong = |wrong| Trouble::with_arguments(wrong, &self.usage());
        let (numbers, file) = match arguments {
            [] => return Ok(example()),
            [signal, head, length] => ([signal, head, length], None),
            [signal, head, length, file] => ([signal, head, length], Some(file)),
            _ => return Err(wrong(format!("{} arguments where 3 or 4 are wanted", arguments.len()))),
        };
        let [signal, head, length] = numbers;
        let asked = asked(signal, head, length).map_err(wrong)?;
        let bytes = match file {
            Some(file) => File::open(file).and_then(bytes_of),
            None => bytes_of(input),
        };
        let bytes = bytes.map_err(|error| Trouble::said(2, format!("cannot read the sheet: {error}")))?;
        Ok((bytes, asked))
    }

    /// Writes nothing where there is nothing to show.
    fn run(&self, arguments: &[String], input: impl Read, out: &mut dyn Write) -> Result<u8, Trouble> {
        if command::ask_for_help(arguments) {
            return command::write(out, &self.help()).map(|()| 0);
        }
        let (bytes, asked) = self.told(arguments, input)?;
        let shown = (self.shown)(&bytes, asked).map_err(|refusal| Trouble::said(1, refusal.to_string()))?;
        command::write(out, &shown).map(|()| 0)
    }

    pub fn main(&self) -> ExitCode {
        command::end(self.name, self.run(&command::arguments(), io::stdin().lock(), &mut io::stdout().lock()))
    }
}

#[cfg(test)]
pub mod tests {
    use super::*;
    use command::tests::words;
    use std::{env, fs, process};

    impl Program {
        pub fn written(&self, line: &str, sheet: &[u8]) -> String {
            let mut out = Vec::new();
            self.run(&words(line), sheet, &mut out).expect("help or what is asked for");
            String::from_utf8(out).expect("text")
        }

        /// What it says where it ends badly: its status, its message, and that it wrote nothing.
        fn refused(&self, line: &str, sheet: &[u8]) -> (u8, String) {
            let mut out = Vec::new();
            let trouble = self.run(&words(line), sheet, &mut out).expect_err("nothing to show");
            assert!(out.is_empty(), "{line}");
            (trouble.status, trouble.message.expect("a message"))
        }

        /// The example, without arguments and by the numbers that tell it, from the standard input and from a file.
        pub fn shows_the_example(&self, wanted: &str) {
            let (sheet, numbers) = (example().0, "1 1950 600");
            assert_eq!([self.written("", b""), self.written(numbers, &sheet)], [wanted; 2]);
            let file = env::temp_dir().join(format!("{}-{}.sheet", self.name, process::id()));
            fs::write(&file, sheet).expect("a file to write");
            let line = format!("{numbers} {}", file.display());
            let shown = self.written(&line, b"");
            fs::remove_file(&file).expect("the file");
            assert_eq!(shown, wanted);
            let (status, message) = self.refused(&line, b"");
            assert!(status == 2 && message.starts_with("cannot read the sheet: "), "{message}");
        }

        pub fn refuses(&self) {
            let (sheet, _) = example();
            let longer = [&sheet[..], &[0; 100_000]].concat();
            for (line, sheet, refusal) in [
                ("1 1950 1001", &sheet[..], Refusal::Length),
                ("1 1950 600", &sheet[1..], Refusal::Sheet),
                ("1 1950 600", &longer, Refusal::Sheet),
                ("1 1950 600", &[], Refusal::Sheet),
                ("2 1950 600", &sheet, Refusal::Number),
                ("1 5501 600", &sheet, Refusal::Head),
            ] {
                assert_eq!(self.refused(line, sheet), (1, refusal.to_string()));
            }
        }

        pub fn refuses_wrong_arguments(&self) {
            for (line, wrong) in [
                ("1", "1 arguments where 3 or 4 are wanted"),
                ("1 2 3 4 5", "5 arguments where 3 or 4 are wanted"),
                ("x 1950 600", "cannot read SIGNAL \"x\" as a whole number from 0 on"),
                ("1 -1 600", "cannot read HEAD \"-1\" as a whole number from 0 on"),
                ("1 1950 0.6 line", "cannot read LENGTH \"0.6\" as a whole number from 0 on"),
            ] {
                assert_eq!(self.refused(line, b""), (2, format!("{wrong}\n{}", self.usage())));
            }
        }

        /// In lines of a terminal's width or little more.
        pub fn helps_and_ends(&self) {
            let help = self.help();
            assert!(help.contains(self.about) && help.lines().all(|line| line.chars().count() <= 110), "{help}");
            for argument in ["SIGNAL", "HEAD", "LENGTH", "SHEET"] {
                assert!(help.contains(&format!("\n    {argument}: ")), "{help}");
            }
            assert_eq!([self.written("--help", b""), self.written("1 -h", b"")], [help.as_str(); 2]);
            command::tests::not_to_the_end(|out| self.run(&[], io::empty(), out));
        }
    }
}
