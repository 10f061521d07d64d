//! What the programs share: how they read words, and how they end.
use std::env;
use std::io::{self, Write};
use std::process::ExitCode;

/// The words behind the program's name.
pub fn arguments() -> Vec<String> {
    env::args_os().skip(1).map(|word| word.to_string_lossy().into_owned()).collect()
}

/// Anywhere among them: nothing is done by accident.
pub fn ask_for_help(arguments: &[String]) -> bool {
    arguments.iter().any(|argument| argument == "--help" || argument == "-h")
}

pub fn natural(name: &str, word: &str) -> Result<u32, String> {
    word.parse().map_err(|_| format!("cannot read {name} {word:?} as a whole number from 0 on"))
}

pub fn whole(name: &str, word: &str) -> Result<i32, String> {
    word.parse().map_err(|_| format!("cannot read {name} {word:?} as a whole number"))
}

/// Whether the electropneumatic brake works.
pub fn electropneumatic(word: &str) -> Result<bool, String> {
    match word {
        "ep" => Ok(true),
        "-" => Ok(false),
        _ => Err(format!("{word:?} stands where ep or - is wanted")),
    }
}

/// Why a program does not do what it was called for: the status that it ends with, and what it says.
#[derive(Debug, PartialEq, Eq)]
pub struct Trouble {
    pub status: u8,
    pub message: Option<String>,
}

impl Trouble {
    pub fn said(status: u8, message: String) -> Trouble {
        Trouble { status, message: Some(message) }
    }

    pub fn with_arguments(wrong: String, usage: &str) -> Trouble {
        Trouble::said(2, format!("{wrong}\n{usage}"))
    }

    /// Of a reader that has gone, such as `head`, nothing is said: it has what it wanted.
    pub fn with_output(error: io::Error) -> Trouble {
        match error.kind() {
            io::ErrorKind::BrokenPipe => Trouble { status: 2, message: None },
            _ => Trouble::said(2, format!("cannot write: {error}")),
        }
    }
}

pub fn write(out: &mut dyn Write, text: &str) -> Result<(), Trouble> {
    out.write_all(text.as_bytes()).and_then(|()| out.flush()).map_err(Trouble::with_output)
}

pub fn end(program: &str, ending: Result<u8, Trouble>) -> ExitCode {
    let Trouble { status, message } = ending.map_or_else(|trouble| trouble, |status| Trouble { status, message: None });
    if let Some(message) = message {
        eprintln!("{program}: {message}");
    }
    ExitCode::from(status)
}

#[cfg(test)]
pub mod tests {
    use super::*;

    pub fn words(line: &str) -> Vec<String> {
        line.split_whitespace().map(str::to_owned).collect()
    }

    /// What the reader of the output meets: a disk that is full, a pipe that is closed.
    struct Broken(io::ErrorKind);

    impl Write for Broken {
        fn write(&mut self, _: &[u8]) -> io::Result<usize> {
            Err(self.0.into())
        }

        fn flush(&mut self) -> io::Result<()> {
            Ok(())
        }
    }

    /// A program whose output is not taken whole has no status of its own, and of a closed pipe nothing is said.
    pub fn not_to_the_end<A>(run: impl Fn(&mut dyn Write) -> Result<A, Trouble>) {
        let trouble = |kind| run(&mut Broken(kind)).err().expect("output that is not taken");
        assert_eq!(trouble(io::ErrorKind::BrokenPipe), Trouble { status: 2, message: None });
        let Trouble { status, message } = trouble(io::ErrorKind::StorageFull);
        assert!(status == 2 && message.is_some_and(|message| message.starts_with("cannot write: ")));
    }
}
