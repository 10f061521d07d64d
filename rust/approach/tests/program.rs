//! The printing program, `target/bin/approach_sheet`, against the lines that the reference prints for the same bytes.
use inputs::{Line, Random, EXAMPLE};
use reference::approach::printed;
use std::io::Write;
use std::process::{Command, Stdio};

const PROGRAM: &str = concat!(env!("CARGO_MANIFEST_DIR"), "/../../target/bin/approach_sheet");

/// The largest sheet has 512 stretches and 64 signals.
const LARGEST: usize = 20 + 6 * 512 + 6 * 64;

/// What it prints for bytes on its standard input.
fn prints(sheet: &[u8]) -> String {
    let mut program =
        Command::new(PROGRAM).stdin(Stdio::piped()).stdout(Stdio::piped()).spawn().expect("make test builds it");
    // It may stop reading before the end, at one byte more than the largest sheet has.
    let _ = program.stdin.take().expect("piped").write_all(sheet);
    let output = program.wait_with_output().expect("its output");
    assert!(output.status.success(), "{}", output.status);
    String::from_utf8(output.stdout).expect("text")
}

fn check(sheet: &[u8]) -> String {
    let lines = prints(sheet);
    assert_eq!(lines, printed(sheet), "{sheet:?}");
    lines
}

#[test]
fn the_example() {
    assert_eq!(check(&EXAMPLE), "0 37 37 release 4920 5040 5340\n1 0 90 curve 11280 11400 11700\n");
}

/// Too short, too long and broken.
#[test]
fn bad_sheets() {
    let longer = [&EXAMPLE[..], &[0]].concat();
    let mut broken = EXAMPLE;
    broken[0] = 0;
    for sheet in [&EXAMPLE[..37], &longer, &broken, &[], &[0; LARGEST], &[0; 100_000]] {
        assert_eq!(check(sheet), "refused 7\n");
    }
}

fn level(stretches: u32, signals: u32) -> Vec<u8> {
    let line = Line {
        starts: (0..stretches).map(|number| 5 * number).collect(),
        gradients: vec![0; stretches as usize],
        places: (0..signals).map(|number| 40 * number).collect(),
        overlaps: (0..signals).map(|number| 3 * number as u16).collect(),
        end: 3000,
    };
    line.written()
}

#[test]
fn without_signals() {
    assert_eq!(check(&level(3, 0)), "");
}

/// The largest sheet is read whole; with a byte more it is none.
#[test]
fn the_largest_sheet() {
    let largest = level(512, 64);
    assert_eq!(largest.len(), LARGEST);
    assert_eq!(check(&largest).lines().count(), 64);
    assert_eq!(check(&[&largest[..], &[0]].concat()), "refused 7\n");
}

/// Down -35 the train can brake to a stop, and not to the release speed that it has there, its wagons still on the fall.
#[test]
fn a_refused_signal() {
    let line = Line {
        starts: vec![0, 1000],
        gradients: vec![-35, 0],
        places: vec![1000, 1500],
        overlaps: vec![120, 0],
        end: 2000,
    };
    let lines = check(&line.written());
    assert!(lines.starts_with("0 refused 10\n1 0 "), "{lines}");
}

#[test]
fn lines_at_random() {
    let mut random = Random(81);
    let mut signals = 0;
    for _ in 0..100 {
        signals += check(&random.short_line().written()).lines().count();
    }
    assert!(signals > 150, "{signals}");
}
