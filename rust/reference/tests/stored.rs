//! The library's stored ceilings, which the reference printed, made anew.

use reference::ceilings::ceilings;
use reference::stored::{looked_up, source, stored};

const STORED: &str = include_str!("../../../crates/ceilings_stored/src/table.rt");

/// The numbers between the brackets, whatever stands around them.
fn numbers(file: &str) -> Vec<u32> {
    let code: String = file.lines().filter_map(|line| line.split("//").next()).collect();
    let list = code.split_once(" = [").and_then(|(_, list)| list.split_once("];")).expect("a list").0;
    list.split(',').map(str::trim).filter(|word| !word.is_empty()).map(|word| word.parse().expect(word)).collect()
}

#[test]
fn numbers_in_the_source() {
    let numbers = numbers(STORED);
    assert_eq!(numbers.len(), 993);
    for (v, row) in (0..).zip(numbers.chunks(3)) {
        assert_eq!(Ok(row), ceilings(v).as_ref().map(|row| &row[..]), "{v} km/h");
    }
}

/// Comments and layout too: the command that writes the file leaves it as it is.
#[test]
fn source_as_written() {
    for (number, (line, stored)) in (1..).zip(source().lines().zip(STORED.lines())) {
        assert_eq!(line, stored, "line {number}");
    }
    assert_eq!(source().len(), STORED.len());
}

#[test]
fn every_entry_looked_up() {
    let table = stored();
    for permitted in (0..=1000).chain([u32::MAX - 1, u32::MAX]) {
        assert_eq!(looked_up(&table, permitted), ceilings(permitted), "permitted {permitted}");
    }
}
