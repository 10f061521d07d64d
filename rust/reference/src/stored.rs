//! Card 6's table: three ceilings for each permitted speed of 0 to 330 km/h, as numbers to be looked up.

use crate::ceilings::ceilings;
use crate::train::TOP_SPAN;

const HEAD: &str = "\
// The ceilings for W, SBI and EBI of each permitted speed of 0 to 330 km/h, by speed, in 120ths of a km/h. Document 02, Card 6.
// Written by `make ceilings` with what the Rust reference prints, not by hand.
";

/// W, SBI and EBI of each permitted speed, from 0 km/h on.
pub fn stored() -> Vec<[u32; 3]> {
    (0..=TOP_SPAN).map(|v| ceilings(v).expect("a permitted speed")).collect()
}

/// The three that the table has for a permitted speed, or the refusal's number.
pub fn looked_up(table: &[[u32; 3]], permitted: u32) -> Result<[u32; 3], u32> {
    let row = usize::try_from(permitted).expect("a place");
    table.get(row).copied().ok_or(3)
}

/// The library's source file with these numbers, as `rt fmt` lays it out: a comment ends its line, so the speed stands behind its first
/// number, and the other two begin the next line.
pub fn source() -> String {
    let table = stored();
    let rows = (0..).zip(&table).map(|(v, [w, sbi, ebi])| format!("{w}, // {v} km/h\n    {sbi}, {ebi},"));
    let lines = rows.collect::<Vec<_>>().join(" ");
    format!("{HEAD}pub const CEILINGS: [u16; {}] = [\n    {lines}\n];\n", 3 * table.len())
}
