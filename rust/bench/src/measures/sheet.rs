//! The check of a largest line sheet, with the read of its last signal.
use super::timing::{compared, mixed, way};
use approach::raw::{self, Signal};
use bench::plain::sheet;
use inputs::Random;

const SHEETS: usize = 200;
const STRETCHES: u32 = 512;
const SIGNALS: u32 = 64;

fn signal(s: Signal) -> u64 {
    mixed([s.refusal, s.place, s.overlap])
}

pub fn measure() {
    let mut random = Random(31);
    let sheets: Vec<Vec<u8>> = (0..SHEETS).map(|_| random.line(STRETCHES, SIGNALS).written()).collect();
    let proved = way(|s: &Vec<u8>| signal(raw::sheet_signal(s, SIGNALS - 1)));
    // the library's plan for a check is the plain one
    let peer = || way(|s: &Vec<u8>| signal(sheet::signal(s, SIGNALS - 1)));
    compared("sheet check, 512 and 64", &sheets, 1.0, &[proved, peer(), peer()]);
}
