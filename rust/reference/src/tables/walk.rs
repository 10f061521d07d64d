//! Card 3's table: walks from a signal back to the tail, each at every step and at steps past its end.

use super::{written, Lines, SHEET_BYTES};
use crate::walk::{back, Step};

/// Of the second stretch: the one is the least of every walk that comes there, the other of none that goes on from there.
const GRADIENTS: [i16; 2] = [-35, 15];

/// The place of signal 1, length, signal and head. The other signals are at 0, 2,550 and 5,999 m, starts at 0, 300,
/// 1,200, 1,201, 2,500, 2,600, 4,000 and 5,200 m; tails, and signal 1, lie on a start, 1 m before and 1 m behind it. The
/// last two are no sheets.
const WALKS: [(u32, u32, u32, u32); 42] = [
    (700, 0, 0, 0),
    (700, 0, 1, 299),
    (700, 0, 1, 300),
    (700, 0, 1, 700),
    (700, 0, 1, 701),
    (700, 0, 2, 1200),
    (700, 0, 2, 1201),
    (700, 0, 3, 0),
    (700, 0, 3, 5999),
    (700, 0, 4, 0),
    (700, 1, 0, 0),
    (700, 1, 0, 1),
    (700, 1, 1, 300),
    (700, 1, 1, 301),
    (700, 1, 2, 1200),
    (700, 1, 2, 1202),
    (700, 1, 2, 2550),
    (700, 1, 3, 5200),
    (700, 1, 3, 5201),
    (700, 600, 1, 250),
    (700, 600, 1, 700),
    (700, 600, 2, 1799),
    (700, 600, 2, 1800),
    (700, 600, 2, 1801),
    (700, 600, 3, 899),
    (700, 600, 3, 4600),
    (700, 1000, 1, 700),
    (700, 1000, 2, 2200),
    (700, 1000, 3, 1001),
    (700, 1000, 3, 1300),
    (700, 1000, 3, 5999),
    (700, 1000, 4, 4_294_967_295),
    (700, 1001, 1, 701),
    (700, 1001, 4, 0),
    (299, 0, 1, 299),
    (300, 0, 1, 300),
    (301, 1, 1, 301),
    (1199, 1, 1, 1199),
    (1200, 0, 1, 1200),
    (1200, 1000, 1, 1200),
    (6000, 600, 1, 250),
    (6000, 1001, 1, 250),
];

const STEPS: [u32; 10] = [0, 1, 2, 3, 4, 5, 6, 7, 65_536, 4_294_967_295];

/// What the lines of every step have behind their inputs.
pub(super) const STEP_ANSWER: &str = " = refusal end stretch i least least_stretch\n";

/// Whether it is past the end, and the step's stretch, gradient, least and the stretch that has it.
pub(super) fn stepped(sheet: &[u8], length: u32, signal: u32, head: u32, step: u32) -> Result<[i64; 5], u32> {
    Ok(match back(sheet, signal, head, length, step)? {
        Some(Step { stretch, gradient, least, least_stretch }) => {
            [0, stretch.into(), gradient.into(), least.into(), least_stretch.into()]
        }
        None => [1, 0, 0, 0, 0],
    })
}

fn back_lines(lines: &mut Lines, (place, length, signal, head): (u32, u32, u32, u32), gradient: i16) {
    // Where nothing is written, zeros stay.
    let sheet = written(300, gradient, place, 15, 6000).unwrap_or(vec![0; SHEET_BYTES]);
    for step in STEPS {
        lines.word("back").fields([place, length]).fields([gradient]).fields([signal, head, step]);
        lines.word(" =").answer(stepped(&sheet, length, signal, head, step)).word("\n");
    }
}

pub fn back_table(lines: &mut Lines) {
    lines.word("# back place L i signal head step").word(STEP_ANSWER);
    for walk in WALKS {
        GRADIENTS.iter().for_each(|&gradient| back_lines(lines, walk, gradient));
    }
}
