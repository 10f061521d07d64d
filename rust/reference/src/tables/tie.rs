//! Card 4's tables: a line whose stretches often have equal gradients, the lowest number of which governs; queries, and walks
//! from the signal.

use super::walk::{stepped, STEP_ANSWER};
use super::{queried, trains, Lines, QUERY_ANSWER, SHEET_BYTES, TIMES};
use crate::sheet::write;

const STARTS: [u32; 4] = [0, 300, 600, 900];
const FIRST_GRADIENT: i16 = 3;
/// Of the other three stretches.
const GRADIENTS: [[i16; 3]; 8] =
    [[-5, -5, -5], [-5, -5, 3], [-5, 3, -5], [-5, 3, 3], [3, -5, -5], [3, -5, 3], [3, 3, -5], [3, 3, 3]];
const SIGNAL_PLACE: u32 = 650;
const LINE_END: u32 = 6000;

const LENGTHS: [u32; 5] = [0, 1, 51, 1000, 1001];
/// None, up to the last start and 1 m past it.
const OVERLAPS: [u16; 3] = [0, 250, 251];
/// Beside a start, at the signal and 1 m beyond it.
const HEADS: [u32; 5] = [0, 299, 301, 650, 651];

/// A walk from the signal has three at most.
const STEPS: [u32; 4] = [0, 1, 2, 3];

fn sheet([i, j, k]: [i16; 3], overlap: u16) -> Vec<u8> {
    let sheet = write(&STARTS, &[FIRST_GRADIENT, i, j, k], &[SIGNAL_PLACE], &[overlap], LINE_END, SHEET_BYTES);
    sheet.expect("a sheet that keeps its rules")
}

fn tie_line(lines: &mut Lines, length: u32, [i, j, k]: [i16; 3], overlap: u16, head: u32) {
    let [train, ..] = trains(100, length, 330);
    let answer = queried(train, TIMES[0], &sheet([i, j, k], overlap), 0, head);
    lines.word("tie").fields([length]).fields([i, j, k]).fields([overlap.into(), head]);
    lines.word(" =").answer(answer).word("\n");
}

pub fn tie_table(lines: &mut Lines) {
    lines.word("# tie L i j k overlap head").word(QUERY_ANSWER);
    for length in LENGTHS {
        for gradients in GRADIENTS {
            for overlap in OVERLAPS {
                HEADS.iter().for_each(|&head| tie_line(lines, length, gradients, overlap, head));
            }
        }
    }
}

fn tie_back_line(lines: &mut Lines, length: u32, [i, j, k]: [i16; 3], head: u32, step: u32) {
    let answer = stepped(&sheet([i, j, k], OVERLAPS[0]), length, 0, head, step);
    lines.word("tie_back").fields([length]).fields([i, j, k]).fields([head, step]);
    lines.word(" =").answer(answer).word("\n");
}

/// Of the accepted lengths and heads.
pub fn tie_back_table(lines: &mut Lines) {
    lines.word("# tie_back L i j k head step").word(STEP_ANSWER);
    for length in &LENGTHS[..4] {
        for gradients in GRADIENTS {
            for head in &HEADS[..4] {
                STEPS.iter().for_each(|&step| tie_back_line(lines, *length, gradients, *head, step));
            }
        }
    }
}
