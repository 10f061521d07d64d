//! Card 5's tables: one train with coefficients of its own, at the ends of their spans and one past each.

use super::{lent_row, queried, Lines, QUERY_ANSWER, TIMES};
use crate::coefficients::{Coefficients, Inertia, FIRST_VALUES};
use crate::ramp::{ramp, Stop};
use crate::sheet::write;
use crate::step::{step, Curve};
use crate::train::{Train, EP};

const TRAIN: Train = Train { electropneumatic: false, length: 600, top_speed: 330, ..EP };

const SETS: [Coefficients; 25] = [
    FIRST_VALUES,
    brake(0, 0, 150, 0, 10, 0),
    brake(200, 50, 30, 10, -10, 0),
    brake(130, 10, 57, 5, -2, 100),
    brake(130, 10, 150, 10, -10, 150),
    brake(201, 10, 57, 5, 0, 150),
    brake(130, 51, 57, 5, 0, 150),
    brake(130, 10, 29, 5, 0, 150),
    brake(130, 10, 151, 5, 0, 150),
    brake(130, 10, 57, 11, 0, 150),
    brake(130, 10, 57, 5, -11, 150),
    brake(130, 10, 57, 5, 11, 150),
    brake(130, 10, 57, 5, 0, 405),
    brake(130, 10, 57, 5, 0, 152),
    Coefficients { inertia: slopes(0, 0, 0, 0, 0).inertia, ..brake(0, 0, 0, 0, 0, 0) },
    slopes(80, 80, 80, 0, 0),
    slopes(120, 120, 120, 35, -35),
    slopes(80, 120, 80, 10, -10),
    slopes(120, 80, 120, 0, -10),
    slopes(79, 100, 110, 0, -21),
    slopes(90, 121, 110, 0, -21),
    slopes(90, 100, 79, 0, -21),
    slopes(90, 100, 110, 36, -21),
    slopes(90, 100, 110, 0, -36),
    slopes(90, 100, 110, 0, 1),
];
/// From this set on the inertia is not the first.
const FIRST_OWN_INERTIA: usize = 14;

const GRADIENTS: [i32; 6] = [-21, -10, 0, 10, 11, 36];
/// V and V0.
const SPEEDS: [(u32, u32); 5] = [(0, 0), (90, 0), (151, 100), (330, 60), (50, 51)];
const CREEPS: [u32; 3] = [1, 60, 101];

const ROW_TOP_SPEED: u32 = 160;
const ROW_TARGET: u32 = 60;
const ROW_GRADIENTS: [i32; 2] = [-10, 0];
const ROW_PLACES: usize = 161;

const QUERY_GRADIENTS: [i16; 4] = [-21, -10, 0, 11];
const QUERY_OVERLAPS: [u16; 2] = [0, 15];
const HEADS: [u32; 2] = [0, 4600];
const SIGNAL_PLACE: u32 = 5000;
const LINE_END: u32 = 6000;
const SHEET_BYTES: usize = 32;

/// Dt, h, Kr, cr, nC and VC of a train's own, the rest the first.
const fn brake(dt: u32, h: u32, kr: u32, cr: u32, nc: i32, vc: u32) -> Coefficients {
    Coefficients { dt, h, kr, cr, nc, vc, ..FIRST_VALUES }
}

/// Ki1, Ki2, Ki3, i1 and i2 of a train's own, the rest the first.
const fn slopes(ki1: u32, ki2: u32, ki3: u32, i1: u32, i2: i32) -> Coefficients {
    Coefficients { inertia: Inertia { ki1, ki2, ki3, i1, i2 }, ..FIRST_VALUES }
}

fn trains(top_speed: u32) -> impl Iterator<Item = Train> {
    SETS.into_iter().map(move |coefficients| Train { top_speed, coefficients, ..TRAIN })
}

impl Lines {
    fn inertia(&mut self, inertia: Inertia) -> &mut Lines {
        let Inertia { ki1, ki2, ki3, i1, i2 } = inertia;
        self.fields([ki1, ki2, ki3, i1]).fields([i2])
    }

    fn coefficients(&mut self, coefficients: Coefficients) -> &mut Lines {
        let Coefficients { dt, h, kr, cr, nc, vc, inertia } = coefficients;
        self.fields([dt, h, kr, cr]).fields([nc]).fields([vc]).inertia(inertia)
    }
}

fn step_lines(lines: &mut Lines, train: Train, gradient: i32) {
    for (v, v0) in SPEEDS {
        let answer = step(train, v, v0, gradient).map(|distances| distances.map(i64::from));
        lines.word("own_step").coefficients(train.coefficients).fields([v, v0]).fields([gradient]);
        lines.word(" =").answer(answer).word("\n");
    }
}

pub fn step_table(lines: &mut Lines) {
    lines.word("# own_step dt h kr cr nc vc ki1 ki2 ki3 i1 i2 V V0 i = refusal EBI SBI W P\n");
    for train in trains(TRAIN.top_speed) {
        GRADIENTS.iter().for_each(|&gradient| step_lines(lines, train, gradient));
    }
}

fn row_line(lines: &mut Lines, train: Train, gradient: i32) {
    let (written, lent) = lent_row(Curve::P, train, ROW_TARGET, gradient, ROW_PLACES);
    lines.word("own_row").coefficients(train.coefficients).fields([ROW_TARGET]).fields([gradient]);
    lines.word(" =").answer(written).fields(lent).word("\n");
}

pub fn row_table(lines: &mut Lines) {
    lines.word("# own_row dt h kr cr nc vc ki1 ki2 ki3 i1 i2 V0 i = refusal length distances\n");
    for train in trains(ROW_TOP_SPEED) {
        ROW_GRADIENTS.iter().for_each(|&gradient| row_line(lines, train, gradient));
    }
}

fn ramp_lines(lines: &mut Lines, inertia: Inertia, gradient: i32) {
    let (tm, tr) = TIMES[0];
    for v in CREEPS {
        let stop = ramp(TRAIN.braked_weight, gradient, v, tm, tr, inertia);
        let answer = stop.map(|Stop { distance, moment }| [distance, moment].map(i64::from));
        lines.word("own_ramp").inertia(inertia).fields([gradient]).fields([v]).word(" =").answer(answer).word("\n");
    }
}

pub fn ramp_table(lines: &mut Lines) {
    lines.word("# own_ramp ki1 ki2 ki3 i1 i2 i V = refusal distance moment\n");
    for coefficients in &SETS[FIRST_OWN_INERTIA..] {
        GRADIENTS.iter().for_each(|&gradient| ramp_lines(lines, coefficients.inertia, gradient));
    }
}

fn query_lines(lines: &mut Lines, train: Train, gradient: i16, overlap: u16) {
    let sheet = write(&[0], &[gradient], &[SIGNAL_PLACE], &[overlap], LINE_END, SHEET_BYTES);
    let sheet = sheet.expect("a sheet that keeps its rules");
    for head in HEADS {
        let answer = queried(train, TIMES[0], &sheet, 0, head);
        lines.word("own_query").coefficients(train.coefficients).fields([gradient]).fields([overlap.into(), head]);
        lines.word(" =").answer(answer).word("\n");
    }
}

pub fn query_table(lines: &mut Lines) {
    lines.word("# own_query dt h kr cr nc vc ki1 ki2 ki3 i1 i2 i overlap head").word(QUERY_ANSWER);
    for train in trains(TRAIN.top_speed) {
        for gradient in QUERY_GRADIENTS {
            QUERY_OVERLAPS.iter().for_each(|&overlap| query_lines(lines, train, gradient, overlap));
        }
    }
}
