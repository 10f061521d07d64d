//! What the program `tables` has to print: a line for each input of a grid over every operation, inputs before the `=` and
//! the answer behind it. A refusal is its number, with zeros beside it.

use crate::approach::{approach, Answer};
use crate::ceilings::ceilings;
use crate::coefficients::FIRST_VALUES;
use crate::ramp::{ramp, Stop};
use crate::sheet::{next, signal, stretch, write, Signal, Stretch};
use crate::step::{row, step, Curve, CURVES};
use crate::stored::{looked_up, stored};
use crate::train::Train;
use std::fmt::Display;

mod own;
mod tie;
mod walk;

/// Whether freight, and whether the electropneumatic brake works.
const KINDS: [(bool, bool); 4] = [(false, true), (true, true), (false, false), (true, false)];
const BRAKED_WEIGHTS: [u32; 3] = [45, 100, 160];
const LENGTHS: [u32; 5] = [0, 200, 953, 954, 1000];
const GRADIENTS: [i32; 14] = [-35, -29, -28, -22, -21, -20, -19, -18, -17, -1, 0, 1, 10, 35];
/// V and V0.
const SPEEDS: [(u32, u32); 15] = [
    (0, 0),
    (1, 0),
    (1, 1),
    (2, 1),
    (30, 0),
    (30, 30),
    (90, 0),
    (90, 25),
    (90, 90),
    (150, 60),
    (151, 60),
    (330, 0),
    (330, 330),
    (50, 51),
    (331, 0),
];
const CREEPS: [u32; 12] = [0, 1, 2, 5, 10, 20, 36, 50, 75, 99, 100, 101];
/// TM and TR.
const TIMES: [(u32, u32); 6] = [(200, 400), (2000, 3000), (0, 1), (0, 3000), (2000, 1), (2001, 400)];
/// BW, gradient, TM and TR of the runs told at every speed, where Card 13's growth with the speed can be read off.
const FULL_CLIMBS: [(u32, i32, u32, u32); 3] = [(100, 0, 200, 400), (45, -28, 2000, 3000), (160, 35, 2000, 1)];

const ROW_TARGETS: [u32; 2] = [0, 60];
const ROW_GRADIENTS: [i32; 3] = [-20, 0, 10];
const ROW_PLACES: usize = 331;

/// Of a sheet's second stretch and second signal, and its line end.
const STARTS: [u32; 4] = [0, 1, 300, 1200];
const SHEET_GRADIENTS: [i16; 5] = [-36, -35, -12, 15, 36];
const PLACES: [u32; 3] = [0, 700, 2549];
const OVERLAPS: [u16; 4] = [0, 15, 300, 5400];
const ENDS: [u32; 2] = [6000, 500_000];
const SHEET_BYTES: usize = 92;

const QUERY_GRADIENTS: [i16; 3] = [-35, -12, 15];
const QUERY_OVERLAPS: [u16; 3] = [0, 15, 300];
const HEADS: [u32; 4] = [0, 250, 700, 2500];
const TOP_SPEEDS: [u32; 2] = [60, 330];

/// Card 2's own table: starts of a sheet of three stretches with one signal.
const TAIL_STARTS: [u32; 3] = [0, 300, 1200];
const TAIL_LENGTHS: [u32; 5] = [0, 1, 600, 1000, 1001];
/// Of the second stretch; the others are level.
const TAIL_GRADIENTS: [i16; 4] = [-35, -12, 1, 15];
const TAIL_OVERLAPS: [u16; 2] = [0, 15];
/// From head to signal.
const TAIL_WAY: u32 = 250;
const HEADS_FROM_0: [u32; 2] = [0, 250];
/// On, 1 m before and 1 m behind a start is then the tail, or the tail of the train with its head at the signal.
const HEADS_FROM_L: [u32; 12] = [49, 50, 51, 299, 300, 301, 949, 950, 951, 1199, 1200, 1201];

/// What the lines of every approach query have behind their inputs.
const QUERY_ANSWER: &str = " = refusal release permitted mark W SBI EBI overlap_stretch ahead_stretch\n";
/// Card 4: told for the overlap's stretch where the overlap has no length.
const NO_STRETCH: u32 = 65_535;

/// The lines so far.
struct Lines(String);

impl Lines {
    fn word(&mut self, word: &str) -> &mut Lines {
        self.0.push_str(word);
        self
    }

    /// Each behind a space.
    fn fields<N: Display>(&mut self, numbers: impl IntoIterator<Item = N>) -> &mut Lines {
        for number in numbers {
            self.0.push(' ');
            self.0.push_str(&number.to_string());
        }
        self
    }

    fn train(&mut self, train: Train) -> &mut Lines {
        let Train { freight, electropneumatic, braked_weight, length, top_speed, .. } = train;
        self.fields([freight.into(), electropneumatic.into(), braked_weight, length, top_speed])
    }

    /// The number 0 and the fields, or the refusal's number and as many zeros.
    fn answer<const N: usize>(&mut self, answer: Result<[i64; N], u32>) -> &mut Lines {
        match answer {
            Ok(fields) => self.fields([0]).fields(fields),
            Err(refusal) => self.fields([refusal]).fields([0; N]),
        }
    }
}

fn trains(braked_weight: u32, length: u32, top_speed: u32) -> [Train; 4] {
    let coefficients = FIRST_VALUES;
    KINDS.map(|(freight, electropneumatic)| Train {
        freight,
        electropneumatic,
        braked_weight,
        length,
        top_speed,
        coefficients,
    })
}

fn ceilings_table(lines: &mut Lines) {
    lines.word("# ceilings V = refusal W SBI EBI\n");
    for v in 0..=331 {
        let answer = ceilings(v).map(|ceilings| ceilings.map(i64::from));
        lines.word("ceilings").fields([v]).word(" =").answer(answer).word("\n");
    }
}

/// Card 6's second way, from the stored numbers alone.
fn stored_table(lines: &mut Lines) {
    lines.word("# stored V = refusal W SBI EBI\n");
    let table = stored();
    for v in 0..=331 {
        let answer = looked_up(&table, v).map(|ceilings| ceilings.map(i64::from));
        lines.word("stored").fields([v]).word(" =").answer(answer).word("\n");
    }
}

fn step_lines(lines: &mut Lines, train: Train) {
    for gradient in GRADIENTS {
        for (v, v0) in SPEEDS {
            let answer = step(train, v, v0, gradient).map(|distances| distances.map(i64::from));
            lines.word("step").train(train).fields([v, v0]).fields([gradient]).word(" =").answer(answer).word("\n");
        }
    }
}

fn step_table(lines: &mut Lines) {
    lines.word("# step freight EP BW L top V V0 i = refusal EBI SBI W P\n");
    for kind in 0..KINDS.len() {
        for braked_weight in BRAKED_WEIGHTS {
            for length in LENGTHS {
                step_lines(lines, trains(braked_weight, length, 160)[kind]);
            }
        }
    }
}

/// The refusal and the length, and a lent list of so many zeros after the row is written to it.
fn lent_row(curve: Curve, train: Train, v0: u32, gradient: i32, places: usize) -> (Result<[i64; 1], u32>, Vec<u32>) {
    let mut lent = vec![0; places];
    let written = row(curve, train, v0, gradient, places).map(|row| {
        lent[..row.len()].copy_from_slice(&row);
        [row.len() as i64]
    });
    (written, lent)
}

fn row_line(lines: &mut Lines, curve: Curve, train: Train, v0: u32, gradient: i32) {
    let (written, lent) = lent_row(curve, train, v0, gradient, ROW_PLACES);
    lines.word("row").fields([curve as u32]).train(train).fields([v0]).fields([gradient]);
    lines.word(" =").answer(written).fields(lent).word(
        "
",
    );
}

fn row_table(lines: &mut Lines) {
    lines.word("# row curve freight EP BW L top V0 i = refusal length distances\n");
    for train in trains(100, 954, 330) {
        for gradient in ROW_GRADIENTS {
            for v0 in ROW_TARGETS {
                for curve in CURVES {
                    row_line(lines, curve, train, v0, gradient);
                }
            }
        }
    }
}

fn ramp_line(lines: &mut Lines, braked_weight: u32, gradient: i32, v: u32, (tm, tr): (u32, u32)) {
    let stop = ramp(braked_weight, gradient, v, tm, tr, FIRST_VALUES.inertia);
    let answer = stop.map(|Stop { distance, moment }| [distance, moment].map(i64::from));
    lines.word("ramp").fields([braked_weight]).fields([gradient]).fields([v, tm, tr]);
    lines.word(" =").answer(answer).word("\n");
}

fn ramp_table(lines: &mut Lines) {
    lines.word("# ramp BW i V TM TR = refusal distance moment\n");
    for braked_weight in BRAKED_WEIGHTS {
        for gradient in GRADIENTS {
            for v in CREEPS {
                TIMES.iter().for_each(|&times| ramp_line(lines, braked_weight, gradient, v, times));
            }
        }
    }
    for (braked_weight, gradient, tm, tr) in FULL_CLIMBS {
        // One speed past each end of the span.
        for v in 0..=101 {
            ramp_line(lines, braked_weight, gradient, v, (tm, tr));
        }
    }
}

/// A sheet of eight stretches and four signals, in the bytes that it needs.
fn written(start: u32, gradient: i16, place: u32, overlap: u16, end: u32) -> Result<Vec<u8>, u32> {
    let starts = [0, start, 1200, 1201, 2500, 2600, 4000, 5200];
    let gradients = [0, gradient, 20, -20, 3, -21, -9, 7];
    let places = [0, place, 2550, 5999];
    let overlaps = [120, overlap, 800, 1];
    write(&starts, &gradients, &places, &overlaps, end, SHEET_BYTES)
}

fn read_stretch(lent: &[u8], number: u32) -> Result<[i64; 2], u32> {
    let Stretch { start, gradient } = stretch(lent, number)?;
    Ok([start.into(), gradient.into()])
}

fn read_signal(lent: &[u8], number: u32) -> Result<[i64; 2], u32> {
    let Signal { place, overlap } = signal(lent, number)?;
    Ok([place.into(), overlap.into()])
}

/// Whether it is at the end, start, gradient, and the mark for the next move.
fn moved(lent: &[u8], mark: u32) -> Result<[i64; 4], u32> {
    Ok(match next(lent, mark)? {
        Some(Stretch { start, gradient }) => [0, start.into(), gradient.into(), i64::from(mark) + 1],
        None => [1, 0, 0, mark.into()],
    })
}

/// Every read of one sheet, for numbers up to one past its last stretch.
fn sheet_lines(lines: &mut Lines, start: u32, gradient: i16, place: u32, overlap: u16, end: u32) {
    let written = written(start, gradient, place, overlap, end);
    // Where nothing is written, zeros stay.
    let lent = written.clone().unwrap_or(vec![0; SHEET_BYTES]);
    for number in 0..9 {
        lines.word("sheet").fields([start]).fields([gradient]).fields([place, overlap.into(), end, number]);
        lines.word(" =").answer(written.as_ref().map(|sheet| [sheet.len() as i64]).map_err(|&refusal| refusal));
        lines.word(" ;").answer(read_stretch(&lent, number));
        lines.word(" ;").answer(read_signal(&lent, number));
        lines.word(" ;").answer(moved(&lent, number)).word("\n");
    }
}

fn sheet_table(lines: &mut Lines) {
    lines.word("# sheet start i place overlap end number = refusal length ; refusal start i ; refusal place overlap");
    lines.word(" ; refusal end start i next\n");
    for end in ENDS {
        for (overlap, place) in OVERLAPS.into_iter().flat_map(|overlap| PLACES.map(|place| (overlap, place))) {
            for gradient in SHEET_GRADIENTS {
                for start in STARTS {
                    sheet_lines(lines, start, gradient, place, overlap, end);
                }
            }
        }
    }
}

/// Release, permitted, mark, the W, SBI and EBI ceilings, and the stretches that govern the overlap and the way ahead.
fn queried(train: Train, (tm, tr): (u32, u32), sheet: &[u8], signal: u32, head: u32) -> Result<[i64; 8], u32> {
    let answer = approach(train, tm, tr, sheet, signal, head)?;
    let Answer { release, permitted, mark, ceilings: [w, sbi, ebi], overlap_stretch, ahead_stretch } = answer;
    let overlap_stretch = overlap_stretch.unwrap_or(NO_STRETCH);
    Ok([release, permitted, mark as u32, w, sbi, ebi, overlap_stretch, ahead_stretch].map(i64::from))
}

/// Every signal of one sheet, and one past the last, from each head.
fn query_lines(lines: &mut Lines, train: Train, (tm, tr): (u32, u32), overlap: u16, gradient: i16) {
    let sheet = written(300, gradient, 700, overlap, 6000).expect("a sheet that keeps its rules");
    for head in HEADS {
        for signal in 0..5 {
            let answer = queried(train, (tm, tr), &sheet, signal, head);
            lines.word("query").train(train).fields([tm, tr]).fields([gradient]);
            lines.fields([overlap.into(), signal, head]).word(" =").answer(answer).word("\n");
        }
    }
}

fn query_table(lines: &mut Lines) {
    lines.word("# query freight EP BW L top TM TR i overlap signal head").word(QUERY_ANSWER);
    for top_speed in TOP_SPEEDS {
        for train in BRAKED_WEIGHTS.into_iter().flat_map(|braked_weight| trains(braked_weight, 600, top_speed)) {
            for (times, overlap) in TIMES[..2].iter().flat_map(|times| QUERY_OVERLAPS.map(|overlap| (times, overlap))) {
                for gradient in QUERY_GRADIENTS {
                    query_lines(lines, train, *times, overlap, gradient);
                }
            }
        }
    }
}

fn tail_line(lines: &mut Lines, length: u32, gradient: i16, overlap: u16, head: u32) {
    let [train, ..] = trains(100, length, 330);
    let sheet = write(&TAIL_STARTS, &[0, gradient, 0], &[head + TAIL_WAY], &[overlap], 6000, SHEET_BYTES);
    let answer = queried(train, TIMES[0], &sheet.expect("a sheet that keeps its rules"), 0, head);
    lines.word("tail").fields([length]).fields([gradient]).fields([overlap.into(), head]);
    lines.word(" =").answer(answer).word("\n");
}

fn tail_table(lines: &mut Lines) {
    lines.word("# tail L i overlap head").word(QUERY_ANSWER);
    for length in TAIL_LENGTHS {
        for gradient in TAIL_GRADIENTS {
            for overlap in TAIL_OVERLAPS {
                let heads = HEADS_FROM_0.into_iter().chain(HEADS_FROM_L.map(|place| length + place));
                heads.for_each(|head| tail_line(lines, length, gradient, overlap, head));
            }
        }
    }
}

/// All tables, in the program's order.
pub fn printed() -> String {
    let mut lines = Lines(String::new());
    ceilings_table(&mut lines);
    stored_table(&mut lines);
    step_table(&mut lines);
    row_table(&mut lines);
    ramp_table(&mut lines);
    sheet_table(&mut lines);
    query_table(&mut lines);
    tail_table(&mut lines);
    own::step_table(&mut lines);
    own::row_table(&mut lines);
    own::ramp_table(&mut lines);
    own::query_table(&mut lines);
    walk::back_table(&mut lines);
    tie::tie_table(&mut lines);
    tie::tie_back_table(&mut lines);
    lines.0
}
