//! The library's ramp answers against the reference and document 000's printed tables.
use approach::Inertia;
use checked::Run;
use inputs::Random;
use reference::allegato::{cells, Cell, DEAD_TIME, MISPRINTS};
use reference::ramp::ALLOWANCE;

#[path = "checked/ramp.rs"]
mod checked;

/// Half a metre, by which a printed whole metre may be off the exact distance.
const HALF_A_METRE: u32 = 500;

/// With the first values.
fn run(weight: u32, gradient: i32, v: u32, tm: u32, tr: u32) -> Run {
    Run { weight, gradient, v, tm, tr, inertia: Inertia::FIRST_VALUES }
}

#[test]
fn answers_at_random() {
    let mut random = Random(51);
    let mut seen = [0; 12];
    for _ in 0..130_000 {
        let (weight, gradient) = (random.braked_weight(), random.gradient());
        let (v, tm, tr) = (random.near(1, 100), random.near(0, 2000), random.near(1, 3000));
        seen[run(weight, gradient, v, tm, tr).check() as usize] += 1;
    }
    assert!(seen[0] >= 100_000, "{seen:?}");
    for refusal in [0, 1, 3, 5, 6, 10] {
        assert!(seen[refusal] > 200, "too few answers with {refusal}: {seen:?}");
    }
}

/// Each side of every threshold of the papers, and both ends of every span.
#[test]
fn answers_at_the_thresholds() {
    let mut accepted = 0;
    for weight in [40, 45, 47, 50, 100, 160, 165] {
        for gradient in [-36, -35, -34, -29, -28, -22, -21, -20, -19, -1, 0, 1, 34, 35, 36] {
            for v in [0, 1, 2, 99, 100, 101] {
                for (tm, tr) in [(0, 1), (0, 3000), (200, 400), (2000, 1), (2000, 3000), (2001, 1), (0, 0), (0, 3001)] {
                    accepted += (run(weight, gradient, v, tm, tr).check() == 0) as u32;
                }
            }
        }
    }
    assert!(accepted > 500, "{accepted}");
}

/// A speed and a higher one, mostly the next.
fn two_speeds(random: &mut Random) -> (u32, u32) {
    let v = 1 + random.below(99) as u32;
    (v, if random.below(4) == 0 { v + 1 + random.below(u64::from(100 - v)) as u32 } else { v + 1 })
}

#[test]
fn faster_runs_go_farther() {
    let mut random = Random(52);
    let mut pairs = 0;
    for _ in 0..30_000 {
        let (weight, gradient) = (random.braked_weight(), random.gradient());
        let (tm, tr) = (random.near(0, 2000), random.near(1, 3000));
        let (v, faster) = two_speeds(&mut random);
        pairs += run(weight, gradient, v, tm, tr).check_faster(faster) as u32;
    }
    assert!(pairs >= 20_000, "{pairs}");
}

/// Document 01's figures, in the ranges of document 02's Card 13.
#[test]
fn figures() {
    for ((gradient, v, tm, tr), range) in
        [((0, 36, 200, 400), 110_850..=110_851), ((0, 1, 0, 3000), 903..=904), ((35, 1, 2000, 1), 125..=126)]
    {
        let (distance, _) = run(100, gradient, v, tm, tr).answer().expect("an accepted input");
        assert!(range.contains(&distance), "V {v}, i {gradient}: {distance}");
    }
}

/// Whether a cell is the library's distance, to half a metre. A rise time that ends on half a hundredth lies between two
/// that the library takes, and its distance between theirs.
fn agrees(cell: Cell) -> bool {
    let (lower, upper) = cell.rise_hundredths();
    let stop = |tr| run(cell.braked_weight, cell.gradient, cell.v, DEAD_TIME, tr).answer();
    let distance = |tr| stop(tr).expect("an accepted cell").0;
    let printed = 1000 * cell.metres;
    printed <= distance(upper) + HALF_A_METRE && distance(lower) < printed + HALF_A_METRE + ALLOWANCE
}

#[test]
fn printed_tables() {
    let cells = cells();
    assert_eq!(cells.len(), 3120);
    let misprinted = |cell: &Cell| MISPRINTS.iter().any(|misprint| misprint.cell == *cell);
    for cell in cells.into_iter().filter(|cell| !misprinted(cell)) {
        assert!(agrees(cell), "{cell:?}");
    }
    for misprint in &MISPRINTS {
        assert!(agrees(Cell { metres: misprint.wanted, ..misprint.cell }), "{misprint:?}");
    }
    // The first is off by 3 mm, less than half a hundredth of its rise time makes; the reference has that exactly.
    for misprint in &MISPRINTS[1..] {
        assert!(!agrees(misprint.cell), "{misprint:?}");
    }
}
