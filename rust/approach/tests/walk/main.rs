//! Document 02, Card 3: every step of a walk from a signal back to the tail against the reference, and its end.
use approach::StepBack;
use inputs::{beside, Beside, Found, Line, Random, Walked};

mod ahead;
mod refusals;

/// What a walk may look like: each has to be seen.
#[derive(Clone, Copy, Debug, PartialEq, Eq, PartialOrd, Ord)]
enum Kind {
    Signal(Beside),
    /// With a train of so many metres.
    Tail(Beside, u32),
    Length(u32),
    HeadAtTheSignal,
    /// The train is longer than the line behind its head.
    TailAtZero,
    OneStep,
    /// Of a line of several.
    AllStretches,
    All512,
    /// The least gradient is that of the first step, the last one, or one between.
    LeastAtTheSignal,
    LeastAtTheTail,
    LeastBetween,
}

const LENGTHS: [u32; 4] = [0, 1, 600, 1000];

fn kinds(w: &Walked, steps: &[StepBack]) -> impl Iterator<Item = Kind> {
    let ((place, tail), starts) = (w.ends(), &w.line.starts);
    let of_length = LENGTHS.into_iter().find(|&length| length == w.length);
    let last = steps.len() - 1;
    let least = match steps.iter().position(|step| step.gradient == steps[last].least) {
        Some(0) => Kind::LeastAtTheSignal,
        Some(step) if step == last => Kind::LeastAtTheTail,
        _ => Kind::LeastBetween,
    };
    [
        beside(starts, place).map(Kind::Signal),
        beside(starts, tail).zip(of_length).map(|(beside, length)| Kind::Tail(beside, length)),
        of_length.map(Kind::Length),
        (w.head == place).then_some(Kind::HeadAtTheSignal),
        (w.length > w.head).then_some(Kind::TailAtZero),
        (last == 0).then_some(Kind::OneStep),
        (steps.len() == starts.len() && last > 0).then_some(Kind::AllStretches),
        (steps.len() == 512).then_some(Kind::All512),
        Some(least),
    ]
    .into_iter()
    .flatten()
}

#[test]
fn walks_at_random() {
    let mut random = Random(101);
    let (mut found, mut all) = (Found::none(), 0);
    for _ in 0..20_000 {
        let w = random.walk();
        let steps = w.check();
        all += steps.len();
        kinds(&w, &steps).for_each(|kind| found.note(kind));
    }
    assert!(all > 400_000, "{all} steps");
    found.hold(3 + 3 * LENGTHS.len() + LENGTHS.len() + 8, 100);
}

/// A line of each number of stretches from its last metre to its first.
#[test]
fn whole_lines() {
    let mut random = Random(102);
    for stretches in 1..=512 {
        let Line { starts, gradients, end, .. } = random.line(stretches, 0);
        let line = Line { starts, gradients, places: vec![end - 1], overlaps: vec![0], end };
        let w = Walked { sheet: line.written(), line, signal: 0, head: 0, length: 0 };
        assert_eq!(w.check().len(), stretches as usize);
    }
}

/// Said without the reference: a fall between two rises, with the tail before, on and behind its start, and with the signal so.
#[test]
fn which_stretches_are_steps() {
    let line = |place| Line {
        starts: vec![0, 400, 900],
        gradients: vec![5, -8, 3],
        places: vec![place],
        overlaps: vec![0],
        end: 2000,
    };
    let numbers = |place, head, length| {
        let w = Walked { sheet: line(place).written(), line: line(place), signal: 0, head, length };
        w.check().iter().map(|step| (step.stretch, step.least.0)).collect::<Vec<_>>()
    };
    for length in LENGTHS.into_iter().filter(|&length| length <= 600) {
        assert_eq!(numbers(1000, 399 + length, length), [(2, 3), (1, -8), (0, -8)], "{length} m");
        assert_eq!(numbers(1000, 400 + length, length), [(2, 3), (1, -8)], "{length} m");
    }
    assert_eq!(numbers(1000, 900, 0), [(2, 3)]);
    assert_eq!(numbers(900, 900, 0), [(2, 3)]);
    assert_eq!(numbers(899, 899, 0), [(1, -8)]);
    assert_eq!(numbers(399, 399, 1000), [(0, 5)]);
}
