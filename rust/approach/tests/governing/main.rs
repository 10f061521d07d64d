//! Document 02, Card 4: which stretch governs, in queries and at every step of a walk, against the reference; and said without it.
use inputs::{beside, Beside, Found, Line, Query, Random, Walked};
use std::ops::RangeInclusive;

mod agreement;

/// The points that a gradient counts, from the first to the last, both included.
#[derive(Clone, Copy, Debug)]
struct Span {
    first: u32,
    last: u32,
}

impl Span {
    /// The numbers of the stretches that hold a point of it.
    fn held(self, line: &Line) -> RangeInclusive<usize> {
        line.stretch_at(self.first)..=line.stretch_at(self.last)
    }
}

/// None of these stretches falls more than the governing one, and none before it as much.
fn assert_governs(line: &Line, held: RangeInclusive<usize>, number: u32) {
    let number = number as usize;
    assert!(held.contains(&number), "{number} of {held:?}: {line:?}");
    let least = line.gradients[number];
    let governs = |other: usize| line.gradients[other] > least || line.gradients[other] == least && other >= number;
    assert!(held.clone().all(governs), "{number} of {held:?}: {line:?}");
}

/// What a span may look like: each has to be seen, of the way ahead and of the overlap.
#[derive(Clone, Copy, Debug, PartialEq, Eq, PartialOrd, Ord)]
enum Kind {
    OneStretchLine,
    /// Of a line of several.
    OneStretch,
    Of512,
    /// Several of its stretches have the least gradient; all of them have.
    Tied,
    AllTied,
    /// The stretch just outside falls as much or more, and does not count.
    LeastBefore,
    LeastBehind,
    First(Beside),
    Last(Beside),
    GovernedByTheFirst,
    GovernedByTheLast,
    GovernedBetween,
}

/// How many they are, with each side of a start and each place of the governing stretch.
const KINDS: usize = 7 + 2 * 3 + 3;

/// Of several stretches, which one it is.
fn governed(held: RangeInclusive<usize>, number: usize) -> Kind {
    match number {
        _ if number == *held.start() => Kind::GovernedByTheFirst,
        _ if number == *held.end() => Kind::GovernedByTheLast,
        _ => Kind::GovernedBetween,
    }
}

fn kinds(line: &Line, span: Span, number: u32) -> impl Iterator<Item = Kind> {
    let (held, number, all) = (span.held(line), number as usize, line.starts.len());
    let least = line.gradients[number];
    let tied = held.clone().filter(|&other| line.gradients[other] == least).count();
    let falls = |other: Option<usize>| other.and_then(|other| line.gradients.get(other)).is_some_and(|i| *i <= least);
    let several = held.clone().count() > 1;
    [
        (all == 1).then_some(Kind::OneStretchLine),
        (all > 1 && !several).then_some(Kind::OneStretch),
        (all == 512).then_some(Kind::Of512),
        (tied > 1).then_some(Kind::Tied),
        (several && tied == held.clone().count()).then_some(Kind::AllTied),
        falls(held.start().checked_sub(1)).then_some(Kind::LeastBefore),
        falls(Some(held.end() + 1)).then_some(Kind::LeastBehind),
        beside(&line.starts, span.first).map(Kind::First),
        beside(&line.starts, span.last).map(Kind::Last),
        several.then(|| governed(held.clone(), number)),
    ]
    .into_iter()
    .flatten()
}

/// How a train stands to the line, and what it makes of the two numbers.
#[derive(Clone, Copy, Debug, PartialEq, Eq, PartialOrd, Ord)]
enum Stands {
    WithoutOverlap,
    /// The train is longer than the line behind its head, or before the signal.
    TailAtZero,
    LongerThanTheWay,
    HeadAtTheSignal,
    /// One stretch governs both, or each its own.
    OneForBoth,
    TwoApart,
}

/// The way ahead and, of one that has a length, the overlap's span.
fn spans(line: &Line, q: &Query) -> (Span, Option<Span>) {
    let (place, overlap) = (line.places[q.signal as usize], line.overlaps[q.signal as usize] as u32);
    let tail = |head: u32| head.saturating_sub(q.train.length.0);
    let past = (overlap > 0).then(|| Span { first: tail(place), last: place + overlap - 1 });
    (Span { first: tail(q.head), last: place }, past)
}

fn stands(line: &Line, q: &Query, past: Option<u32>, ahead: u32) -> impl Iterator<Item = Stands> {
    let (place, length) = (line.places[q.signal as usize], q.train.length.0);
    [
        past.is_none().then_some(Stands::WithoutOverlap),
        (length > q.head).then_some(Stands::TailAtZero),
        (length > place && past.is_some()).then_some(Stands::LongerThanTheWay),
        (q.head == place).then_some(Stands::HeadAtTheSignal),
        past.map(|past| if past == ahead { Stands::OneForBoth } else { Stands::TwoApart }),
    ]
    .into_iter()
    .flatten()
}

/// The walk of a query.
fn walked(line: &Line, q: &Query) -> Walked {
    let Query { sheet, signal, head, .. } = q.clone();
    Walked { line: line.clone(), sheet, signal, head, length: q.train.length.0 }
}

/// The walk's last step has the same stretch as the query's way ahead.
#[test]
fn queries_at_random() {
    let mut random = Random(111);
    let (mut accepted, mut found, mut stood) = (0, Found::none(), Found::none());
    while accepted < 15_000 {
        let (line, q) = random.tied_query();
        let Ok(answer) = q.check() else { continue };
        accepted += 1;
        let (ahead, past) = spans(&line, &q);
        assert_eq!(past.is_some(), answer.overlap_stretch.is_some(), "{q:?}");
        let overlap = past.zip(answer.overlap_stretch).map(|(span, number)| ("overlap", span, number));
        for (way, span, number) in [("ahead", ahead, answer.ahead_stretch)].into_iter().chain(overlap) {
            assert_governs(&line, span.held(&line), number);
            kinds(&line, span, number).for_each(|kind| found.note((way, kind)));
        }
        stands(&line, &q, answer.overlap_stretch, answer.ahead_stretch).for_each(|kind| stood.note(kind));
        let steps = walked(&line, &q).check();
        assert_eq!(steps.last().map(|step| step.least_stretch), Some(answer.ahead_stretch), "{q:?}");
    }
    found.hold(2 * KINDS, 200);
    stood.hold(6, 2_000);
}

/// What is noted of a step is how its gradient stands to the least before it; the first has none before it.
#[test]
fn walks_at_random() {
    let mut random = Random(112);
    let (mut made, mut found) = (Found::none(), Found::none());
    for _ in 0..8_000 {
        let w = random.tied_walk();
        let (place, tail) = w.ends();
        let (signals, mut before) = (w.line.stretch_at(place), None);
        let steps = w.check();
        for step in &steps {
            assert_governs(&w.line, step.stretch as usize..=signals, step.least_stretch);
            made.note(before.map(|least| step.gradient.cmp(&least)));
            before = Some(step.least);
        }
        let last = steps[steps.len() - 1].least_stretch;
        kinds(&w.line, Span { first: tail, last: place }, last).for_each(|kind| found.note(kind));
    }
    made.hold(4, 1_000);
    found.hold(KINDS, 200);
}

/// Said without the reference: a tie is a tie only between stretches that count.
#[test]
fn ties_worked_by_hand() {
    let line = |gradients: [i16; 4], overlap| Line {
        starts: vec![0, 300, 600, 900],
        gradients: gradients.to_vec(),
        places: vec![650],
        overlaps: vec![overlap],
        end: 2000,
    };
    let numbers = |gradients, overlap, length, head| {
        let line = line(gradients, overlap);
        let mut q = Query { head, ..Query::printed(line.written()) };
        q.train.length = approach::Metre(length);
        let answer = q.check().expect("an accepted query");
        (answer.overlap_stretch, answer.ahead_stretch)
    };
    // The tail on the second start, one metre before it, and 50 m of the train behind the third.
    assert_eq!(numbers([-5, -5, -5, -5], 0, 100, 400), (None, 1));
    assert_eq!(numbers([-5, -5, -5, -5], 0, 101, 400), (None, 0));
    assert_eq!(numbers([-5, -5, -5, -5], 1, 50, 650), (Some(2), 2));
    assert_eq!(numbers([-5, -5, -5, -5], 1, 51, 650), (Some(1), 1));
    // The overlap ends on the last start, and one metre behind it; of two equal falls the first counts.
    assert_eq!(numbers([2, 2, 2, -5], 250, 0, 650), (Some(2), 2));
    assert_eq!(numbers([2, 2, 2, -5], 251, 0, 650), (Some(3), 2));
    assert_eq!(numbers([2, 2, -5, -5], 251, 0, 650), (Some(2), 2));
    assert_eq!(numbers([2, -5, 2, -5], 251, 1000, 0), (Some(1), 1));
}
