//! Sheets that agree on the signal and on the points that count may differ in the two numbers, and in nothing else.
use super::spans;
use inputs::{without_stretches, Found, Line, Query, Random};

/// The line with one of its stretches in two, where there is room for one more and the point is no start.
fn cut(line: &Line, point: u32) -> Line {
    let mut cut = line.clone();
    let number = line.stretch_at(point);
    if line.starts.len() < 512 && line.starts[number] < point && point < line.end {
        cut.starts.insert(number + 1, point);
        cut.gradients.insert(number + 1, line.gradients[number]);
    }
    cut
}

/// The line cut at both ends of what counts, with other gradients before and behind.
fn regraded(random: &mut Random, line: &Line, first: u32, end: u32) -> Line {
    let mut other = cut(&cut(line, first), end);
    let counts = other.stretch_at(first)..=other.stretch_at(end - 1);
    for (number, gradient) in other.gradients.iter_mut().enumerate() {
        if !counts.contains(&number) {
            *gradient = random.below(71) as i16 - 35;
        }
    }
    other
}

/// What was done to a line.
#[derive(Clone, Copy, Debug, PartialEq, Eq, PartialOrd, Ord)]
enum Change {
    CutBefore,
    CutWithin,
    CutBehind,
    Regraded,
}

/// Lines that agree on every point from the first up to but not including the end.
fn agreeing(random: &mut Random, line: &Line, first: u32, end: u32) -> [(Change, Line); 4] {
    let mut between = |from: u32, to: u32| from + random.below(u64::from(to - from).max(1)) as u32;
    let [before, within, behind] = [between(0, first), between(first, end), between(end, line.end)];
    [
        (Change::CutBefore, cut(line, before)),
        (Change::CutWithin, cut(line, within)),
        (Change::CutBehind, cut(line, behind)),
        (Change::Regraded, regraded(random, line, first, end)),
    ]
}

/// What is noted is whether a number is another, which can only be the next: before what counts a line gets a stretch more at most.
#[test]
fn agreeing_sheets() {
    let mut random = Random(113);
    let (mut ahead, mut overlap) = (Found::none(), Found::none());
    for _ in 0..4_000 {
        let (line, q) = random.tied_query();
        let Ok(answer) = q.check() else { continue };
        let (way, past) = spans(&line, &q);
        let end = past.map_or(way.last, |past| past.last) + 1;
        for (change, other) in agreeing(&mut random, &line, way.first, end) {
            let other = Query { sheet: other.written(), ..q.clone() };
            let changed = other.check().expect("an accepted query");
            assert_eq!(without_stretches(changed), without_stretches(answer), "{change:?}: {q:?} {other:?}");
            assert_eq!(changed.overlap_stretch.is_some(), answer.overlap_stretch.is_some(), "{q:?} {other:?}");
            ahead.note((change, changed.ahead_stretch - answer.ahead_stretch));
            let moved = changed.overlap_stretch.zip(answer.overlap_stretch).map(|(changed, answer)| changed - answer);
            moved.into_iter().for_each(|moved| overlap.note((change, moved)));
        }
    }
    // A cut behind the span moves neither number; any other moves one at times, and leaves it at times.
    ahead.hold(3 * 2 + 1, 100);
    overlap.hold(3 * 2 + 1, 100);
}
