//! Document 02, Card 2: sheets that agree on the signal and on each point from the tail up to the overlap's end get the same
//! answer, but for Card 4's numbers of stretches; to agree from the head on is not enough.
use super::asked::{accepted, answer, one_signal};
use super::{line, signal_and_head, times};
use approach::{Metre, Train};
use inputs::{Line, Query, Random, EXAMPLE_TRAIN};
use std::collections::BTreeMap;

/// A line that agrees on the signal and on each point from one on up to the overlap's end, and on little else; and the
/// signal's number there.
fn agreeing(random: &mut Random, line: &Line, signal: u32, from: u32) -> (Line, u32) {
    let (place, overlap) = (line.places[signal as usize], line.overlaps[signal as usize]);
    let past = place + (overlap as u32).max(1);
    let end = (past + random.below(3000) as u32).min(500_000);
    let mut starts = [line.starts.clone(), vec![0, from, past]].concat();
    starts.extend((0..random.below(8)).map(|_| random.below(end as u64) as u32));
    starts.retain(|&start| start < end);
    starts.sort();
    starts.dedup();
    let mut gradient = |start| match (from..past).contains(&start) {
        true => line.gradients[line.stretch_at(start)],
        false => random.below(71) as i16 - 35,
    };
    let gradients = starts.iter().map(|&start| gradient(start)).collect();
    let mut signals = BTreeMap::new();
    for _ in 0..random.below(6) {
        let other = random.below(end as u64) as u32;
        signals.insert(other, random.below_any(&[1, 200]).min(end - other) as u16);
    }
    signals.insert(place, overlap);
    let number = signals.range(..place).count() as u32;
    let (places, overlaps) = signals.into_iter().unzip();
    (Line { starts, gradients, places, overlaps, end }, number)
}

#[test]
fn agreeing_sheets() {
    let mut random = Random(62);
    let (mut accepted, mut renumbered, mut parted) = (0, 0, 0);
    for _ in 0..2_000 {
        let line = line(&mut random);
        let (signal, head) = signal_and_head(&mut random, &line);
        let (train, (tm, tr)) = (random.train(), times(&mut random));
        let q = Query { train, tm, tr, sheet: line.written(), signal, head };
        let mut from = |point| {
            let (other, number) = agreeing(&mut random, &line, signal, point);
            Query { sheet: other.written(), signal: number, ..q.clone() }
        };
        let (from_tail, from_head) = (from(head.saturating_sub(train.length.0)), from(head));
        assert_eq!(answer(&q), answer(&from_tail), "{q:?} {from_tail:?}");
        accepted += answer(&q).is_ok() as u32;
        renumbered += (signal != from_tail.signal) as u32;
        parted += (answer(&q) != answer(&from_head)) as u32;
    }
    assert!(accepted > 1_000 && renumbered > 500, "{accepted} accepted, {renumbered} with another number");
    assert!(parted > 300, "{parted} apart that agree from the head on");
}

/// Two lines that fall alike from the head on, and not one metre behind it.
#[test]
fn not_from_the_head_on() {
    let at_400 = |length, behind| {
        let train = Train { length: Metre(length), ..EXAMPLE_TRAIN };
        accepted(&Query { train, head: 400, ..one_signal(&[(0, 0), (399, behind), (400, -3)], 120) })
    };
    assert_eq!(at_400(0, -3), at_400(0, -20));
    assert!(at_400(1, -3).permitted > at_400(1, -20).permitted);
}
