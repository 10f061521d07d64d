//! Document 02's Card 4: which stretch governs, on lines worked by hand and, at random, found metre by metre.

use answers::without_stretches;
use numbers::Numbers;
use reference::approach::{approach, Answer};
use reference::sheet::{self, keeps, least, Sheet, Signal, Stretch};
use reference::train::{Train, EP};
use reference::walk::{walk, Step};
use std::collections::BTreeSet;
use std::ops::Range;

mod answers;
mod numbers;

/// A train at a line's only signal.
#[derive(Clone, Debug)]
struct Query {
    sheet: Sheet,
    train: Train,
    head: u32,
}

impl Query {
    /// Five stretches of 100 m with these gradients, a signal with its overlap, the head at 0 and no length behind it.
    fn line(gradients: [i16; 5], place: u32, overlap: u16) -> Query {
        let stretches = (0..).step_by(100).zip(gradients).map(|(start, gradient)| Stretch { start, gradient });
        let sheet = Sheet { stretches: stretches.collect(), signals: vec![Signal { place, overlap }], end: 500 };
        Query { sheet, train: Train { length: 0, ..EP }, head: 0 }
    }

    fn with(&self, length: u32, head: u32) -> Query {
        Query { train: Train { length, ..self.train }, head, ..self.clone() }
    }

    fn bytes(&self) -> Vec<u8> {
        assert!(keeps(&self.sheet), "{self:?}");
        sheet::bytes(&self.sheet)
    }

    fn answer(&self) -> Answer {
        approach(self.train, 200, 400, &self.bytes(), 0, self.head).expect("an accepted query")
    }

    fn steps(&self) -> Vec<Step> {
        walk(&self.bytes(), 0, self.head, self.train.length).expect("an accepted walk")
    }

    /// The overlap's and that of the way ahead.
    fn stretches(&self) -> (Option<u32>, u32) {
        let Answer { overlap_stretch, ahead_stretch, .. } = self.answer();
        (overlap_stretch, ahead_stretch)
    }

    fn least_stretches(&self) -> Vec<u32> {
        self.steps().iter().map(|step| step.least_stretch).collect()
    }

    fn signal(&self) -> Signal {
        self.sheet.signals[0]
    }

    /// Card 2: from so far less L, or from 0 if that is lower.
    fn tail(&self, head: u32) -> u32 {
        (i64::from(head) - i64::from(self.train.length)).max(0) as u32
    }

    /// The metres of the way ahead: the signal's own is the last.
    fn ahead(&self) -> Range<u32> {
        self.tail(self.head)..self.signal().place + 1
    }

    /// The metres of an overlap that has a length: its end is not one of them.
    fn overlap(&self) -> Option<Range<u32>> {
        let Signal { place, overlap } = self.signal();
        (overlap > 0).then(|| self.tail(place)..place + u32::from(overlap))
    }

    fn gradient(&self, number: u32) -> i16 {
        self.sheet.stretches[number as usize].gradient
    }

    /// The last stretch that starts at the point or before it.
    fn holding(&self, point: u32) -> u32 {
        self.sheet.stretches.iter().filter(|stretch| stretch.start <= point).count() as u32 - 1
    }

    /// Holds a number to the card's sentence, metre by metre, and answers how many stretches have the least gradient.
    fn check(&self, number: u32, metres: Range<u32>) -> usize {
        let held: BTreeSet<u32> = metres.clone().map(|point| self.holding(point)).collect();
        let lowest = held.iter().map(|&stretch| self.gradient(stretch)).min().expect("a metre");
        assert!(held.contains(&number), "{number} has no point of {metres:?}: {self:?}");
        assert_eq!(self.gradient(number), lowest, "{number} has not the least of {metres:?}: {self:?}");
        let equals: Vec<u32> = held.into_iter().filter(|&stretch| self.gradient(stretch) == lowest).collect();
        assert!(equals.iter().all(|&stretch| stretch >= number), "{equals:?} in {metres:?}: {self:?}");
        equals.len()
    }
}

#[test]
fn the_lowest_of_equals() {
    let line = Query::line([3, -5, -5, -5, 3], 350, 20);
    assert_eq!(line.stretches(), (Some(3), 1));
    for (length, head, numbers) in [
        (0, 199, (Some(3), 1)),
        (0, 200, (Some(3), 2)),
        (0, 299, (Some(3), 2)),
        (0, 300, (Some(3), 3)),
        (0, 350, (Some(3), 3)),
        (100, 350, (Some(2), 2)),
        (150, 350, (Some(2), 2)),
        (151, 350, (Some(1), 1)),
        // Where the line climbs, there are lower numbers.
        (350, 350, (Some(1), 1)),
        (1000, 0, (Some(1), 1)),
    ] {
        assert_eq!(line.with(length, head).stretches(), numbers, "L {length}, head {head}");
    }
}

#[test]
fn all_equal() {
    for gradient in [-12, 0, 12] {
        let line = Query::line([gradient; 5], 350, 100);
        for (length, head, numbers) in [
            (0, 0, (Some(3), 0)),
            (0, 350, (Some(3), 3)),
            (60, 160, (Some(2), 1)),
            (150, 300, (Some(2), 1)),
            (350, 350, (Some(0), 0)),
        ] {
            assert_eq!(line.with(length, head).stretches(), numbers, "{gradient}: L {length}, head {head}");
        }
    }
}

/// Less is lower, not flatter; and an earlier one that is only nearly as low does not govern.
#[test]
fn the_least_of_several() {
    assert_eq!(Query::line([1, -10, 0, 12, -9], 450, 20).stretches(), (Some(4), 1));
    assert_eq!(Query::line([12, 11, 10, 9, 8], 450, 20).stretches(), (Some(4), 4));
    assert_eq!(Query::line([-8, -9, -10, -11, -12], 450, 20).stretches(), (Some(4), 4));
    assert_eq!(Query::line([-12, -11, -10, -9, -8], 450, 20).stretches(), (Some(4), 0));
    assert_eq!(Query::line([0, -12, 0, 12, 0], 450, 20).with(150, 400).stretches(), (Some(4), 2));
}

#[test]
fn spans_of_one_stretch() {
    let line = Query::line([-5, -5, 3, -5, -5], 250, 50);
    assert_eq!(line.with(0, 250).stretches(), (Some(2), 2));
    assert_eq!(line.with(50, 250).stretches(), (Some(2), 2));
    assert_eq!(line.with(51, 250).stretches(), (Some(1), 1));
    // A line of one stretch and one metre.
    let stretches = vec![Stretch { start: 0, gradient: -12 }];
    let sheet = Sheet { stretches, signals: vec![Signal { place: 0, overlap: 1 }], end: 1 };
    for length in [0, 1, 1000] {
        let query = Query { sheet: sheet.clone(), train: Train { length, ..EP }, head: 0 };
        assert_eq!(query.stretches(), (Some(0), 0), "L {length}");
        assert_eq!(query.least_stretches(), [0], "L {length}");
    }
}

#[test]
fn the_tail_at_a_start() {
    // 1 m before 100 m, there, and 1 m behind it: the overlap's by a head at the signal.
    let line = Query::line([-5, -5, 3, 3, 3], 300, 20);
    for (tail, number) in [(99, 0), (100, 1), (101, 1)] {
        for length in [0, 1, 150, 199] {
            let query = line.with(length, tail + length);
            assert_eq!(query.stretches().1, number, "L {length}, tail {tail}");
            assert_eq!(query.least_stretches().last(), Some(&number), "L {length}, tail {tail}");
        }
        assert_eq!(line.with(300 - tail, 300).stretches(), (Some(number), number), "tail {tail}");
        assert_eq!(line.with(300 - tail, 0).stretches(), (Some(number), 0), "tail {tail}");
    }
}

#[test]
fn the_signal_at_a_start() {
    let numbers = |place, overlap| Query::line([3, 3, 3, -5, 3], place, overlap).stretches();
    // The signal's own point is on the way ahead, and what follows is not.
    assert_eq!(numbers(299, 1), (Some(2), 0));
    assert_eq!(numbers(299, 2), (Some(3), 0));
    assert_eq!(numbers(300, 1), (Some(3), 3));
    assert_eq!(numbers(301, 1), (Some(3), 3));
    assert_eq!(numbers(399, 1), (Some(3), 3));
    assert_eq!(numbers(400, 1), (Some(4), 3));
}

#[test]
fn the_overlaps_end_at_a_start() {
    for (overlap, number) in [(1, 1), (49, 1), (50, 1), (51, 2), (150, 2), (250, 2), (251, 4), (350, 4)] {
        let line = Query::line([-9, 3, -5, 3, -12], 150, overlap);
        assert_eq!(line.stretches(), (Some(number), 0), "overlap {overlap}");
        // Beyond the signal nothing is on the way ahead.
        assert_eq!(line.with(0, 150).stretches(), (Some(number), 1), "overlap {overlap}");
    }
}

/// Though there are points between tail and signal.
#[test]
fn an_overlap_of_0_has_none() {
    for length in [0, 1, 50, 51, 1000] {
        for (head, number) in [(0, 0), (150, if length > 50 { 0 } else { 1 })] {
            let line = Query::line([-5, 3, -5, 3, 3], 150, 0).with(length, head);
            assert_eq!(line.stretches(), (None, number), "L {length}, head {head}");
        }
        assert_eq!(Query::line([-5, 3, -5, 3, 3], 0, 0).with(length, 0).stretches(), (None, 0), "L {length}");
    }
}

#[test]
fn a_train_longer_than_the_line_before_the_signal() {
    let line = Query::line([-5, 3, 3, 3, -5], 450, 20);
    for (length, number) in [(349, 4), (350, 4), (351, 0), (450, 0), (451, 0), (1000, 0)] {
        assert_eq!(line.with(length, 450).stretches(), (Some(number), number), "L {length}");
        assert_eq!(line.with(length, 0).stretches(), (Some(number), 0), "L {length}");
    }
}

/// Card 2's hill: neither the way from the head nor the overlap itself comes there.
#[test]
fn the_governing_stretch_under_the_tail() {
    let line = Query::line([3, -5, 3, 3, 3], 450, 20);
    assert_eq!(line.with(0, 250).stretches(), (Some(4), 2));
    assert_eq!(line.with(100, 250).stretches(), (Some(3), 1));
    assert_eq!(line.with(251, 450).stretches(), (Some(1), 1));
    // All of it under the train, and the tail behind it.
    assert_eq!(line.with(200, 250).stretches(), (Some(2), 1));
    assert_eq!(line.with(400, 450).stretches(), (Some(1), 1));
}

#[test]
fn overlap_and_way_ahead_apart() {
    // The overlap is the lower one, then the way.
    assert_eq!(Query::line([3, -5, 3, 3, -9], 350, 100).stretches(), (Some(4), 1));
    assert_eq!(Query::line([3, -9, 3, 3, -5], 350, 100).stretches(), (Some(4), 1));
}

#[test]
fn the_walks_own() {
    let walked = |gradients| Query::line(gradients, 450, 0).least_stretches();
    // A tie goes to the lower number, which is the later step.
    assert_eq!(walked([3, -5, -5, -5, 3]), [4, 3, 2, 1, 1]);
    assert_eq!(walked([-5, 3, -5, 3, 3]), [4, 3, 2, 2, 0]);
    assert_eq!(walked([0; 5]), [4, 3, 2, 1, 0]);
    assert_eq!(walked([3, 3, 3, 3, -5]), [4, 4, 4, 4, 4]);
    assert_eq!(walked([-12, -5, -6, 3, -5]), [4, 4, 2, 2, 0]);
    assert_eq!(walked([1, 2, 3, 4, 5]), [4, 3, 2, 1, 0]);
    assert_eq!(walked([5, 4, 3, 2, 1]), [4; 5]);
    // It ends with the tail's, and lower numbers beyond have no part in it.
    let line = Query::line([-5; 5], 450, 0);
    assert_eq!(line.with(50, 250).least_stretches(), [4, 3, 2]);
    assert_eq!(line.with(51, 250).least_stretches(), [4, 3, 2, 1]);
}

#[test]
fn the_highest_number() {
    let stretches = |last| (0..512).map(move |start| Stretch { start, gradient: if start == 511 { last } else { 0 } });
    let query = |last| Query {
        sheet: Sheet {
            stretches: stretches(last).collect(),
            signals: vec![Signal { place: 511, overlap: 1 }],
            end: 512,
        },
        train: Train { length: 1000, ..EP },
        head: 511,
    };
    assert_eq!(query(-1).stretches(), (Some(511), 511));
    assert_eq!(query(-1).least_stretches(), [511; 512]);
    assert_eq!(query(0).stretches(), (Some(0), 0));
    assert_eq!(query(0).least_stretches(), (0..512).rev().collect::<Vec<u32>>());
    assert_eq!(query(1).stretches(), (Some(0), 0));
    assert_eq!(query(0).with(0, 511).stretches(), (Some(511), 511));
}

/// Another signal's overlap and place have no part in it, and the number is counted along the sheet.
#[test]
fn which_signal() {
    let mut query = Query::line([-9, 3, 3, -5, -9], 150, 250);
    query.sheet.signals.extend([Signal { place: 250, overlap: 40 }, Signal { place: 320, overlap: 0 }]);
    let numbers = |signal, head| {
        let answer = approach(query.train, 200, 400, &query.bytes(), signal, head).expect("an accepted query");
        (answer.overlap_stretch, answer.ahead_stretch)
    };
    assert_eq!(numbers(0, 100), (Some(3), 1));
    assert_eq!(numbers(1, 100), (Some(2), 1));
    assert_eq!(numbers(1, 200), (Some(2), 2));
    assert_eq!(numbers(2, 100), (None, 3));
}

impl Numbers {
    fn one_of<N: Copy>(&mut self, numbers: &[N]) -> N {
        numbers[self.below(numbers.len() as u32) as usize]
    }

    /// Of the line; in half of the cases a start, 1 m before or 1 m behind it.
    fn point(&mut self, starts: &[u32], end: u32) -> u32 {
        let beside = (self.one_of(starts) + self.below(3)).saturating_sub(1).min(end - 1);
        let any = self.below(end);
        self.one_of(&[any, beside])
    }

    /// Of at most so many metres, with one to three gradients on up to twelve stretches: equal ones are frequent.
    fn query(&mut self, end: u32, top_speed: u32) -> Query {
        let end = 1 + self.below(end);
        let starts: BTreeSet<u32> = (0..self.below(12)).map(|_| self.below(end)).chain([0]).collect();
        let starts: Vec<u32> = starts.into_iter().collect();
        let few = [[-5; 3], [-5, -5, 3], [-5, 0, 3]][self.below(3) as usize];
        let stretches = starts.iter().map(|&start| Stretch { start, gradient: self.one_of(&few) }).collect();
        let place = self.point(&starts, end);
        let (within, any) = (self.point(&starts, end).max(place), place + self.below(end - place + 1));
        let overlap = (self.one_of(&[within, within, any, end]) - place) as u16;
        let head = self.point(&starts, end).min(place);
        let (tail, any) = (self.point(&starts, end).min(head), self.below(1001));
        let length = self.one_of(&[head - tail, head - tail, any]).min(1000);
        let sheet = Sheet { stretches, signals: vec![Signal { place, overlap }], end };
        Query { sheet, train: Train { length, top_speed, ..EP }, head }
    }

    /// The query on another sheet of the same gradients at these metres: outside them each side has one gradient, and
    /// the stretches have other ends.
    fn agreeing(&mut self, query: &Query, metres: Range<u32>) -> Query {
        let (before, after) = (self.one_of(&[-20, 3, 12]), self.one_of(&[-20, 3, 12]));
        let end = metres.end + self.below(100);
        let gradient = |metre| match metre {
            _ if metre < metres.start => before,
            _ if metre >= metres.end => after,
            _ => query.gradient(query.holding(metre)),
        };
        let cuts: BTreeSet<u32> = (0..self.below(12)).map(|_| self.below(end)).chain([0]).collect();
        let starts = |metre: u32| cuts.contains(&metre) || gradient(metre) != gradient(metre - 1);
        let stretches = (0..end).filter(|&metre| starts(metre));
        let stretches = stretches.map(|start| Stretch { start, gradient: gradient(start) }).collect();
        Query { sheet: Sheet { stretches, end, ..query.sheet.clone() }, ..query.clone() }
    }
}

#[test]
fn queries_at_random() {
    let mut numbers = Numbers(0x5f1c_93d2_07ae_b846);
    let (mut ties, mut ahead_ties, mut without, mut apart) = (0, 0, 0, 0);
    for _ in 0..6000 {
        let top_speed = 1 + numbers.below(4);
        let end = numbers.one_of(&[20, 300, 1500]);
        let query = numbers.query(end, top_speed);
        let (overlap_stretch, ahead_stretch) = query.stretches();
        ahead_ties += u32::from(query.check(ahead_stretch, query.ahead()) > 1);
        // The point by point way to the gradient, on which the speeds rest.
        let Range { start, end } = query.ahead();
        assert_eq!(least(&query.sheet, start, end), Some(query.gradient(ahead_stretch)), "{query:?}");
        let Some(metres) = query.overlap() else {
            assert_eq!(overlap_stretch, None, "{query:?}");
            without += 1;
            continue;
        };
        let number = overlap_stretch.expect("an overlap with a length");
        ties += u32::from(query.check(number, metres.clone()) > 1);
        assert_eq!(least(&query.sheet, metres.start, metres.end), Some(query.gradient(number)), "{query:?}");
        apart += u32::from(number != ahead_stretch);
    }
    assert!(ties > 1000 && ahead_ties > 1000, "{ties} and {ahead_ties} with equals");
    assert!(without > 500 && apart > 500, "{without} without an overlap, {apart} with two numbers");
}

#[test]
fn walks_at_random() {
    let mut numbers = Numbers(0xc2b7_4e01_9d58_6fa3);
    let (mut ties, mut lowered) = (0, 0);
    for _ in 0..3000 {
        let query = numbers.query(600, 1);
        let steps = query.steps();
        for step in &steps {
            let from = query.sheet.stretches[step.stretch as usize].start.max(query.ahead().start);
            ties += u32::from(query.check(step.least_stretch, from..query.ahead().end) > 1);
            assert_eq!(query.gradient(step.least_stretch), step.least, "{query:?}");
        }
        for pair in steps.windows(2) {
            lowered += u32::from(pair[0].least == pair[1].least && pair[0].least_stretch != pair[1].least_stretch);
        }
        let last = steps.last().expect("the signal's own");
        assert_eq!(last.least_stretch, query.stretches().1, "{query:?}");
    }
    assert!(ties > 3000 && lowered > 1500, "{ties} with equals, {lowered} lowered by one");
}

/// Card 4: sheets that agree on Card 2's span may differ in the two numbers only, and do.
#[test]
fn agreeing_sheets_at_random() {
    let mut numbers = Numbers(0x83e6_d10f_52bc_974a);
    let (mut differing, mut same) = (0, 0);
    for _ in 0..1000 {
        let query = numbers.query(600, 60);
        let ahead = query.ahead();
        let past = query.overlap().map_or(ahead.end, |overlap| overlap.end);
        let other = numbers.agreeing(&query, ahead.start..past);
        let (one, two) = (query.answer(), other.answer());
        assert_eq!(without_stretches(one), without_stretches(two), "{query:?} {other:?}");
        assert_eq!(query.gradient(one.ahead_stretch), other.gradient(two.ahead_stretch), "{query:?} {other:?}");
        let past =
            [(&query, one), (&other, two)].map(|(query, answer)| answer.overlap_stretch.map(|n| query.gradient(n)));
        assert_eq!(past[0], past[1], "{query:?} {other:?}");
        *(if one == two { &mut same } else { &mut differing }) += 1;
    }
    assert!(differing > 300 && same > 50, "{differing} with other numbers, {same} without");
}
