//! Document 02's Card 3: the steps on lines worked by hand, their refusals, and all of them found by another way.

use answers::without_stretches;
use numbers::Numbers;
use reference::approach::approach;
use reference::sheet::{self, keeps, least, Sheet, Signal, Stretch};
use reference::train::{Train, EP};
use reference::walk::{back, walk, Step};
use std::collections::BTreeMap;

mod answers;
mod numbers;

fn sheet(stretches: &[(u32, i16)], places: &[u32], end: u32) -> Vec<u8> {
    let stretches = stretches.iter().map(|&(start, gradient)| Stretch { start, gradient }).collect();
    let signals = places.iter().map(|&place| Signal { place, overlap: 0 }).collect();
    let sheet = Sheet { stretches, signals, end };
    assert!(keeps(&sheet), "{sheet:?}");
    sheet::bytes(&sheet)
}

/// Five stretches, and a signal at this place.
fn line(place: u32) -> Vec<u8> {
    sheet(&[(0, 5), (100, -3), (250, -3), (400, -8), (600, 12)], &[place], 800)
}

/// Stretch, gradient and least of each step on `line`.
fn steps(place: u32, head: u32, length: u32) -> Vec<(u32, i16, i16)> {
    let steps = walk(&line(place), 0, head, length).expect("an accepted walk");
    steps.into_iter().map(|Step { stretch, gradient, least, .. }| (stretch, gradient, least)).collect()
}

#[test]
fn the_whole_line() {
    assert_eq!(steps(799, 799, 1000), [(4, 12, 12), (3, -8, -8), (2, -3, -8), (1, -3, -8), (0, 5, -8)]);
    assert_eq!(steps(799, 0, 0), steps(799, 799, 1000));
}

#[test]
fn the_signal_at_a_start() {
    assert_eq!(steps(399, 399, 0), [(2, -3, -3)]);
    assert_eq!(steps(400, 400, 0), [(3, -8, -8)]);
    assert_eq!(steps(401, 401, 0), [(3, -8, -8)]);
    // The stretch before is then one step on.
    assert_eq!(steps(399, 260, 0), [(2, -3, -3)]);
    assert_eq!(steps(400, 260, 0), [(3, -8, -8), (2, -3, -8)]);
    assert_eq!(steps(401, 260, 0), [(3, -8, -8), (2, -3, -8)]);
    assert_eq!(steps(0, 0, 1000), [(0, 5, 5)]);
}

#[test]
fn the_tail_at_a_start() {
    let to_stretch_1 = [(3, -8, -8), (2, -3, -8), (1, -3, -8)];
    let to_stretch_0 = [(3, -8, -8), (2, -3, -8), (1, -3, -8), (0, 5, -8)];
    // The tail is at 101, 100 and 99 m, by the length and by the head.
    for (head, length) in [(300, 199), (300, 200), (101, 0), (100, 0), (301, 200), (102, 1), (101, 1)] {
        assert_eq!(steps(401, head, length), to_stretch_1, "{head} {length}");
    }
    for (head, length) in [(300, 201), (299, 200), (99, 0), (100, 1)] {
        assert_eq!(steps(401, head, length), to_stretch_0, "{head} {length}");
    }
}

#[test]
fn the_tail_at_the_lines_beginning() {
    for (head, length) in [(0, 0), (0, 1), (0, 1000), (99, 99), (99, 100), (99, 1000), (399, 1000)] {
        assert_eq!(steps(399, head, length), [(2, -3, -3), (1, -3, -3), (0, 5, -3)], "{head} {length}");
    }
}

/// A tail that is at 0 for its own sake, and 1 m behind that, on a line longer than the longest train.
#[test]
fn the_longest_train() {
    let sheet = sheet(&[(0, -1), (1, 4), (2, 7)], &[1002], 2000);
    let count = |head, length| walk(&sheet, 0, head, length).map(|steps| steps.len());
    assert_eq!(count(1002, 1000), Ok(1));
    assert_eq!(count(1001, 1000), Ok(2));
    assert_eq!(count(1000, 1000), Ok(3));
    assert_eq!(count(999, 1000), Ok(3));
    assert_eq!(count(999, 1001), Err(2));
}

#[test]
fn the_head_at_the_signal() {
    for (place, step) in [(0, (0, 5, 5)), (99, (0, 5, 5)), (100, (1, -3, -3)), (600, (4, 12, 12)), (799, (4, 12, 12))] {
        assert_eq!(steps(place, place, 0), [step], "{place}");
    }
}

#[test]
fn one_stretch_for_signal_and_tail() {
    assert_eq!(steps(799, 700, 0), [(4, 12, 12)]);
    assert_eq!(steps(799, 700, 100), [(4, 12, 12)]);
    assert_eq!(steps(799, 700, 101), [(4, 12, 12), (3, -8, -8)]);
    assert_eq!(steps(599, 599, 199), [(3, -8, -8)]);
    // A line of one stretch and one metre.
    let only = Step { stretch: 0, gradient: 35, least: 35, least_stretch: 0 };
    assert_eq!(walk(&sheet(&[(0, 35)], &[0], 1), 0, 0, 1000), Ok(vec![only]));
}

#[test]
fn leasts() {
    // Step 0's own, though later steps fall too.
    assert_eq!(steps(450, 450, 1000), [(3, -8, -8), (2, -3, -8), (1, -3, -8), (0, 5, -8)]);
    // Equal gradients.
    assert_eq!(steps(300, 120, 0), [(2, -3, -3), (1, -3, -3)]);
    let falling = sheet(&[(0, -35), (10, -1), (20, 0), (30, 1), (40, 35), (50, -35)], &[49], 60);
    let leasts: Vec<i16> = walk(&falling, 0, 49, 49).expect("accepted").iter().map(|step| step.least).collect();
    assert_eq!(leasts, [35, 1, 0, -1, -35]);
}

/// Neither the signal's overlap nor another signal has a part in it.
#[test]
fn which_signal() {
    let mut fields = sheet::read(&sheet(&[(0, 1), (10, 2), (20, -3)], &[5, 10, 29], 30)).expect("a sheet");
    fields.signals[0].overlap = 25;
    let bytes = sheet::bytes(&fields);
    let numbers = |signal, head| walk(&bytes, signal, head, 0).map(|steps| steps.iter().map(|s| s.stretch).collect());
    assert_eq!(numbers(0, 0), Ok(vec![0]));
    assert_eq!(numbers(1, 5), Ok(vec![1, 0]));
    assert_eq!(numbers(2, 0), Ok(vec![2, 1, 0]));
    assert_eq!(numbers(3, 0), Err(8));
}

#[test]
fn refusals_the_lowest_first() {
    let good = line(700);
    let bad = &good[1..];
    for (refusal, bytes, signal, head, length) in [
        (2, &good[..], 0, 700, 1001),
        (2, &good[..], 0, 700, u32::MAX),
        (7, bad, 0, 700, 1000),
        (7, &[], 0, 700, 1000),
        (8, &good[..], 1, 700, 1000),
        (8, &good[..], u32::MAX, 700, 1000),
        (9, &good[..], 0, 701, 1000),
        (9, &good[..], 0, u32::MAX, 0),
        // Two or more at a time.
        (2, bad, 0, 700, 1001),
        (2, &good[..], 1, 700, 1001),
        (2, &good[..], 0, 701, 1001),
        (2, bad, 1, 701, 1001),
        (7, bad, 1, 700, 1000),
        (7, bad, 0, 701, 1000),
        (7, bad, 1, 701, 1000),
        (8, &good[..], 1, 701, 1000),
    ] {
        assert_eq!(walk(bytes, signal, head, length), Err(refusal), "{signal} {head} {length}");
        // "End" comes after them all.
        for step in [0, 1, 5, u32::MAX] {
            assert_eq!(back(bytes, signal, head, length, step), Err(refusal), "{signal} {head} {length} {step}");
        }
    }
    assert_eq!(walk(&good, 0, 700, 1000).map(|steps| steps.len()), Ok(5));
}

/// A sheet without signals has none of number 0.
#[test]
fn no_signals() {
    assert_eq!(walk(&sheet(&[(0, 0)], &[], 10), 0, 0, 0), Err(8));
}

#[test]
fn steps_past_the_tail() {
    let line = line(401);
    assert_eq!(back(&line, 0, 300, 200, 0), Ok(Some(Step { stretch: 3, gradient: -8, least: -8, least_stretch: 3 })));
    assert_eq!(back(&line, 0, 300, 200, 2), Ok(Some(Step { stretch: 1, gradient: -3, least: -8, least_stretch: 3 })));
    // There is a stretch 0, and numbers below it there are not.
    for step in [3, 4, 5, 255, 256, 65_535, 65_536, i32::MAX as u32, u32::MAX - 1, u32::MAX] {
        assert_eq!(back(&line, 0, 300, 200, step), Ok(None), "{step}");
    }
    assert_eq!(back(&line, 0, 0, 0, 3), Ok(Some(Step { stretch: 0, gradient: 5, least: -8, least_stretch: 3 })));
    for step in [4, 5, u32::MAX] {
        assert_eq!(back(&line, 0, 0, 0, step), Ok(None), "{step}");
    }
}

#[test]
fn as_many_stretches_as_there_can_be() {
    let gradient = |number: u32| 35 - (number % 71) as i16;
    let stretches: Vec<(u32, i16)> = (0..512).map(|number| (number, gradient(number))).collect();
    let sheet = sheet(&stretches, &[511], 512);
    let steps = walk(&sheet, 0, 511, 1000).expect("an accepted walk");
    assert_eq!(steps.len(), 512);
    for (number, step) in (0..512).rev().zip(&steps) {
        let walked = (number..512).map(|number| (gradient(number), number));
        let (least, least_stretch) = walked.min().expect("the signal's own");
        assert_eq!(*step, Step { stretch: number, gradient: gradient(number), least, least_stretch });
    }
    assert_eq!(back(&sheet, 0, 511, 1000, 511), Ok(steps.last().copied()));
    assert_eq!(back(&sheet, 0, 511, 1000, 512), Ok(None));
}

struct Walk {
    sheet: Sheet,
    signal: u32,
    head: u32,
    length: u32,
}

impl Walk {
    fn place(&self) -> u32 {
        self.sheet.signals[self.signal as usize].place
    }

    /// Card 2: head less L, or 0 if that is lower.
    fn tail(&self) -> u32 {
        (i64::from(self.head) - i64::from(self.length)).max(0) as u32
    }

    fn steps(&self) -> Vec<Step> {
        walk(&sheet::bytes(&self.sheet), self.signal, self.head, self.length).expect("an accepted walk")
    }

    /// Number and gradient of the stretch that holds the point.
    fn holding(&self, point: u32) -> (u32, i16) {
        let started = self.sheet.stretches.iter().take_while(|stretch| stretch.start <= point);
        let (number, stretch) = (0..).zip(started).last().expect("a first stretch that starts at 0");
        (number, stretch.gradient)
    }

    /// Point by point from the signal back: the first point met in a stretch makes a step.
    fn by_points(&self, falling: impl Iterator<Item = u32>) -> Vec<Step> {
        let mut steps: Vec<Step> = Vec::new();
        for (stretch, gradient) in falling.map(|point| self.holding(point)) {
            let last = steps.last().copied();
            if last.is_none_or(|last| last.stretch != stretch) {
                let found = last.map(|last| (last.least, last.least_stretch));
                let (least, least_stretch) = found.into_iter().chain([(gradient, stretch)]).min().expect("its own");
                steps.push(Step { stretch, gradient, least, least_stretch });
            }
        }
        steps
    }

    /// From the signal back, those points of the span at which another stretch can be met.
    fn few_points(&self) -> impl Iterator<Item = u32> {
        let span = self.tail()..=self.place();
        let starts = self.sheet.stretches.iter().map(|stretch| stretch.start);
        let mut points: Vec<u32> = starts.flat_map(|start| [start.saturating_sub(1), start]).collect();
        points.extend([self.tail(), self.place()]);
        points.retain(|point| span.contains(point));
        points.sort();
        points.into_iter().rev()
    }
}

impl Numbers {
    fn gradient(&mut self) -> i16 {
        let steepest = [0, 2, 35][self.below(3) as usize];
        self.below(2 * steepest + 1) as i16 - steepest as i16
    }

    fn sheet(&mut self, end: u32, stretches: u32) -> Sheet {
        let mut starts = BTreeMap::from([(0, self.gradient())]);
        starts.extend((1..stretches).map(|_| (self.below(end), self.gradient())));
        let stretches: Vec<Stretch> = starts.into_iter().map(|(start, gradient)| Stretch { start, gradient }).collect();
        let mut places: Vec<u32> = (0..=self.below(4)).map(|_| self.within(0..=end - 1)).collect();
        // One of them beside or on a start.
        let start = stretches[self.below(stretches.len() as u32) as usize].start;
        places.push((start + self.below(3)).saturating_sub(1).min(end - 1));
        places.sort();
        places.dedup();
        Sheet { stretches, signals: places.into_iter().map(|place| Signal { place, overlap: 0 }).collect(), end }
    }

    /// A line of at most so many metres and stretches.
    fn walk(&mut self, end: u32, stretches: u32) -> Walk {
        let (end, stretches) = (1 + self.below(end), 1 + self.below(stretches));
        let sheet = self.sheet(end, stretches);
        let signal = self.below(sheet.signals.len() as u32);
        let place = sheet.signals[signal as usize].place;
        let farthest = [50, 2000, end][self.below(3) as usize].min(place);
        let longest = [20, 300, 1000][self.below(3) as usize];
        let (head, length) = (place - self.within(0..=farthest), self.within(0..=longest));
        Walk { sheet, signal, head, length }
    }
}

#[test]
fn metre_by_metre_at_random() {
    let mut numbers = Numbers(0x3a9e_51c7_d204_6b8f);
    for _ in 0..3000 {
        let walk = numbers.walk(300, 40);
        let (tail, place) = (walk.tail(), walk.place());
        let steps = walk.steps();
        assert_eq!(steps, walk.by_points((tail..=place).rev()));
        for Step { stretch, least: found, .. } in steps {
            let from = walk.sheet.stretches[stretch as usize].start.max(tail);
            assert_eq!(Some(found), least(&walk.sheet, from, place + 1));
        }
    }
}

#[test]
fn long_lines_at_random() {
    let mut numbers = Numbers(0x64f1_0d2b_97ae_c385);
    for _ in 0..3000 {
        let walk = numbers.walk(500_000, 512);
        assert_eq!(walk.steps(), walk.by_points(walk.few_points()));
    }
}

/// Card 3's own sentences, of every step of the walk and of steps past it.
#[test]
fn the_cards_sentences_at_random() {
    let mut numbers = Numbers(0xb05c_7e93_18f2_4da6);
    for _ in 0..300 {
        let walk = numbers.walk(2000, 60);
        let bytes = sheet::bytes(&walk.sheet);
        let ask = |step| back(&bytes, walk.signal, walk.head, walk.length, step).expect("an accepted walk");
        let steps = walk.steps();
        let (first, _) = walk.holding(walk.place());
        let (last, _) = walk.holding(walk.tail());
        assert_eq!(steps.len() as u32, first - last + 1);
        for (number, step) in (0..).zip(&steps) {
            assert_eq!(ask(number), Some(*step));
            assert_eq!(step.stretch, first - number);
            assert_eq!(step.gradient, walk.sheet.stretches[step.stretch as usize].gradient);
            assert_eq!(Some(step.least), steps[..=number as usize].iter().map(|step| step.gradient).min());
        }
        for past in [steps.len() as u32, first + 1, 512 + numbers.below(u32::MAX - 512), u32::MAX] {
            assert_eq!(ask(past), None);
        }
        let gradient_ahead = least(&walk.sheet, walk.tail(), walk.place() + 1);
        assert_eq!(steps.last().map(|step| step.least), gradient_ahead);
    }
}

/// The last least is the gradient ahead: the query answers as on a line that has this gradient all along, and often not
/// as on one with a gradient 1 per mille more.
#[test]
fn the_query_rests_on_the_last_least() {
    let mut numbers = Numbers(0x17d8_a4b6_5ce3_902f);
    let mut differing = 0;
    for _ in 0..300 {
        let walk = numbers.walk(3000, 12);
        let train = Train { braked_weight: 160, length: walk.length, top_speed: 160, ..EP };
        let query = |sheet: &Sheet| {
            approach(train, 200, 400, &sheet::bytes(sheet), walk.signal, walk.head).map(without_stretches)
        };
        let steps = walk.steps();
        let ahead = steps.last().expect("the signal's own").least;
        let with = |gradient: i16| {
            let mut other = walk.sheet.clone();
            steps.iter().for_each(|step| other.stretches[step.stretch as usize].gradient = gradient);
            other
        };
        assert_eq!(query(&with(ahead)), query(&walk.sheet));
        let level = Sheet { stretches: vec![Stretch { start: 0, gradient: ahead }], ..walk.sheet.clone() };
        assert_eq!(query(&level), query(&walk.sheet));
        differing += u32::from(query(&with((ahead + 1).min(35))) != query(&walk.sheet));
    }
    assert!(differing >= 30, "{differing}");
}
