//! Document 01's approach query: its printed lines, its refusals, the ends of its spans, which Card 2 of document 02 has
//! start at the tail, and the desk's third demand.

use answers::{answer, without_stretches};
use numbers::Numbers;
use reference::approach::{approach, keeps_demand, printed, Answer, Fault, Mark};
use reference::ceilings::ceilings;
use reference::coefficients::FIRST_VALUES;
use reference::fraction::Fraction;
use reference::ramp::{greatest_place, ramp};
use reference::sheet::{self, keeps, least, Sheet, Signal, Stretch};
use reference::step::{exact_p, step};
use reference::train::{Train, EP};
use reference::units::{in_millimetres, millimetres};
use std::collections::BTreeMap;

mod answers;
mod numbers;

/// The sheet that document 01 prints: one level stretch, signals at 0 and 1,057 m, line end 2,000 m.
const EXAMPLE: &str = "01 00 02 00 14 00 00 00 1A 00 00 00 26 00 00 00 D0 07 00 00 \
    00 00 00 00 00 00 00 00 00 00 78 00 21 04 00 00 00 00";

const WEAK: Train = Train { braked_weight: 45, ..EP };

/// Card 2: the shortest two, the card's own and the longest.
const LENGTHS: [u32; 4] = [0, 1, 600, 1000];

fn example() -> Vec<u8> {
    EXAMPLE.split_whitespace().map(|byte| u8::from_str_radix(byte, 16).expect("a byte")).collect()
}

fn sheet(stretches: &[(u32, i16)], signals: &[(u32, u16)], end: u32) -> Vec<u8> {
    let stretches = stretches.iter().map(|&(start, gradient)| Stretch { start, gradient }).collect();
    let signals = signals.iter().map(|&(place, overlap)| Signal { place, overlap }).collect();
    let sheet = Sheet { stretches, signals, end };
    assert!(keeps(&sheet), "{sheet:?}");
    sheet::bytes(&sheet)
}

#[derive(Clone, Debug)]
struct Query {
    train: Train,
    tm: u32,
    tr: u32,
    sheet: Vec<u8>,
    signal: u32,
    head: u32,
}

impl Query {
    /// The printing program's query for signal 0.
    fn new(sheet: Vec<u8>) -> Query {
        Query { train: EP, tm: 200, tr: 400, sheet, signal: 0, head: 0 }
    }

    /// One signal 1,000 m on, line end 2,000 m.
    fn line(stretches: &[(u32, i16)], overlap: u16) -> Query {
        Query::new(sheet(stretches, &[(1000, overlap)], 2000))
    }

    fn run(&self) -> Result<Answer, u32> {
        approach(self.train, self.tm, self.tr, &self.sheet, self.signal, self.head).map(without_stretches)
    }

    fn answer(&self) -> Answer {
        self.run().expect("an accepted query")
    }

    fn verdict(&self, answer: Answer) -> Result<(), Fault> {
        keeps_demand(self.train, self.tm, self.tr, &self.sheet, self.signal, self.head, answer)
    }
}

impl Numbers {
    /// Below one of the ends, so that small numbers are not rare.
    fn below_any(&mut self, ends: &[u32]) -> u32 {
        let end = ends[self.below(ends.len() as u32) as usize];
        self.below(end)
    }

    fn gradient(&mut self) -> i16 {
        let steepest = [3, 12, 35][self.below(3) as usize];
        self.below(2 * steepest + 1) as i16 - steepest as i16
    }

    fn sheet(&mut self) -> Sheet {
        let end = 1 + self.below_any(&[50, 1500, 6000]);
        let mut stretches = BTreeMap::from([(0, self.gradient())]);
        stretches.extend((0..self.below(5)).map(|_| (self.below(end), self.gradient())));
        let mut signals = BTreeMap::new();
        for _ in 0..=self.below(3) {
            let place = self.below(end);
            signals.insert(place, self.below_any(&[1, 20, 200, 1500]).min(end - place) as u16);
        }
        let stretches = stretches.into_iter().map(|(start, gradient)| Stretch { start, gradient }).collect();
        Sheet {
            stretches,
            signals: signals.into_iter().map(|(place, overlap)| Signal { place, overlap }).collect(),
            end,
        }
    }

    fn query(&mut self) -> Query {
        let train = Train {
            freight: self.below(2) == 0,
            electropneumatic: self.below(2) == 0,
            braked_weight: 45 + 5 * self.below(24),
            length: self.below(1001),
            top_speed: 1 + self.below_any(&[30, 120, 330]),
            coefficients: self.coefficients(),
        };
        let (tm, tr) = (self.below_any(&[201, 2001]), 1 + self.below_any(&[200, 3000]));
        let sheet = self.sheet();
        let signal = self.below(sheet.signals.len() as u32);
        let place = sheet.signals[signal as usize].place;
        let head = place - self.below_any(&[1, 300, 6000]).min(place);
        Query { train, tm, tr, sheet: sheet::bytes(&sheet), signal, head }
    }

    fn accepted(&mut self) -> Query {
        loop {
            let query = self.query();
            match query.run() {
                Ok(_) => return query,
                Err(refusal) => assert_eq!(refusal, 10, "{query:?}"),
            }
        }
    }

    /// A query that differs in its sheet alone, and there in all that document 01 lets two agreeing sheets differ in,
    /// with the gradients agreeing from this point on.
    fn agreeing(&mut self, query: &Query, from: u32) -> Query {
        let old = sheet::read(&query.sheet).expect("an accepted sheet");
        let mut signals = old.signals[..=query.signal as usize].to_vec();
        let Signal { place, overlap } = signals.pop().expect("the chosen signal");
        signals.iter_mut().for_each(|signal| signal.overlap = 0);
        signals.push(Signal { place, overlap });
        let past = place + u32::from(overlap).max(1);
        let end = past + self.below(300);
        let starts = [0, from, past].into_iter().chain(old.stretches.iter().map(|stretch| stretch.start));
        let starts: Vec<u32> = starts.chain([self.below(end), self.below(end)]).filter(|&start| start < end).collect();
        let mut stretches = BTreeMap::new();
        for start in starts {
            let held = (from..past).contains(&start);
            let gradient = if held { least(&old, start, start + 1).expect("on the line") } else { self.gradient() };
            stretches.insert(start, gradient);
        }
        let stretches = stretches.into_iter().map(|(start, gradient)| Stretch { start, gradient }).collect();
        let new = Sheet { stretches, signals, end };
        assert!(keeps(&new), "{new:?}");
        Query { sheet: sheet::bytes(&new), ..query.clone() }
    }
}

#[test]
fn the_printed_example() {
    assert_eq!(printed(&example()), "0 37 37 release 4920 5040 5340\n1 0 90 curve 11280 11400 11700\n");
    let query = Query::new(example());
    assert_eq!(query.run(), Ok(answer(37, 37, Mark::Release)));
    assert_eq!(Query { signal: 1, ..query }.run(), Ok(answer(0, 90, Mark::Curve)));
    assert_eq!([Mark::Curve as u32, Mark::Release as u32], [1, 2]);
}

#[test]
fn prints_of_bad_sheets() {
    let whole = example();
    for length in 0..whole.len() {
        assert_eq!(printed(&whole[..length]), "refused 7\n", "cut to {length} bytes");
    }
    assert_eq!(printed(&[whole.clone(), vec![0]].concat()), "refused 7\n");
    // No stretches.
    let mut broken = whole;
    broken[0] = 0;
    assert_eq!(printed(&broken), "refused 7\n");
}

#[test]
fn prints_of_other_sheets() {
    assert_eq!(printed(&sheet(&[(0, 0)], &[], 2000)), "");
    // On -35 the program's train has 0.0663 m/s² at K0 = 1, but 0.0441 at the 0.95 of a release speed above 0.
    let steep = sheet(&[(0, 0), (1000, -35)], &[(0, 120), (1001, 120), (1500, 0)], 2000);
    let lines = printed(&steep);
    let lines: Vec<&str> = lines.split_inclusive('\n').collect();
    assert_eq!(lines[..2], ["0 37 37 release 4920 5040 5340\n", "1 refused 10\n"]);
    assert!(lines.len() == 3 && lines[2].starts_with("2 0 ") && lines[2].contains(" curve "), "{lines:?}");
}

/// Document 02, Card 2: the program's train has 200 m, so at 999 m its tail is still on the fall, at 1,000 m no more.
///
/// On -20 the ramp takes 116.770 m from 30 km/h and 122.974 m from 31, on the level 37 is document 01's. The way ahead
/// falls for both signals: P to 30 km/h is 997.863 m from 69 and 1,025.138 m from 70, to 37 km/h 983.200 m from 71 and
/// 1,011.260 m from 72.
#[test]
fn prints_of_a_tail_on_the_fall() {
    let line = sheet(&[(0, -20), (800, 0)], &[(999, 120), (1000, 120)], 2000);
    assert_eq!(printed(&line), "0 30 69 curve 8760 8880 9180\n1 37 71 curve 9000 9120 9420\n");
}

#[test]
fn prints_what_the_query_answers() {
    let mut numbers = Numbers(0xA076_1D64_78BD_642F);
    for _ in 0..60 {
        let fields = numbers.sheet();
        let bytes = sheet::bytes(&fields);
        let line = |signal| match (Query { signal, ..Query::new(bytes.clone()) }).run() {
            Err(refusal) => format!("{signal} refused {refusal}\n"),
            Ok(Answer { release, permitted, mark, ceilings: [w, sbi, ebi], .. }) => {
                let mark = if mark == Mark::Curve { "curve" } else { "release" };
                format!("{signal} {release} {permitted} {mark} {w} {sbi} {ebi}\n")
            }
        };
        let lines: String = (0..fields.signals.len() as u32).map(line).collect();
        assert_eq!(printed(&bytes), lines, "{fields:?}");
    }
}

type Edit = fn(&mut Query);

/// Of a query that is refused by 10: each breaks one more rule, all at their nearest ends, in the order of their refusals.
const FAULTS: [(u32, Edit); 18] = [
    (1, |query| query.train.braked_weight = 44),
    (1, |query| query.train.braked_weight = 47),
    (1, |query| query.train.braked_weight = 161),
    (2, |query| query.train.length = 1001),
    (3, |query| query.train.top_speed = 0),
    (3, |query| query.train.top_speed = 331),
    (6, |query| query.tm = 2001),
    (6, |query| query.tr = 0),
    (6, |query| query.tr = 3001),
    (12, |query| query.train.coefficients.dt = 201),
    (12, |query| query.train.coefficients.vc = 151),
    (12, |query| query.train.coefficients.inertia.ki1 = 79),
    (7, |query| query.sheet.push(0)),
    (7, |query| query.sheet.truncate(19)),
    (8, |query| query.signal = 2),
    (8, |query| query.signal = u32::MAX),
    (9, |query| query.head = 6),
    (9, |query| query.head = u32::MAX),
];

/// Two signals, of which the first is at 5.
fn short_line(gradient: i16) -> Query {
    Query { train: WEAK, ..Query::new(sheet(&[(0, gradient)], &[(5, 1), (7, 0)], 10)) }
}

#[test]
fn refusals() {
    for (number, fault) in FAULTS {
        let mut query = short_line(0);
        assert!(query.run().is_ok());
        fault(&mut query);
        assert_eq!(query.run(), Err(number), "{query:?}");
        assert_eq!(query.verdict(answer(0, 0, Mark::Curve)), Err(Fault::Refused(number)), "{query:?}");
    }
    assert_eq!(short_line(-35).run(), Err(10));
    assert_eq!(short_line(-35).verdict(answer(0, 0, Mark::Curve)), Err(Fault::Refused(10)));
}

/// But for 12, which document 02's Card 5 puts between 6 and 7.
#[test]
fn lowest_refusal_first() {
    for (first, (low, fault)) in FAULTS.iter().enumerate() {
        for (high, other) in FAULTS[first..].iter().filter(|(high, _)| high != low).chain(&[(10, (|_| ()) as Edit)]) {
            let mut query = short_line(-35);
            fault(&mut query);
            other(&mut query);
            assert_eq!(query.run(), Err(*low), "{low} and {high}: {query:?}");
        }
    }
}

#[test]
fn accepted_ends_of_the_spans() {
    let near: [Edit; 12] = [
        |query| query.train.braked_weight = 45,
        |query| query.train.braked_weight = 160,
        |query| query.train.length = 0,
        |query| query.train.length = 1000,
        |query| query.train.top_speed = 1,
        |query| query.train.top_speed = 330,
        |query| query.tm = 0,
        |query| query.tm = 2000,
        |query| query.tr = 1,
        |query| query.tr = 3000,
        |query| query.signal = 1,
        |query| query.head = 5,
    ];
    for edit in near {
        let mut query = short_line(0);
        edit(&mut query);
        assert_eq!(query.verdict(query.answer()), Ok(()), "{query:?}");
    }
}

#[test]
fn head_at_the_signal() {
    let at = |gradient, overlap| Query { head: 1000, ..Query::line(&[(0, gradient)], overlap) };
    // Standing still on the level needs no way at all; on a fall the train may start to roll.
    assert_eq!(at(0, 0).run(), Ok(answer(0, 0, Mark::Curve)));
    assert_eq!(at(-1, 0).run(), Ok(answer(0, 0, Mark::Release)));
    assert_eq!(at(0, 120).run(), Ok(answer(37, 37, Mark::Release)));
    assert_eq!(Query { head: 1001, ..at(0, 120) }.run(), Err(9));
}

/// BW 45 has 0.362 m/s² in the ramp: too little on -35.
///
/// In an overlap of 1 m the ramp is never the only weak model: its stretches, by Card 2 those from the tail of a train
/// at the signal to the signal's own point, are all in the way ahead, where the step model has 0.57 for the ramp's 0.9.
/// Hence a stretch that starts 1 m past the signal.
#[test]
fn ramp_too_weak_alone() {
    let query = |overlap| Query { train: WEAK, ..Query::line(&[(0, 0), (1001, -35)], overlap) };
    assert_eq!(greatest_place(45, -35, 1, 200, 400, FIRST_VALUES.inertia), Err(10));
    assert!(exact_p(WEAK, 1, 1, 0).is_ok());
    assert_eq!(query(0).answer().mark, Mark::Curve);
    assert_eq!(query(1).answer().mark, Mark::Curve);
    assert_eq!(query(2).run(), Err(10));
    assert_eq!(query(2).verdict(query(1).answer()), Err(Fault::Refused(10)));
}

/// BW 45 has 0.229 m/s² in the step model at K0 = 1: too little on -19, enough on -18.
#[test]
fn step_too_weak_alone() {
    for overlap in [0, 1, 500] {
        let query = |gradient| Query { train: WEAK, ..Query::line(&[(0, gradient), (500, 0)], overlap) };
        assert!(greatest_place(45, -19, 1, 200, 400, FIRST_VALUES.inertia).is_ok());
        assert_eq!(query(-19).run(), Err(10), "overlap {overlap}");
        assert_eq!(query(-19).verdict(query(0).answer()), Err(Fault::Refused(10)), "overlap {overlap}");
        // What lies behind the tail is not consulted, what lies under it is (Card 2).
        assert!(Query { head: 700, ..query(-19) }.run().is_ok(), "overlap {overlap}");
        assert_eq!(Query { head: 699, ..query(-19) }.run(), Err(10), "overlap {overlap}");
        // What lies past the signal only the ramp is, and for it -19 is not too much.
        let past = Query { train: WEAK, ..Query::line(&[(0, 0), (1001, -19)], overlap) };
        assert_eq!(past.verdict(past.answer()), Ok(()), "overlap {overlap}");
    }
}

/// On -18 BW 45 has 0.0527 m/s² at V0 = 0 and 0.0412 at any other: the release speed decides, not the overlap.
#[test]
fn refusal_10_is_decided_at_the_release_speed() {
    let query = |overlap, tm| Query { train: WEAK, tm, tr: 1, ..Query::line(&[(0, -18)], overlap) };
    let without = query(0, 0).answer();
    assert_eq!((without.release, without.mark), (0, Mark::Curve));
    assert_eq!(query(1, 0).run(), Err(10));
    // After 20 s without brake 1 m is not enough for 1 km/h.
    assert_eq!(query(1, 2000).run(), Ok(without));
    // At 100 km/h the dp of V0 = 1 would do.
    assert!(step(WEAK, 100, 1, -18).is_ok());
}

/// With no overlap the answer tells the gradient ahead alone.
#[test]
fn points_of_the_way_ahead() {
    let level = Query::line(&[(0, 0)], 0).answer();
    let falling = Query::line(&[(0, -10)], 0).answer();
    assert_ne!(level, falling);
    assert_eq!(Query::line(&[(0, 0), (1000, -10)], 0).answer(), falling, "the signal's own point");
    assert_eq!(Query::line(&[(0, 0), (1001, -10)], 0).answer(), level, "past the signal");
    assert_eq!(Query::line(&[(0, 0), (1, -10), (2, 0)], 0).answer(), falling, "within");
    assert_eq!(Query::line(&[(0, 0), (400, -10), (600, 5)], 0).answer(), falling, "the least, not the last");
    // Card 2: 200 m behind the head is the tail.
    let from_300 = |stretches| Query { head: 300, ..Query::line(stretches, 0) }.answer();
    assert_ne!(from_300(&[(0, 0)]), from_300(&[(0, -10)]));
    assert_eq!(from_300(&[(0, -10), (300, 0)]), from_300(&[(0, -10)]), "behind the head");
    assert_eq!(from_300(&[(0, 0), (200, -10), (201, 0)]), from_300(&[(0, -10)]), "between tail and head");
    assert_eq!(from_300(&[(0, -10), (101, 0)]), from_300(&[(0, -10)]), "the tail's own point");
    assert_eq!(from_300(&[(0, -10), (100, 0)]), from_300(&[(0, 0)]), "behind the tail");
}

/// The release speed tells the gradient of the overlap alone. By Card 2 that starts 200 m before the signal.
#[test]
fn points_of_the_overlap() {
    let release = |stretches| Query::line(stretches, 120).answer().release;
    let (level, falling) = (release(&[(0, 0)]), release(&[(0, -20)]));
    assert!(level == 37 && falling < 37, "{falling}");
    assert_eq!(release(&[(0, -20), (800, 0)]), level, "behind the tail");
    assert_eq!(release(&[(0, -20), (801, 0)]), falling, "the tail's own point");
    assert_eq!(release(&[(0, 0), (900, -20), (901, 0)]), falling, "between tail and signal");
    assert_eq!(release(&[(0, 0), (1000, -20), (1001, 0)]), falling, "the signal's own point");
    assert_eq!(release(&[(0, 0), (1119, -20)]), falling, "the last metre");
    assert_eq!(release(&[(0, 0), (1120, -20)]), level, "the overlap's end");
    assert_eq!(release(&[(0, 0), (1050, -20), (1051, 7)]), falling, "the least, not the last");
}

/// The permitted speed of the program's train, but for its length, with 1,057 m to the signal and no overlap.
///
/// It is 90 on the level, document 01's figure, and 79 on -10, where P is 1,046.462 m from 79 and 1,068.548 m from 80.
/// The electropneumatic brake keeps the length out of P.
fn permitted_from(length: u32, stretches: &[(u32, i16)], head: u32) -> u32 {
    let line = sheet(stretches, &[(head + 1057, 0)], 4000);
    Query { train: Train { length, ..EP }, head, ..Query::new(line) }.answer().permitted
}

/// The release speed of that train in an overlap of 120 m past a signal at this place.
///
/// It is 37 on the level, document 01's figure, and 30 on -20, where the ramp takes 116.770 m from 30 and 122.974 m
/// from 31. Where the head is does not change it.
fn release_at(length: u32, stretches: &[(u32, i16)], place: u32) -> u32 {
    let query = Query { train: Train { length, ..EP }, ..Query::new(sheet(stretches, &[(place, 120)], 4000)) };
    let release = query.answer().release;
    assert_eq!(Query { head: place, ..query }.answer().release, release, "L {length}, {stretches:?}, signal {place}");
    release
}

/// Document 02, Card 2: the tail one metre before a stretch's start, on it, and one metre behind it.
#[test]
fn the_tail_at_a_start() {
    for length in LENGTHS {
        // The fall ends at 300 m.
        for (tail, way, overlap) in [(299, 79, 30), (300, 90, 37), (301, 90, 37)] {
            let head = tail + length;
            assert_eq!(permitted_from(length, &[(0, -10), (300, 0)], head), way, "L {length}, tail {tail}");
            assert_eq!(release_at(length, &[(0, -20), (300, 0)], head), overlap, "L {length}, tail {tail}");
        }
        // The fall is the metre from 300 m on.
        for (tail, way, overlap) in [(299, 79, 30), (300, 79, 30), (301, 90, 37)] {
            let head = tail + length;
            assert_eq!(permitted_from(length, &[(0, 0), (300, -10), (301, 0)], head), way, "L {length}, tail {tail}");
            assert_eq!(release_at(length, &[(0, 0), (300, -20), (301, 0)], head), overlap, "L {length}, tail {tail}");
        }
    }
}

/// Document 02, Card 2: where head or signal less L is below 0, the gradient starts at 0, and nothing is refused.
#[test]
fn the_tail_at_the_lines_beginning() {
    for length in LENGTHS {
        for head in [0, length / 2, length.saturating_sub(1), length] {
            assert_eq!(permitted_from(length, &[(0, -10), (1, 0)], head), 79, "L {length}, head {head}");
            assert_eq!(release_at(length, &[(0, -20), (1, 0)], head), 30, "L {length}, signal {head}");
        }
        assert_eq!(permitted_from(length, &[(0, -10), (1, 0)], length + 1), 90, "L {length}");
        assert_eq!(release_at(length, &[(0, -20), (1, 0)], length + 1), 37, "L {length}");
    }
}

/// Document 02, Card 2's own train: 600 m of freight, its head on the level and most of its wagons on a falling grade.
///
/// In 50 m the ramp stops 19 km/h on -12 (49.910 m, from 20 53.824) and 21 on the level (47.134 m, from 22 50.611). In
/// 490 m P brings 24 km/h to 19 on -12 (478.626 m, from 25 498.872), and 34 to 21 on the level (478.186 m, from 35
/// 496.487). With the head at the signal the tail, at 990 m, is still on the fall.
#[test]
fn the_tail_on_the_hill() {
    let train = Train { freight: true, electropneumatic: false, length: 600, ..EP };
    let on =
        |stretches, signal| Query { train, head: signal - 490, ..Query::new(sheet(stretches, &[(signal, 50)], 4000)) };
    let (hill, falling, level) = ([(0, -12), (1000, 0)], [(0, -12)], [(0, 0)]);
    assert_eq!(on(&hill, 1590).run(), Ok(answer(19, 24, Mark::Curve)));
    assert_eq!(on(&falling, 1590).run(), Ok(answer(19, 24, Mark::Curve)));
    assert_eq!(on(&level, 1590).run(), Ok(answer(21, 34, Mark::Curve)));
    // The level line's answer would be too fast for it.
    assert_eq!(on(&hill, 1590).verdict(answer(21, 34, Mark::Curve)), Err(Fault::Beyond(20)));
    // When the last wagon is off the fall, with the head at 1,600 m, the hill counts no more.
    assert_eq!(on(&hill, 2090).run(), Ok(answer(21, 34, Mark::Curve)));
    assert_ne!(on(&hill, 2089).run(), on(&hill, 2090).run());
}

/// Document 02, Card 2, leaves it so: the points between tail and signal are no overlap.
///
/// BW 45 is too weak on -18 for any V0 above 0. On the level its 0.362 m/s² stop 3 km/h in 0.964 m, and 4 in 1.711.
/// A ramp consulted all the same would not show: it fits no speed into 0 m, and is weaker than the step model nowhere.
#[test]
fn an_overlap_of_0_consults_nothing() {
    for length in LENGTHS {
        let line = |overlap| sheet(&[(0, -18), (1500, 0)], &[(1500, overlap)], 2000);
        let train = Train { length, ..WEAK };
        let query = |overlap| Query { train, tm: 0, tr: 1, head: 1500, ..Query::new(line(overlap)) };
        let (without, with) = match length {
            0 => (Ok(answer(0, 0, Mark::Curve)), Ok(answer(3, 3, Mark::Release))),
            _ => (Ok(answer(0, 0, Mark::Release)), Err(10)),
        };
        assert_eq!(query(0).run(), without, "L {length}");
        assert_eq!(query(1).run(), with, "L {length}");
        assert_eq!(query(0).verdict(answer(1, 1, Mark::Release)), Err(Fault::Beyond(1)), "L {length}");
    }
}

#[test]
fn overlap_up_to_the_line_end() {
    let query = Query::new(sheet(&[(0, 0), (1060, -20)], &[(1000, 120)], 1120));
    assert_eq!(query.answer().release, Query::line(&[(0, -20)], 120).answer().release);
}

#[test]
fn ends_of_the_climbs() {
    let train = |top_speed| Train { top_speed, ..EP };
    let at_the_signal = |top_speed| Query { train: train(top_speed), head: 1000, ..Query::line(&[(0, 0)], 120) };
    for (top_speed, release) in [(1, 1), (36, 36), (37, 37), (38, 37), (330, 37)] {
        assert_eq!(at_the_signal(top_speed).run(), Ok(answer(release, release, Mark::Release)), "top {top_speed}");
    }
    let long = |top_speed| Query { train: train(top_speed), ..Query::new(sheet(&[(0, 0)], &[(20_000, 2000)], 22_000)) };
    for (top_speed, release) in [(1, 1), (99, 99), (100, 100), (101, 100), (330, 100)] {
        assert_eq!(long(top_speed).run(), Ok(answer(release, top_speed, Mark::Curve)), "top {top_speed}");
    }
    // After 20 s without brake 1 km/h takes more than 5 m: as if there were no overlap.
    let none = |overlap| Query { tm: 2000, ..Query::line(&[(0, 0)], overlap) }.answer();
    assert_eq!((none(5).release, none(5)), (0, none(0)));
    assert_eq!(none(6).release, 1);
}

/// The climb goes by the ramp's answer, which may be a little more than the way: here by less than 2 mm.
#[test]
fn an_overlap_that_just_fits() {
    for (v, tm, tr, overlap, distance, release) in [(7, 251, 400, 11, 11_000, 7), (5, 69, 100, 3, 3001, 4)] {
        assert_eq!(ramp(100, 0, v, tm, tr, FIRST_VALUES.inertia).map(|stop| stop.distance), Ok(distance), "V {v}");
        let query = Query { tm, tr, ..Query::line(&[(0, 0)], overlap) };
        assert_eq!(query.answer().release, release, "V {v}");
    }
}

/// A long freight train on -34: P to V0 = 1 is 1,290.492 m from 1 km/h, 1,208.603 from 2, 1,224.596 from 3, 1,260.176
/// from 4 and 1,303.510 from 5: K0 grows with V, and the little that dp leaves over the fall grows faster still.
/// Its wagons are on the fall past the signal too (Card 2): there the ramp takes 8.137 m from 1 km/h, 10.814 from 2.
#[test]
fn the_first_misfit_ends_the_climb() {
    let freight = Train { freight: true, electropneumatic: false, length: 1000, ..EP };
    let ways = [1, 2, 3, 4, 5].map(|v| step(freight, v, 1, -34).expect("strong enough")[3]);
    assert_eq!(ways, [1_290_492, 1_208_603, 1_224_596, 1_260_176, 1_303_510]);
    let line = sheet(&[(0, -34), (2000, 0)], &[(2000, 10)], 2010);
    let query = |distance: u32| Query { train: freight, head: 2000 - distance, ..Query::new(line.clone()) };
    // 2 and 3 would fit into 1,250 m, but 1 does not.
    for (distance, wanted) in [(1250, answer(1, 1, Mark::Release)), (1290, answer(1, 1, Mark::Release))] {
        assert_eq!(query(distance).run(), Ok(wanted));
        assert_eq!(query(distance).verdict(wanted), Ok(()));
        assert_eq!(query(distance).verdict(answer(1, 3, Mark::Curve)), Err(Fault::Mark));
    }
    assert_eq!(query(1291).run(), Ok(answer(1, 4, Mark::Curve)));
    assert_eq!(query(1304).run(), Ok(answer(1, 5, Mark::Curve)));
}

/// The P of 90 km/h to 0 is 1,056.282 m on the level, document 01's figure.
#[test]
fn a_distance_that_just_fits() {
    let query = |head| Query { head, ..Query::new(sheet(&[(0, 0)], &[(2000, 0)], 2001)) };
    assert_eq!(query(2000 - 1057).answer().permitted, 90);
    assert_eq!(query(2000 - 1056).answer().permitted, 89);
    // P = 3.0 V + 11.1 V = 14.1 V at V = V0, and 36 km/h are 10 m/s: 141 m exactly.
    let creep = |head| Query { train: Train { top_speed: 36, ..EP }, head, ..Query::line(&[(0, 0)], 120) };
    assert_eq!(creep(1000 - 141).run(), Ok(answer(36, 36, Mark::Curve)));
    assert_eq!(creep(1000 - 140).run(), Ok(answer(36, 36, Mark::Release)));
}

#[test]
fn ceilings_of_the_permitted_speed() {
    let ceilings = |top_speed| {
        let query = Query::new(sheet(&[(0, 0)], &[(20_000, 120)], 22_000));
        Query { train: Train { top_speed, ..EP }, ..query }.answer().ceilings
    };
    assert_eq!(ceilings(110), [13_680, 13_800, 14_100]);
    assert_eq!(ceilings(111), [13_804, 13_926, 14_229]);
    assert_eq!(ceilings(210), [25_800, 26_400, 27_000]);
    assert_eq!(ceilings(330), [40_200, 40_800, 41_400]);
}

#[test]
fn wrong_answers_at_a_release_mark() {
    let query = Query::new(example());
    for (release, permitted, mark, verdict) in [
        (37, 37, Mark::Release, Ok(())),
        (36, 36, Mark::Release, Err(Fault::Short)),
        (0, 0, Mark::Curve, Err(Fault::Short)),
        (38, 38, Mark::Release, Err(Fault::Beyond(38))),
        (100, 100, Mark::Release, Err(Fault::Beyond(38))),
        (101, 101, Mark::Release, Err(Fault::TooFast)),
        (37, 36, Mark::Release, Err(Fault::Permitted)),
        (37, 38, Mark::Release, Err(Fault::Permitted)),
        (37, 37, Mark::Curve, Err(Fault::Mark)),
    ] {
        assert_eq!(query.verdict(answer(release, permitted, mark)), verdict, "{release} {permitted} {mark}");
    }
}

#[test]
fn wrong_answers_at_a_curve_mark() {
    let bare = Query { signal: 1, ..Query::new(example()) };
    let overlapped = Query::line(&[(0, 0)], 120);
    let Answer { permitted: last, mark, .. } = overlapped.answer();
    assert!(mark == Mark::Curve && (38..100).contains(&last), "{last}");
    for (query, release, permitted, mark, verdict) in [
        (&bare, 0, 90, Mark::Curve, Ok(())),
        (&bare, 0, 89, Mark::Curve, Err(Fault::Slow)),
        (&bare, 0, 0, Mark::Curve, Err(Fault::Slow)),
        (&bare, 0, 91, Mark::Curve, Err(Fault::Unfit(91))),
        (&bare, 0, 100, Mark::Curve, Err(Fault::Unfit(91))),
        (&bare, 0, 101, Mark::Curve, Err(Fault::Permitted)),
        (&bare, 0, 90, Mark::Release, Err(Fault::Mark)),
        (&bare, 0, 0, Mark::Release, Err(Fault::Mark)),
        (&bare, 1, 90, Mark::Curve, Err(Fault::Beyond(1))),
        (&overlapped, 37, last, Mark::Curve, Ok(())),
        (&overlapped, 36, last, Mark::Curve, Err(Fault::Short)),
        (&overlapped, 38, last, Mark::Curve, Err(Fault::Beyond(38))),
        (&overlapped, 37, last - 1, Mark::Curve, Err(Fault::Slow)),
        (&overlapped, 37, last + 1, Mark::Curve, Err(Fault::Unfit(last + 1))),
        (&overlapped, 37, 36, Mark::Curve, Err(Fault::Permitted)),
        (&overlapped, 37, 37, Mark::Release, Err(Fault::Mark)),
    ] {
        assert_eq!(query.verdict(answer(release, permitted, mark)), verdict, "{release} {permitted} {mark}");
    }
}

/// Head at the signal, so that release and permitted speed are one. The place of V, raised, is known to the millimetre.
#[test]
fn the_overlaps_end_to_the_millimetre() {
    for (v, tm, tr, overlap, place, verdict, verdict_below) in [
        (7, 224, 100, 8, 7995, Ok(()), Err(Fault::Short)),
        (4, 53, 100, 2, 1996, Ok(()), Err(Fault::Short)),
        (5, 69, 100, 3, 3000, Ok(()), Ok(())),
        (7, 70, 100, 5, 5001, Err(Fault::Beyond(7)), Ok(())),
    ] {
        let (lower, upper) = greatest_place(100, 0, v, tm, tr, FIRST_VALUES.inertia).expect("strong enough");
        assert_eq!([millimetres(&lower), millimetres(&upper)], [place; 2], "V {v}");
        let query = Query { tm, tr, head: 1000, ..Query::line(&[(0, 0)], overlap) };
        assert_eq!(query.verdict(answer(v, v, Mark::Release)), verdict, "V {v}");
        assert_eq!(query.verdict(answer(v - 1, v - 1, Mark::Release)), verdict_below, "V {v} less 1");
        assert_eq!(query.verdict(query.answer()), Ok(()), "V {v}");
    }
}

/// For a stop less than 5 mm before a whole metre: that metre, for the overlap's end, and the millimetres missed.
fn just_before_a_metre(train: Train, gradient: i32, v: u32, tm: u32, tr: u32) -> Option<(u16, Fraction)> {
    let inertia = train.coefficients.inertia;
    let (_, upper) = greatest_place(train.braked_weight, gradient, v, tm, tr, inertia).expect("strong enough");
    let overlap = upper.raised() as u16;
    let missed = Fraction::from(1000 * u32::from(overlap)) - in_millimetres(&upper);
    (missed < Fraction::from(5)).then_some((overlap, missed))
}

/// Document 02, Card 13: though V keeps within the overlap, 1 km/h less may be the release speed too, but only where
/// the stop from V misses the end by less than 2 mm. With the third demand's own 5 mm it might be in all of these.
#[test]
fn two_millimetres_before_the_overlaps_end() {
    let (mut near, mut short) = (0, 0);
    let runs = [(100, 0, 400), (45, -12, 900), (160, 35, 50), (105, 7, 3000)];
    for ((braked_weight, gradient, tr), v) in runs.into_iter().flat_map(|run| [2, 3, 9].map(|v| (run, v))) {
        let train = Train { braked_weight, ..EP };
        for tm in 0..=2000 {
            let Some((overlap, missed)) = just_before_a_metre(train, gradient.into(), v, tm, tr) else {
                continue;
            };
            let query = Query { train, tm, tr, head: 1000, ..Query::line(&[(0, gradient)], overlap) };
            let wanted = if missed < Fraction::from(2) { Ok(()) } else { Err(Fault::Short) };
            assert_eq!(query.verdict(answer(v - 1, v - 1, Mark::Release)), wanted, "{query:?}");
            assert_eq!(query.verdict(answer(v, v, Mark::Release)), Ok(()), "{query:?}");
            assert_eq!(query.verdict(query.answer()), Ok(()), "{query:?}");
            *(if wanted.is_ok() { &mut near } else { &mut short }) += 1;
        }
    }
    assert!(near > 20 && short > 20, "{near} less than 2 mm before the end, {short} from 2 to 5 mm");
}

#[test]
fn demand_at_random() {
    let mut numbers = Numbers(0x9E37_79B9_7F4A_7C15);
    let mut seen = [0; 6];
    for _ in 0..400 {
        let query = numbers.accepted();
        let answer = query.answer();
        assert_eq!(query.verdict(answer), Ok(()), "{query:?} {answer:?}");
        assert_eq!(ceilings(answer.permitted), Ok(answer.ceilings), "{query:?}");
        let Answer { release, permitted, mark, .. } = answer;
        let fastest = query.train.top_speed.min(100);
        let kinds = [
            release == 0,
            release > 0 && release < fastest,
            release == fastest,
            mark == Mark::Release,
            mark == Mark::Curve && permitted < query.train.top_speed,
            mark == Mark::Curve && permitted == query.train.top_speed,
        ];
        seen.iter_mut().zip(kinds).for_each(|(count, kind)| *count += u32::from(kind));
    }
    assert!(seen.iter().all(|&count| count > 30), "{seen:?}");
}

/// A release speed 2 km/h off is always seen, 1 km/h only where the stop is not within 2 mm of the overlap's end.
#[test]
fn wrong_answers_at_random() {
    let mut numbers = Numbers(0x0123_4567_89AB_CDEF);
    for _ in 0..80 {
        let query = numbers.accepted();
        let right = query.answer();
        let other = if right.mark == Mark::Curve { Mark::Release } else { Mark::Curve };
        let mut wrong = vec![
            Answer { mark: other, ..right },
            Answer { permitted: right.permitted + 1, ..right },
            Answer { release: right.release + 2, ..right },
        ];
        if right.permitted > 0 {
            wrong.push(Answer { permitted: right.permitted - 1, ..right });
        }
        if right.release > 1 {
            wrong.push(Answer { release: right.release - 2, ..right });
        }
        for wrong in wrong {
            let verdict = query.verdict(wrong);
            assert!(!matches!(verdict, Ok(()) | Err(Fault::Refused(_))), "{query:?} {wrong:?} {verdict:?}");
        }
    }
}

#[test]
fn a_split_stretch_and_what_lies_outside() {
    // The tail is at 100 m.
    let query = Query { head: 300, ..Query::line(&[(0, -5), (900, 3)], 120) };
    let with = |stretches| Query { sheet: Query::line(stretches, 120).sheet, ..query.clone() }.answer();
    assert_eq!(with(&[(0, -5), (700, -5), (900, 3), (1000, 3), (1050, 3)]), query.answer());
    assert_eq!(with(&[(0, -20), (100, -5), (900, 3), (1120, -20)]), query.answer());
    assert_ne!(with(&[(0, -20), (101, -5), (900, 3)]), query.answer());
    assert_ne!(with(&[(0, -5), (900, 3), (1119, -20)]), query.answer());
}

/// Document 02, Card 2: sheets that agree from the tail on get the same answer, at random whatever the rest.
#[test]
fn agreeing_sheets_at_random() {
    let mut numbers = Numbers(0xD1B5_4A32_D192_ED03);
    let (mut accepted, mut differing, mut clear) = (0, 0, 0);
    for _ in 0..400 {
        let query = numbers.query();
        let tail = query.head.saturating_sub(query.train.length);
        let agreeing = numbers.agreeing(&query, tail);
        assert_eq!(query.run(), agreeing.run(), "{query:?} {agreeing:?}");
        accepted += u32::from(query.run().is_ok());
        differing += u32::from(query.sheet != agreeing.sheet);
        clear += u32::from(tail > 0);
    }
    assert!(accepted > 200 && differing > 350, "{accepted} accepted, {differing} sheets that differ");
    assert!(clear > 50, "{clear} with points behind the tail");
}

/// Document 02, Card 2: sheets that agree from the head on, but not from the tail on, need not get the same answer.
#[test]
fn sheets_that_agree_from_the_head_on() {
    // 600 m of train with the tail at 743 m, or one metre farther back.
    let (one, other) = ([(0, -10), (743, 0)], [(0, 0)]);
    assert_eq!([permitted_from(600, &one, 1343), permitted_from(600, &other, 1343)], [90, 90]);
    assert_eq!([permitted_from(600, &one, 1342), permitted_from(600, &other, 1342)], [79, 90]);
    // The same of the overlap, with the head at the signal.
    let (one, other) = ([(0, -20), (743, 0)], [(0, 0)]);
    assert_eq!([release_at(600, &one, 1343), release_at(600, &other, 1343)], [37, 37]);
    assert_eq!([release_at(600, &one, 1342), release_at(600, &other, 1342)], [30, 37]);
    let mut numbers = Numbers(0xE703_7ED1_A0B4_28DB);
    let mut differing = 0;
    for _ in 0..200 {
        let query = numbers.query();
        let agreeing = numbers.agreeing(&query, query.head);
        differing += u32::from(query.run() != agreeing.run());
    }
    assert!(differing > 40, "{differing} answers that differ");
}
