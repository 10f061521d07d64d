//! Document 02, Card 2: the gradient ahead counts from the tail, and that of the overlap from where the tail is with the head at
//! the signal.
use super::asked::{accepted, answer, check, sheet};
use approach::{Approach, Brake, Kmh, Metre, Train};
use inputs::{without_stretches, Query, Random, EXAMPLE_TRAIN};
use std::collections::BTreeMap;

const LENGTHS: [u32; 4] = [0, 1, 600, 1000];

/// Where a train is while its tail is looked at.
#[derive(Clone, Copy, Debug, PartialEq, Eq, PartialOrd, Ord)]
enum Stands {
    Ahead,
    AtTheSignal,
    /// With less of the line behind the head than the train is long.
    AtTheBeginning,
}

/// Head and signal, such that the tail of the train there is at a point of the line; at the beginning it is at none.
fn places(random: &mut Random, stands: Stands, length: u32, point: u32) -> (u32, u32) {
    let way = random.below_any(&[1, 300, 3000]);
    let there = point + length;
    match stands {
        Stands::Ahead => (there, there + way),
        Stands::AtTheSignal => (there - way.min(there), there),
        Stands::AtTheBeginning => {
            let head = random.below(length.max(1) as u64) as u32;
            (head, head + way)
        }
    }
}

/// Of two stretches: mostly a fall, and a level ahead of it.
fn slopes(random: &mut Random) -> [i16; 2] {
    match random.below(4) {
        0 => [0, 1].map(|_| random.below(71) as i16 - 35),
        _ => [-1 - random.below_any(&[12, 35]) as i16, 0],
    }
}

/// A query on a line of two stretches of which the second starts at a place; and with that start one metre further on.
fn about(random: &mut Random, stands: Stands, length: u32, start: u32, point: u32) -> [Query; 2] {
    let (head, place) = places(random, stands, length, point);
    let overlap = random.below_any(&[1, 20, 200, 1500]) as u16;
    let [behind, before] = slopes(random);
    let train = Train { length: Metre(length), ..random.train() };
    let (tm, tr) = super::times(random);
    [start, start + 1].map(|start| {
        let end = place.max(start) + overlap as u32 + 1;
        let sheet = sheet(&[(0, behind), (start, before)], &[(place, overlap)], end);
        Query { train, tm, tr, sheet, signal: 0, head }
    })
}

/// The tail one metre before a stretch's start, on it and one metre behind it. What is counted is how often the answer is another
/// where that stretch starts one metre further on: it mostly is with the tail on the start, which then is the first stretch's.
#[test]
fn tails_about_a_start() {
    let mut random = Random(63);
    let mut told = BTreeMap::new();
    for round in 0..1200 {
        for length in LENGTHS {
            for stands in [Stands::Ahead, Stands::AtTheSignal, Stands::AtTheBeginning] {
                let (start, beside) = (1 + random.below_any(&[10, 2000]), round % 3);
                let [q, moved] = about(&mut random, stands, length, start, start + beside - 1);
                let differs = check(&q).map(without_stretches) != answer(&moved);
                *told.entry((stands, length, beside)).or_insert(0) += differs as u32;
            }
        }
    }
    for length in LENGTHS {
        for stands in [Stands::Ahead, Stands::AtTheSignal] {
            let [before, on, behind] = [0, 1, 2].map(|beside| told[&(stands, length, beside)]);
            assert!(on > 60 && on > 3 * before.max(behind), "{length} m {stands:?}: {before} {on} {behind}");
        }
    }
}

/// A passenger train with its brake working has the same distances at any length, so gradients alone tell answers apart.
fn from(length: u32, head: u32, stretches: &[(u32, i16)], signal: (u32, u16)) -> Approach {
    let train = Train { length: Metre(length), top_speed: Kmh(330), ..EXAMPLE_TRAIN };
    accepted(&Query { train, head, ..Query::printed(sheet(stretches, &[signal], 5000)) })
}

/// Said without the reference: which points count, with the tail before, on and behind a stretch's start.
#[test]
fn which_points_count() {
    for length in LENGTHS {
        let ahead = |stretches: &[_]| from(length, 2400, stretches, (3000, 0)).permitted;
        let (level, falling, tail) = (ahead(&[(0, 0)]), ahead(&[(0, -10)]), 2400 - length);
        assert!(falling < level, "{length} m");
        let on = [tail - 1, tail, tail + 1].map(|start| ahead(&[(0, -10), (start, 0)]));
        assert_eq!(on, [level, level, falling], "{length} m ahead");
        let past = |stretches: &[_]| from(length, 2400, stretches, (3000, 120)).release;
        let (level, falling, tail) = (past(&[(0, 0)]), past(&[(0, -20)]), 3000 - length);
        assert!(falling < level, "{length} m");
        let on = [tail - 1, tail, tail + 1].map(|start| past(&[(0, -20), (start, 0)]));
        assert_eq!(on, [level, level, falling], "{length} m past the signal");
    }
}

/// A train longer than the line behind its head is no other case: its tail counts as at 0.
#[test]
fn at_the_lines_beginning() {
    for length in LENGTHS {
        let ahead = |head, stretches: &[_]| from(length, head, stretches, (3000, 0)).permitted;
        let past = |place, stretches: &[_]| from(length, 0, stretches, (place, 120)).release;
        for place in [0, length / 2, length.saturating_sub(1), length, length + 1] {
            // Only its first metre falls.
            let [permitted, release] = [ahead(place, &[(0, -20), (1, 0)]), past(place, &[(0, -20), (1, 0)])];
            let [level, falling] = [0, -20].map(|slope| [ahead(place, &[(0, slope)]), past(place, &[(0, slope)])]);
            assert!(falling[0] < level[0] && falling[1] < level[1], "{length} m at {place}");
            let wanted = if place > length { level } else { falling };
            assert_eq!([permitted, release], wanted, "{length} m at {place}");
        }
    }
}

/// The card's own train: 600 m of freight wagons, the head on the level, most of them on a falling grade.
#[test]
fn the_tail_on_the_hill() {
    let train = Train {
        brake: Brake::Freight,
        electropneumatic: false,
        length: Metre(600),
        braked_weight: 90,
        ..EXAMPLE_TRAIN
    };
    let on = |stretches: &[_]| {
        let line = sheet(stretches, &[(2500, 150)], 4000);
        accepted(&Query { train, head: 1050, ..Query::printed(line) })
    };
    let (level, falling) = (on(&[(0, 0)]), on(&[(0, -12)]));
    let hill = on(&[(0, -12), (1000, 0)]);
    assert!(hill.permitted < level.permitted, "{hill:?} {level:?}");
    // With its head at the signal it has left the hill, as it has one that ends at 1,900 m, but not one that ends at 1,901.
    assert_eq!((hill, hill.release), (on(&[(0, -12), (1900, 0)]), level.release));
    assert_eq!(on(&[(0, -12), (1901, 0)]), falling);
}
