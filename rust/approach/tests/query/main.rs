//! The library's approach answers against the reference, on accepted and refused queries, and the desk's third demand of the
//! accepted ones.
use approach::{Approach, Brake, Ceilings, Kmh, Mark, Metre, PerMille, Refusal, Train};
use asked::{accepted, check, one_signal, refusal, sheet};
use inputs::{without_stretches, Line, Query, Random, EXAMPLE, EXAMPLE_TRAIN};
use reference::approach::printed;

mod agreement;
mod asked;
mod coefficients;
mod tail;

const WEAK: Train = Train { braked_weight: 45, ..EXAMPLE_TRAIN };
const LONG_FREIGHT: Train =
    Train { brake: Brake::Freight, electropneumatic: false, length: Metre(1000), ..EXAMPLE_TRAIN };

/// Mostly a line where speeds differ, now and then any line.
fn line(random: &mut Random) -> Line {
    match random.below(16) {
        0 => {
            let (stretches, signals) = (1 + random.below(12) as u32, 1 + random.below(8) as u32);
            random.line(stretches, signals)
        }
        _ => random.short_line(),
    }
}

/// The number of a signal of the line, and a head at it or before it.
fn signal_and_head(random: &mut Random, line: &Line) -> (u32, u32) {
    let signal = random.below(line.places.len() as u64) as usize;
    let place = line.places[signal];
    (signal as u32, place - random.below_any(&[1, 300, 6000]).min(place))
}

/// TM and TR, short ones not rare.
fn times(random: &mut Random) -> (u32, u32) {
    match random.below(2) {
        0 => (random.near(0, 200), random.near(1, 400)),
        _ => (random.near(0, 2000), random.near(1, 3000)),
    }
}

/// Mostly a query of which each part by itself is accepted.
fn any_query(random: &mut Random) -> Query {
    let line = line(random);
    let (signal, head) = signal_and_head(random, &line);
    let past = line.places[signal as usize] + 1;
    let mut sheet = line.written();
    random.damage(&mut sheet);
    let (mut train, (tm, tr)) = (random.train(), times(random));
    if random.below(3) == 0 {
        train.top_speed = Kmh(1 + random.below_any(&[30, 120]));
    }
    let signal = random.or_outside(signal, line.places.len() as u32);
    Query { train, tm, tr, sheet, signal, head: random.or_outside(head, past) }
}

/// What an accepted answer may look like: each has to be seen.
fn kinds(train: Train, a: Approach) -> [bool; 6] {
    let fastest = train.top_speed.min(Kmh(100));
    [
        a.release == Kmh(0),
        a.release > Kmh(0) && a.release < fastest,
        a.release == fastest,
        a.mark == Mark::Release,
        a.mark == Mark::Curve && a.release < a.permitted && a.permitted < train.top_speed,
        a.mark == Mark::Curve && a.permitted == train.top_speed,
    ]
}

#[test]
fn answers_at_random() {
    let mut random = Random(61);
    let (mut seen, mut looks) = ([0; 12], [0; 6]);
    for _ in 0..12_000 {
        let q = any_query(&mut random);
        let answer = check(&q);
        seen[answer.err().unwrap_or(0) as usize] += 1;
        if let Ok(answer) = answer {
            looks.iter_mut().zip(kinds(q.train, answer)).for_each(|(count, kind)| *count += kind as u32);
        }
    }
    for refusal in [0, 1, 2, 3, 6, 7, 8, 9, 10] {
        assert!(seen[refusal] > 30, "too few answers with {refusal}: {seen:?}");
    }
    assert!(looks.iter().all(|&count| count > 100), "{looks:?}");
}

#[test]
fn the_printed_example() {
    let lines: String = (0..2)
        .map(|signal| {
            let Approach {
                release: Kmh(release),
                permitted: Kmh(permitted),
                mark,
                ceilings: Ceilings { w, sbi, ebi },
                ..
            } = accepted(&Query { signal, ..Query::printed(EXAMPLE.to_vec()) });
            format!("{signal} {release} {permitted} {mark} {} {} {}\n", w.0, sbi.0, ebi.0)
        })
        .collect();
    assert_eq!(lines, "0 37 37 release 4920 5040 5340\n1 0 90 curve 11280 11400 11700\n");
    assert_eq!(lines, printed(&EXAMPLE));
}

/// The last signal and the first number past it, the head on either side of each.
#[test]
fn signal_numbers_and_heads() {
    let places = [0, 1, 500, 1057, 1999];
    let line = sheet(&[(0, 2), (700, -3)], &places.map(|place| (place, 1)), 2000);
    let ask = |signal, head| refusal(&Query { signal, head, ..Query::printed(line.clone()) });
    for (signal, place) in (0..).zip(places) {
        assert_eq!([0, place.saturating_sub(1), place].map(|head| ask(signal, head)), [0; 3], "signal {signal}");
        assert_eq!([place + 1, 2000, u32::MAX].map(|head| ask(signal, head)), [9; 3], "signal {signal}");
    }
    // The second would read the first signal again if its place in the bytes were cut to 32 bits.
    for signal in [5, 1 << 31, u32::MAX] {
        assert_eq!([0, u32::MAX].map(|head| ask(signal, head)), [8; 2], "signal {signal}");
    }
    let bare = sheet(&[(0, 0)], &[], 2000);
    assert_eq!(refusal(&Query::printed(bare)), 8);
}

/// A fall from a point on, up to it, and of one metre, about the head and each end of the two spans, which begin 200 m behind
/// the head and behind the signal.
#[test]
fn stretches_about_the_spans() {
    let mut answers = Vec::new();
    for overlap in [0, 1, 2, 120] {
        let end = 1000 + overlap as u32;
        for point in [199, 200, 201, 400, 799, 800, 801, 999, 1000, 1001, end - 1, end, end + 1] {
            for stretches in [[(0, 0), (point, -9), (30_000, -9)], [(0, -9), (point, 0), (30_000, 4)]] {
                answers.push(accepted(&Query { head: 400, ..one_signal(&stretches, overlap) }));
            }
            let dip = [(0, 3), (point, -20), (point + 1, 3)];
            answers.push(accepted(&Query { head: 400, ..one_signal(&dip, overlap) }));
        }
    }
    answers.sort_by_key(|a| (a.release, a.permitted));
    answers.dedup_by_key(|a| without_stretches(*a));
    assert!(answers.len() > 10, "{answers:?}");
}

/// The same, said without the reference: which stretches count and which do not.
#[test]
fn which_stretches_count() {
    let ahead = |stretches: &[_]| without_stretches(accepted(&Query { head: 400, ..one_signal(stretches, 0) }));
    let (level, falling) = (ahead(&[(0, 0)]), ahead(&[(0, -10)]));
    assert!(falling.permitted < level.permitted);
    assert_eq!(ahead(&[(0, 0), (999, -10)]), falling, "before the signal");
    assert_eq!(ahead(&[(0, 0), (1000, -10)]), falling, "at the signal");
    assert_eq!(ahead(&[(0, 0), (1001, -10)]), level, "past the signal");
    assert_eq!(ahead(&[(0, -10), (201, 0)]), falling, "at the tail");
    assert_eq!(ahead(&[(0, -10), (200, 0)]), level, "behind the tail");
    let release = |stretches: &[_]| accepted(&one_signal(stretches, 120)).release;
    let (level, falling) = (release(&[(0, 0)]), release(&[(0, -20)]));
    assert!(falling < level);
    assert_eq!(release(&[(0, -20), (800, 0)]), level, "behind the tail, the head at the signal");
    assert_eq!(release(&[(0, -20), (801, 0)]), falling, "at the tail, the head at the signal");
    assert_eq!(release(&[(0, 0), (1119, -20)]), falling, "the overlap's last metre");
    assert_eq!(release(&[(0, 0), (1120, -20)]), level, "the overlap's end");
    let to_the_end = Query::printed(sheet(&[(0, 0), (1119, -20)], &[(1000, 120)], 1120));
    assert_eq!(accepted(&to_the_end).release, falling, "an overlap up to the line end");
}

/// The ends of both climbs, and overlaps and distances on either side of what the least speeds need.
#[test]
fn ends_of_the_climbs() {
    let line = |overlap| sheet(&[(0, 0)], &[(25_000, overlap)], 60_000);
    for top_speed in [1, 2, 99, 100, 101, 329, 330] {
        for train in [EXAMPLE_TRAIN, LONG_FREIGHT] {
            let train = Train { top_speed: Kmh(top_speed), ..train };
            for overlap in [0, 1, 5, 6, 30_000] {
                for head in [0, 20_000, 24_990, 24_999, 25_000] {
                    let tm = if overlap < 30_000 { 2000 } else { 200 };
                    refusal(&Query { train, tm, head, ..Query::printed(line(overlap)) });
                }
            }
            let far = accepted(&Query { train, ..Query::printed(line(30_000)) });
            let wanted = (Kmh(top_speed.min(100)), Kmh(top_speed), Mark::Curve);
            assert_eq!((far.release, far.permitted, far.mark), wanted, "{train:?}");
        }
    }
    // After 20 s without brake 1 km/h takes more than 5 m and less than 6.
    let releases = [0, 1, 5, 6].map(|overlap| accepted(&Query { tm: 2000, ..Query::printed(line(overlap)) }).release);
    assert_eq!(releases, [0, 0, 0, 1].map(Kmh));
}

/// A ramp answer and a P distance that just fit, and such that are 1 mm, or a fraction of it, too long.
#[test]
fn what_just_fits() {
    // The ramp answers 11,000 mm at 7 km/h and 3,001 at 5.
    for (tm, tr, overlap, release) in [(251, 400, 11, 7), (69, 100, 3, 4)] {
        assert_eq!(accepted(&Query { tm, tr, ..one_signal(&[(0, 0)], overlap) }).release, Kmh(release));
    }
    // 36 km/h to 36 take 141 m exactly, 90 km/h to 0 take 1,056.282 m.
    let train = Train { top_speed: Kmh(36), ..EXAMPLE_TRAIN };
    let creep = |head| accepted(&Query { train, head, ..one_signal(&[(0, 0)], 120) });
    assert_eq!([859, 860].map(|head| creep(head).mark), [Mark::Curve, Mark::Release]);
    // Raised, 93 km/h to 0 take 1,616,001 mm on -16 and 107 take 1,200,000 on 11.
    for (gradient, distance, permitted) in
        [(0, 1056, 89), (0, 1057, 90), (-16, 1616, 92), (-16, 1617, 93), (11, 1199, 106), (11, 1200, 107)]
    {
        let train = Train { top_speed: Kmh(330), ..EXAMPLE_TRAIN };
        let line = sheet(&[(0, gradient)], &[(2000, 0)], 2001);
        let answer = accepted(&Query { train, head: 2000 - distance, ..Query::printed(line) });
        assert_eq!(answer.permitted, Kmh(permitted), "{distance} m on {gradient}");
    }
}

/// Down -34 a long freight train needs less way from 2 km/h to 1 than from 1 to 1: the first misfit ends the climb. Its wagons
/// are on the fall past the signal too, where 10 m are enough for 1 km/h and not for 2.
#[test]
fn the_first_misfit() {
    let line = sheet(&[(0, -34), (2000, 0)], &[(2000, 10)], 2010);
    for distance in (1200..1310).step_by(5).chain([1290, 1291, 1303, 1304]) {
        let answer = accepted(&Query { train: LONG_FREIGHT, head: 2000 - distance, ..Query::printed(line.clone()) });
        let wanted = match distance {
            ..=1290 => (Kmh(1), Mark::Release),
            1291..=1303 => (Kmh(4), Mark::Curve),
            _ => (Kmh(5), Mark::Curve),
        };
        assert_eq!((answer.permitted, answer.mark), wanted, "{distance} m");
    }
}

/// The ramp alone, the step model alone, and the release speed that decides for the latter.
#[test]
fn too_weak() {
    let ask = |stretches: &[_], overlap| refusal(&Query { train: WEAK, ..one_signal(stretches, overlap) });
    assert_eq!([0, 1, 2].map(|overlap| ask(&[(0, 0), (1001, -35)], overlap)), [0, 0, 10]);
    for overlap in [0, 1, 500] {
        assert_eq!(ask(&[(0, -19), (500, 0)], overlap), 10);
        assert_eq!(ask(&[(0, 0), (1001, -19)], overlap), 0);
    }
    // On -18 it is just strong enough to stop, and not to pass the signal.
    let slow = |overlap, tm| refusal(&Query { train: WEAK, tm, tr: 1, ..one_signal(&[(0, -18)], overlap) });
    assert_eq!([slow(0, 0), slow(1, 0), slow(1, 2000)], [0, 10, 0]);
    for braked_weight in (45..=160).step_by(5) {
        for gradient in -35..=-10 {
            for (stretches, overlap) in
                [([(0, gradient), (1000, 0)], 0), ([(0, gradient), (1000, 0)], 9), ([(0, 0), (1001, gradient)], 9)]
            {
                let train = Train { braked_weight, top_speed: Kmh(20), ..EXAMPLE_TRAIN };
                refusal(&Query { train, ..one_signal(&stretches, overlap) });
            }
        }
    }
}

type Edit = fn(&mut Query);

/// Each breaks one rule, at its nearest end, of a query that is refused by 10.
const FAULTS: [(u32, Edit); 16] = [
    (1, |q| q.train.braked_weight = 44),
    (1, |q| q.train.braked_weight = 47),
    (1, |q| q.train.braked_weight = 165),
    (2, |q| q.train.length = Metre(1001)),
    (3, |q| q.train.top_speed = Kmh(0)),
    (3, |q| q.train.top_speed = Kmh(331)),
    (6, |q| q.tm = 2001),
    (6, |q| q.tr = 0),
    (6, |q| q.tr = 3001),
    (12, |q| q.train.coefficients.kr = 29),
    (12, |q| q.train.coefficients.vc = Kmh(151)),
    (12, |q| q.train.coefficients.inertia.i2 = PerMille(1)),
    (7, |q| q.sheet.push(0)),
    (7, |q| q.sheet.clear()),
    (8, |q| q.signal = 2),
    (9, |q| q.head = 6),
];

/// Of two refusals the one that is decided first.
fn first(one: u32, other: u32) -> u32 {
    let decided = Refusal::DECIDED.map(Refusal::number);
    *decided.iter().find(|number| [one, other].contains(number)).expect("a refusal")
}

#[test]
fn the_first_refusal_that_applies() {
    let weak = Query { train: WEAK, ..Query::printed(sheet(&[(0, -35)], &[(5, 1), (7, 0)], 10)) };
    assert_eq!(refusal(&weak), 10);
    for (one, fault) in FAULTS {
        for (number, other) in FAULTS {
            let mut q = weak.clone();
            fault(&mut q);
            other(&mut q);
            assert_eq!(refusal(&q), first(one, number), "{q:?}");
        }
    }
}
