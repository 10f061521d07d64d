//! The library's distances, rows and ceilings against the reference, on accepted and refused inputs.
use approach::{
    ceilings, ceilings_stored, raw, row, Brake, Ceilings, Coefficients, Refusal, Train, CURVES, LONGEST_ROW,
};
use approach::{Kmh, Metre, PerMille};
use checked::{check, check_row, in_order_and_time, UNTOUCHED};
use inputs::Random;

#[path = "checked/step.rs"]
mod checked;

/// V, and mostly a V0 that is not above it.
fn speeds(random: &mut Random) -> (u32, u32) {
    let v = random.near(0, 330);
    let v0 = if random.below(16) == 0 { random.near(0, 330) } else { random.below(v as u64 + 1) as u32 };
    (v, v0)
}

#[test]
fn distances_at_random() {
    let mut random = Random(21);
    let mut seen = [0; 12];
    for _ in 0..1_000_000 {
        let (t, (v, v0), gradient) = (random.train(), speeds(&mut random), random.gradient());
        seen[check(t, v, v0, gradient) as usize] += 1;
    }
    assert!(4 * seen[0] >= 1_000_000, "too few distances: {seen:?}");
    for refusal in [1, 2, 3, 4, 5, 10] {
        assert!(seen[refusal] > 500, "too few answers with {refusal}: {seen:?}");
    }
}

/// Each side of every threshold of the papers.
#[test]
fn distances_at_the_thresholds() {
    let mut accepted = 0;
    for kind in 0..4 {
        for braked_weight in [45, 50, 100, 155, 160] {
            for length in [0, 1, 200, 953, 954, 999, 1000] {
                let brake = [Brake::Freight, Brake::Passenger][kind & 1];
                let (electropneumatic, coefficients) = (kind & 2 == 0, Coefficients::FIRST_VALUES);
                let (length, top_speed) = (Metre(length), Kmh(100));
                let t = Train { brake, electropneumatic, braked_weight, length, top_speed, coefficients };
                for gradient in [-35, -22, -21, -20, -19, -18, -17, -1, 0, 1, 10, 34, 35] {
                    for (v, v0) in [
                        (0, 0),
                        (1, 0),
                        (1, 1),
                        (2, 1),
                        (90, 0),
                        (90, 89),
                        (90, 90),
                        (150, 7),
                        (151, 7),
                        (330, 0),
                        (330, 330),
                    ] {
                        accepted += (check(t, v, v0, gradient) == 0) as u32;
                    }
                }
            }
        }
    }
    assert!(accepted > 5000, "{accepted}");
}

#[test]
fn rows_between_untouched_places() {
    let mut random = Random(22);
    let mut seen = [0; 12];
    for round in 0..2_000 {
        let (t, gradient) = (random.train(), random.gradient());
        let top = t.top_speed.0.min(330);
        let v0 = if round % 8 == 0 { random.near(0, 330) } else { random.below(top as u64 + 1) as u32 };
        let needed = (top + 1).saturating_sub(v0) as usize;
        let places = match round % 4 {
            0 => needed,
            1 => needed.saturating_sub(1),
            _ => needed + random.below(20) as usize,
        };
        seen[check_row(CURVES[round % 4], t, v0, gradient, places) as usize] += 1;
        seen[check_row(CURVES[(round + 1) % 4], t, v0, gradient, 0) as usize] += 1;
    }
    for refusal in [0, 1, 2, 3, 4, 5, 10, 11] {
        assert!(seen[refusal] > 5, "too few answers with {refusal}: {seen:?}");
    }
}

/// Document 02, Card 13, of the four rows with equal arguments, place by place, and the 1.5 s between them.
#[test]
fn rows_in_order() {
    let mut random = Random(23);
    let (mut accepted, mut places) = (0, 0);
    for _ in 0..2_000 {
        let (t, gradient) = (random.train(), random.gradient());
        let v0 = random.below(u64::from(t.top_speed.0.min(330)) + 1) as u32;
        let mut lists = [[UNTOUCHED; LONGEST_ROW]; 4];
        let mut lists = lists.iter_mut();
        let rows =
            CURVES.map(|curve| row(curve, t, Kmh(v0), PerMille(gradient), lists.next().expect("a list of each curve")));
        let [Ok(ebi), Ok(sbi), Ok(w), Ok(p)] = rows else {
            assert!(rows.iter().all(|row| row.is_err() && *row == rows[0]), "{t:?}, V0 {v0}, i {gradient}");
            continue;
        };
        assert!([sbi, w, p].iter().all(|row| row.len() == ebi.len()), "{t:?}, V0 {v0}, i {gradient}");
        for place in 0..ebi.len() {
            let distances = [ebi[place].0, sbi[place].0, w[place].0, p[place].0];
            let v = v0 + place as u32;
            assert!(in_order_and_time(v, distances), "{t:?}, V {v}, V0 {v0}, i {gradient}: {distances:?}");
        }
        accepted += 1;
        places += ebi.len();
    }
    assert!(accepted > 300 && places > 10_000, "{accepted} accepted, {places} places");
}

/// Every permitted speed, each number up to 20,000, what is so much over 2^32/3 or 2^33/3 that three times it, cut to 32 bits,
/// would again be a place of a table of 993, and others at random.
fn permitted_speeds() -> Vec<u32> {
    let thirds = [u32::MAX / 3, u32::MAX / 3 * 2].into_iter().flat_map(|third| third - 5..third + 400);
    let mut random = Random(17);
    let others: Vec<u32> = (0..10_000).map(|_| random.below(1 << 32) as u32).collect();
    (0..=20_000).chain(thirds).chain(others).chain(u32::MAX - 400..=u32::MAX).collect()
}

/// By either way: worked out, and looked up.
#[test]
fn every_ceiling() {
    let speeds = permitted_speeds();
    assert!(speeds.len() > 30_000, "{}", speeds.len());
    for permitted in speeds {
        let expected = reference::ceilings::ceilings(permitted);
        for ceilings in [ceilings, ceilings_stored] {
            let answer =
                ceilings(Kmh(permitted)).map(|Ceilings { w, sbi, ebi }| [w, sbi, ebi].map(|ceiling| ceiling.0));
            assert_eq!(answer.map_err(Refusal::number), expected, "{permitted}");
        }
        let limits = match expected {
            Ok([w, sbi, ebi]) => raw::Limits { refusal: 0, w, sbi, ebi },
            Err(refusal) => raw::Limits { refusal, w: 0, sbi: 0, ebi: 0 },
        };
        assert_eq!([raw::ceilings(permitted), raw::ceilings_stored(permitted)], [limits; 2], "{permitted}");
    }
}
