//! What a reader of the drawing would stumble over: curves that run into one, and bends.
use crate::picture::{metres, Picture};
use crate::svg::Point;
use approach::{Curve, Kmh, Millimetre, PerMille, CURVES};
use std::cmp::Ordering;

/// Curves drawn nearer than this, in the drawing's units, run into one.
const APART: f64 = 4.0;

/// How far apart two curves are drawn where they are farthest from each other, square to the farther one.
fn apart(nearer: &[Point], farther: &[Point]) -> f64 {
    let gaps = farther.windows(2).zip(&nearer[1..]).map(|(ends, (x, _))| {
        let (across, up) = (ends[1].0 - ends[0].0, ends[1].1 - ends[0].1);
        (x - ends[1].0) * up.abs() / across.hypot(up)
    });
    gaps.fold(0.0, f64::max)
}

/// Neighbours that run into one at this scale.
fn together(picture: &Picture) -> Vec<String> {
    let pairs = CURVES.windows(2).zip(picture.rows.windows(2));
    let close = pairs.filter(|(_, rows)| apart(&picture.points(&rows[0]), &picture.points(&rows[1])) < APART);
    let note = |(curves, rows): (&[Curve], &[Vec<Millimetre>])| {
        let most = rows[0].iter().zip(&rows[1]).map(|(nearer, farther)| farther.0 - nearer.0).max();
        let most = metres(Millimetre(most.expect("a row has a place")));
        format!("{} and {} lie within {most} m of each other, too near to be told apart here.", curves[0], curves[1])
    };
    close.map(note).collect()
}

/// How much farther each speed's distance is than that of the speed below.
fn steps(row: &[Millimetre]) -> Vec<i64> {
    row.windows(2).map(|ends| i64::from(ends[1].0) - i64::from(ends[0].0)).collect()
}

/// Steps grow slowly along a curve. Where one is none, goes back, or is less than half the next, the curve has a bend to be seen.
fn bends(steps: &[i64]) -> bool {
    steps.iter().any(|&step| step <= 0) || steps.windows(2).any(|two| two[1] > 2 * two[0])
}

/// On a climb document 002 lets the speed fall to V0, and no lower, before the brake acts. Up to where the slope no longer gets
/// the train to V0, EBI and SBI do not grow; there all curves bend.
fn climb(picture: &Picture) -> Vec<String> {
    let [ebi, ..] = &picture.rows;
    let upright = ebi.iter().take_while(|&distance| *distance == ebi[0]).count() as u32;
    let (target, beyond) = (picture.target, Kmh(picture.target.0 + upright));
    let why = format!("the climb alone slows the train to {target} before it brakes");
    if beyond > picture.top_speed {
        return vec![format!("EBI and SBI stand upright: {why}.")];
    }
    vec![format!("Bend between {} and {beyond}: below, {why}.", beyond.0 - 1)]
}

/// Document 002's K0 counts on less of the brake at V0 than above it. Where a downhill leaves little of that, the first step is
/// short, or goes back.
fn downhill(picture: &Picture) -> Vec<String> {
    let target = picture.target;
    let back = picture.rows.iter().map(|row| steps(row).into_iter().take_while(|&step| step < 0).count()).max();
    let back = Kmh(target.0 + back.expect("four curves") as u32);
    let why = "there the model counts on less of the brake (K0), and this downhill leaves little of it";
    let turn = format!("Up to {back} a distance shrinks as the speed grows, for the same reason.");
    let turn = (back > target).then_some(turn);
    [format!("Bend near {target}: {why}.")].into_iter().chain(turn).collect()
}

/// What a reader would stumble over.
pub fn notes(picture: &Picture, gradient: PerMille) -> Vec<String> {
    let bent = picture.rows.iter().any(|row| bends(&steps(row)));
    let why = match gradient.0.cmp(&0) {
        Ordering::Greater if bent => climb(picture),
        Ordering::Less if bent => downhill(picture),
        _ => vec![],
    };
    [together(picture), why].concat()
}

#[cfg(test)]
pub mod tests {
    use super::*;
    use crate::picture::Case;
    use crate::tests::case;

    pub fn noted(line: &str) -> Vec<String> {
        let case = case(line);
        notes(&Picture::of(case).expect("an accepted case"), case.gradient)
    }

    #[test]
    fn nothing_to_note() {
        for line in ["passenger ep 100 200 160 -5 0", "freight - 90 500 120 -12 30", "passenger ep 100 200 90 0 0"] {
            assert_eq!(noted(line), [""; 0], "{line}");
        }
    }

    /// W and P are 1.5 s of running before SBI and W: 137.5 m at 330 km/h, of 51 km.
    #[test]
    fn curves_together() {
        let said =
            |pair, metres| format!("{pair} lie within {metres} m of each other, too near to be told apart here.");
        let all = [said("EBI and SBI", "519.719"), said("SBI and W", "137.5"), said("W and P", "137.5")];
        assert_eq!(noted("passenger ep 100 200 330 -33 0"), all);
        assert_eq!(
            noted("freight - 100 1000 100 -34 1")[..2],
            [said("SBI and W", "41.667"), said("W and P", "41.667")]
        );
    }

    /// The notes on bends alone.
    fn bent(line: &str) -> Vec<String> {
        noted(line).into_iter().filter(|note| !note.contains(" lie within ")).collect()
    }

    /// By di × T the freight train loses 6.3 km/h before it brakes on 10 per mille, 0.63 km/h on 1 per mille. The passenger
    /// train loses 0.2 km/h on 1 per mille, a bend that is not to be seen.
    #[test]
    fn bends_on_a_climb() {
        let why = |target| format!("the climb alone slows the train to {target} km/h before it brakes.");
        let between = |two, target| [format!("Bend between {two} km/h: below, {}", why(target))];
        assert_eq!(bent("freight - 90 500 120 10 30"), between("36 and 37", 30));
        assert_eq!(bent("freight - 90 500 120 1 0"), between("0 and 1", 0));
        assert_eq!(bent("passenger ep 100 200 120 1 0"), [""; 0]);
        assert_eq!(bent("passenger - 45 0 1 35 0"), [format!("EBI and SBI stand upright: {}", why(0))]);
    }

    /// Document 002's P: 1,290.492 m at 1 km/h and 1,208.603 m at 2. The short first step of the second train does not go back;
    /// at a target of 0 there is none.
    #[test]
    fn bends_on_a_downhill() {
        let bend =
            "Bend near 1 km/h: there the model counts on less of the brake (K0), and this downhill leaves little of it.";
        let turn = "Up to 2 km/h a distance shrinks as the speed grows, for the same reason.";
        assert_eq!(bent("freight - 100 1000 100 -34 1"), [bend, turn]);
        assert_eq!(bent("freight - 100 1000 2 -34 1"), [bend, turn]);
        assert_eq!(bent("freight ep 65 500 30 -22 1"), [bend]);
        assert_eq!(bent("freight ep 65 500 30 -22 0"), [""; 0]);
    }

    /// Trains of every kind, on every gradient, to targets near a stop and far from it.
    fn grid() -> impl Iterator<Item = Case> {
        let trains = ["passenger ep 45 0", "passenger - 90 500", "freight - 100 1000", "freight ep 160 200"];
        let spans = [0, 1, 2, 7, 30].into_iter().flat_map(|target| [2, 20, 160].map(|span| (target, target + span)));
        let ways = (-35..=35).flat_map(move |gradient| spans.clone().map(move |ends| (gradient, ends)));
        trains.into_iter().flat_map(move |train| {
            ways.clone().map(move |(gradient, (target, top))| case(&format!("{train} {top} {gradient} {target}")))
        })
    }

    /// The sharpest turn of a curve from one step to the next, in degrees.
    fn sharpest(points: &[Point]) -> f64 {
        let turn = |three: &[Point]| {
            let angle = |from: Point, to: Point| (to.1 - from.1).atan2(to.0 - from.0);
            (angle(three[1], three[2]) - angle(three[0], three[1])).abs().to_degrees()
        };
        points.windows(3).map(turn).fold(0.0, f64::max)
    }

    /// No bend of more than 20 degrees goes without a note.
    #[test]
    fn sharp_bends_are_noted() {
        for case in grid() {
            let Ok(picture) = Picture::of(case) else { continue };
            let noted = notes(&picture, case.gradient).iter().any(|note| !note.contains(" lie within "));
            let sharp = picture.rows.iter().any(|row| sharpest(&picture.points(row)) > 20.0);
            assert!(noted || !sharp, "{case:?}");
        }
    }
}
