//! The drawing of a case, as an SVG.
use crate::notes::notes;
use crate::picture::{metres, Case, Picture, BOTTOM, LEGEND, TOP};
use crate::svg::{add, document, frame, line, text, upright, Point, LEFT, LINE, RIGHT};
use approach::{Curve, Kmh, Millimetre, Train, CURVES};

fn meaning(curve: Curve) -> &'static str {
    match curve {
        Curve::Ebi => "emergency brake intervention",
        Curve::Sbi => "service brake intervention",
        Curve::W => "warning",
        Curve::P => "permitted speed",
    }
}

/// Told apart by width and dashes as well as by colours, and those are of a set that colour-blind readers can tell apart. Each
/// is drawn over the one before it, narrower and with gaps, so that those below are seen where they meet.
fn stroke(curve: Curve) -> &'static str {
    match curve {
        Curve::Ebi => r##"stroke="#d55e00" stroke-width="3.5""##,
        Curve::Sbi => r##"stroke="#e69f00" stroke-width="3" stroke-dasharray="16 6""##,
        Curve::W => r##"stroke="#009e73" stroke-width="2.2" stroke-dasharray="3 4""##,
        Curve::P => r##"stroke="#0072b2" stroke-width="1.5" stroke-dasharray="10 3 2 3""##,
    }
}

/// Figures may stand 70 apart along the field, where the longest two, as 103530.268 and 100000, take 60; up it, 23.
const ALONG: u32 = 12;
const UP: u32 = 20;

/// Both ends, and between them multiples of 1, 2 or 5 by a power of 10, ten steps at the most. Those nearer to an end than one
/// part of so many of the axis are left out, lest their figures meet.
fn ticks(from: u32, to: u32, parts: u32) -> Vec<u32> {
    let span = to - from;
    let mut steps = (0..).flat_map(|power| [1, 2, 5].map(|n| n * 10u32.pow(power)));
    let step = steps.find(|step| span.div_ceil(10) <= *step).expect("a step");
    let inner = (from.div_ceil(step)..=to / step).map(|n| n * step);
    let inner = inner.filter(|at| (at - from).min(to - at) >= span.div_ceil(parts));
    [from].into_iter().chain(inner).chain([to]).collect()
}

fn distance_axis(out: &mut String, picture: &Picture) {
    for distance in ticks(0, picture.farthest.0, ALONG).into_iter().map(Millimetre) {
        let x = picture.x(distance);
        line(out, (x, TOP), (x, BOTTOM));
        text(out, (x, BOTTOM + 18.0), "middle", &metres(distance));
    }
    text(out, ((LEFT + RIGHT) / 2.0, BOTTOM + 44.0), "middle", "distance before the target in m");
}

fn speed_axis(out: &mut String, picture: &Picture) {
    for v in ticks(picture.target.0, picture.top_speed.0, UP).into_iter().map(Kmh) {
        let y = picture.y(v);
        line(out, (LEFT, y), (RIGHT, y));
        text(out, (LEFT - 8.0, y + 4.0), "end", &v.0.to_string());
    }
    upright(out, (TOP + BOTTOM) / 2.0, "speed in km/h");
}

fn curve_line(out: &mut String, curve: Curve, points: &[Point]) {
    let points: Vec<String> = points.iter().map(|(x, y)| format!("{x:.1},{y:.1}")).collect();
    add(out, &format!(r#"<polyline points="{}" fill="none" {}/>"#, points.join(" "), stroke(curve)));
}

fn keys(out: &mut String) {
    for (place, curve) in CURVES.into_iter().enumerate() {
        let x = LEFT + 10.0 + (RIGHT - LEFT) / 2.0 * (place % 2) as f64;
        let y = LEGEND + LINE * (1 + place / 2) as f64;
        let (to, stroke) = (x + 60.0, stroke(curve));
        add(out, &format!(r#"<line x1="{x:.1}" y1="{y:.1}" x2="{to:.1}" y2="{y:.1}" {stroke}/>"#));
        text(out, (to + 10.0, y + 4.0), "start", &format!("{curve}: {}", meaning(curve)));
    }
}

/// Two lines of keys, and the notes.
fn legend_height(notes: &[String]) -> f64 {
    LINE * (notes.len() + 3) as f64
}

fn legend(out: &mut String, notes: &[String]) {
    frame(out, LEGEND, legend_height(notes));
    keys(out);
    for (place, note) in notes.iter().enumerate() {
        text(out, (LEFT + 10.0, LEGEND + LINE * (place + 3) as f64 + 4.0), "start", note);
    }
}

fn title(out: &mut String, case: Case) {
    let Case { train, gradient, target } = case;
    let Train { brake, electropneumatic, braked_weight, length, top_speed, .. } = train;
    let ep = if electropneumatic { "working" } else { "not working" };
    let train = format!("A {brake} train of {length}, braked weight {braked_weight} %, electropneumatic brake {ep}");
    text(out, (LEFT, 28.0), "start", &train);
    text(out, (LEFT, 48.0), "start", &format!("from {top_speed} and below to {target} on a gradient of {gradient}"));
}

pub fn drawn(case: Case) -> Result<String, String> {
    let picture = Picture::of(case)?;
    let notes = notes(&picture, case.gradient);
    let mut out = String::new();
    title(&mut out, case);
    distance_axis(&mut out, &picture);
    speed_axis(&mut out, &picture);
    for (curve, row) in CURVES.into_iter().zip(&picture.rows) {
        curve_line(&mut out, curve, &picture.points(row));
    }
    legend(&mut out, &notes);
    Ok(document(LEGEND + legend_height(&notes) + LINE, &out))
}

#[cfg(test)]
pub mod tests {
    use super::*;
    use crate::notes::tests::noted;
    use crate::svg::tests::number;
    use crate::svg::WIDTH;
    use crate::tests::case;

    const CASES: [&str; 7] = [
        "passenger ep 100 200 160 -5 0",
        "freight - 160 1000 330 0 100",
        "passenger - 45 0 1 35 0",
        "freight ep 100 500 90 10 89",
        "passenger ep 45 200 60 -18 0",
        "freight - 100 1000 100 -34 1",
        "passenger ep 100 200 330 -33 0",
    ];

    pub fn svg(line: &str) -> String {
        drawn(case(line)).expect("an accepted case")
    }

    /// The points of each curve, as drawn.
    fn points(svg: &str) -> Vec<Vec<Point>> {
        let point = |pair: &str| {
            let (x, y) = pair.split_once(',').expect("a point");
            (x.parse().expect("a number"), y.parse().expect("a number"))
        };
        let curves = svg.split("<polyline points=\"").skip(1).map(|rest| rest.split('"').next().expect("an end"));
        curves.map(|points| points.split(' ').map(point).collect()).collect()
    }

    /// A point for each speed, all in the field, from its foot to its top; EBI the nearest to the target, and P at the
    /// field's left side.
    #[test]
    fn curves_in_the_field() {
        for line in CASES {
            let Case { train, target, .. } = case(line);
            let curves = points(&svg(line));
            assert_eq!(curves.len(), 4, "{line}");
            for curve in &curves {
                assert_eq!(curve.len() as u32, train.top_speed.0 - target.0 + 1, "{line}");
                assert_eq!((curve[0].1, curve[curve.len() - 1].1), (BOTTOM, TOP), "{line}");
                let inside = |&(x, y): &Point| (LEFT..=RIGHT).contains(&x) && (TOP..=BOTTOM).contains(&y);
                assert!(curve.iter().all(inside), "{line}: {curve:?}");
            }
            let last: Vec<f64> = curves.iter().map(|curve| curve.last().expect("a point").0).collect();
            assert!(last.is_sorted_by(|nearer, farther| nearer >= farther) && last[3] == LEFT, "{line}: {last:?}");
        }
    }

    /// Document 01's figures: 90 km/h to a stop takes 842.532 m of EBI where P takes 1,056.282 m.
    #[test]
    fn a_figure_drawn() {
        let curves = points(&svg("passenger ep 100 200 90 0 0"));
        let (x, y) = *curves[0].last().expect("a point");
        assert!((x - (RIGHT - 842.532 / 1056.282 * (RIGHT - LEFT))).abs() < 0.06 && y == TOP, "{x} {y}");
    }

    #[test]
    fn words_on_the_axes() {
        let words =
            |end| ticks(0, end, ALONG).into_iter().map(|at| metres(Millimetre(at))).collect::<Vec<_>>().join(" ");
        assert_eq!(words(3_160_932), "0 500 1000 1500 2000 2500 3160.932");
        assert_eq!(words(834), "0 0.1 0.2 0.3 0.4 0.5 0.6 0.7 0.834");
        assert_eq!(words(1000), "0 0.1 0.2 0.3 0.4 0.5 0.6 0.7 0.8 0.9 1");
        assert_eq!(ticks(0, 160, UP), [0, 20, 40, 60, 80, 100, 120, 140, 160]);
        assert_eq!(ticks(1, 165, UP), [1, 20, 40, 60, 80, 100, 120, 140, 165]);
        assert_eq!(ticks(30, 200, UP), [30, 40, 60, 80, 100, 120, 140, 160, 180, 200]);
        assert_eq!(ticks(89, 90, UP), [89, 90]);
        for figure in [">30</text>", ">120</text>", ">0</text>", ">3647.389</text>"] {
            assert!(svg("freight - 90 500 120 -12 30").contains(figure), "{figure}");
        }
    }

    /// The ends are always there, and no two figures meet: a letter is 13 high.
    #[test]
    fn words_do_not_meet() {
        let speeds = (1..=330).flat_map(|to| (0..to).map(move |from| (from, to, UP)));
        let distances = (0..27).flat_map(|n| [1, 3].map(|by| (0, by << n, ALONG)));
        for (from, to, parts) in speeds.chain(distances) {
            let ticks = ticks(from, to, parts);
            assert_eq!((ticks[0], ticks[ticks.len() - 1]), (from, to));
            let gap = |two: &[u32]| u64::from(parts) * u64::from(two[1] - two[0]);
            assert!(ticks.windows(2).all(|two| gap(two) >= u64::from(to - from)), "{ticks:?}");
            assert!(ticks.len() <= 12, "{ticks:?}");
        }
        assert!((BOTTOM - TOP) / f64::from(UP) > 13.0 && (RIGHT - LEFT) / f64::from(ALONG) > 60.0);
    }

    /// Its box is below every curve, and within the drawing.
    #[test]
    fn legend_clear_of_the_curves() {
        for line in CASES {
            let svg = svg(line);
            let top = number(&svg, &format!("<rect x=\"{LEFT}\" y=\""));
            assert!(points(&svg).iter().flatten().all(|&(_, y)| y + LINE < top), "{line}");
            let end = top + number(&svg, &format!("width=\"{}\" height=\"", RIGHT - LEFT));
            assert!(end < number(&svg, &format!("width=\"{WIDTH}\" height=\"")), "{line}");
            let lowest = svg.rsplit(" y=\"").next().and_then(|rest| rest.split('"').next()).expect("the last text");
            assert!(lowest.parse::<f64>().expect("a number") < end, "{line}");
        }
    }

    /// In a wide font a letter takes 8 on the average, and the box is 850 wide.
    #[test]
    fn notes_fit_their_box() {
        for line in CASES.into_iter().chain(["freight - 45 1000 330 35 280", "passenger - 90 1000 10 -31 5"]) {
            let notes = noted(line);
            assert!(notes.iter().all(|note| 8 * note.len() < 850), "{notes:?}");
        }
    }

    /// Each curve has dashes and a width of its own, in the field and in the legend.
    #[test]
    fn strokes_apart() {
        let svg = svg(CASES[0]);
        for (place, curve) in CURVES.into_iter().enumerate() {
            assert_eq!(svg.matches(stroke(curve)).count(), 2, "{curve}");
            let width = |curve| number(stroke(curve), "stroke-width=\"");
            let dashes = |curve| stroke(curve).split_once("stroke-dasharray=").map(|(_, dashes)| dashes);
            let apart = |&before: &Curve| width(before) > width(curve) && dashes(before) != dashes(curve);
            assert!(CURVES[..place].iter().all(apart), "{curve}");
        }
    }
}
