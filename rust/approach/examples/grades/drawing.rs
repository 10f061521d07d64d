//! The drawing of a site, as an SVG.
use crate::asked::Asked;
use crate::site::{Site, Span, Stretch, BOTTOM, TOP};
use crate::svg::{add, document, frame, line, text, upright, LEFT, LINE, RIGHT};
use approach::{Metre, PerMille, Refusal};

const MIDDLE: f64 = (LEFT + RIGHT) / 2.0;

/// The spans lie in rows below the field, each under its words, and below them the legend.
const ROWS: f64 = BOTTOM + 70.0;
const ROW: f64 = 36.0;
const LEGEND: f64 = ROWS + 4.0 * ROW;
const LEGEND_HEIGHT: f64 = 4.0 * LINE;

/// Told apart by a hatch as well as by colours that colour-blind readers can tell apart. One stretch may have both.
const AHEAD: &str = r##"fill="#d55e00" fill-opacity="0.55" stroke="#d55e00" stroke-width="2""##;
const PAST: &str = r##"fill="url(#hatch)" stroke="#0072b2" stroke-width="2""##;
const HATCH: &str = r##"<pattern id="hatch" width="8" height="8" patternUnits="userSpaceOnUse" patternTransform="rotate(45)">
<rect width="3" height="8" fill="#0072b2"/></pattern>"##;
const OVERLAP: &str = r##"fill="#f0e442" fill-opacity="0.45""##;
const PLAIN: &str = r##"fill="#dcdcdc" stroke="#808080""##;

/// What has no height or length of its own is drawn so that it can be seen.
const THIN: f64 = 3.0;

/// Figures of five digits take 40, and a stretch's number 24.
const FIGURE: f64 = 48.0;
const NUMBER: f64 = 24.0;

fn rectangle(out: &mut String, name: &str, (left, right): (f64, f64), (top, bottom): (f64, f64), paint: &str) {
    let (width, height) = (right - left, bottom - top);
    let place = format!(r#"x="{left:.1}" y="{top:.1}" width="{width:.1}" height="{height:.1}""#);
    add(out, &format!(r#"<rect id="{name}" {place} {paint}/>"#));
}

/// From the line at 0 to its gradient; a level stretch lies on that line.
fn bar(out: &mut String, site: &Site, name: &str, stretch: &Stretch, paint: &str) {
    let (zero, y) = (site.y(PerMille(0)), site.y(stretch.gradient));
    let ends = if stretch.gradient.0 == 0 { (zero - THIN, zero + THIN) } else { (zero.min(y), zero.max(y)) };
    rectangle(out, &format!("{name}-{}", stretch.number), (site.x(stretch.from), site.x(stretch.to)), ends, paint);
}

/// Beyond the end of its bar, of those that are wide enough and of those that govern.
fn number(out: &mut String, site: &Site, stretch: &Stretch) {
    let (left, right) = (site.x(stretch.from), site.x(stretch.to));
    let governs = site.ahead == stretch.number || site.overlap == Some(stretch.number);
    if right - left >= NUMBER || governs {
        let below = if stretch.gradient.0 < 0 { 15.0 } else { -5.0 };
        let words = stretch.number.to_string();
        text(out, ((left + right) / 2.0, site.y(stretch.gradient) + below), "middle", &words);
    }
}

fn stretches(out: &mut String, site: &Site) {
    for stretch in &site.stretches {
        bar(out, site, "stretch", stretch, PLAIN);
    }
    for (name, governing, paint) in [("ahead", Some(site.ahead), AHEAD), ("past", site.overlap, PAST)] {
        let marked = site.stretches.iter().filter(|stretch| Some(stretch.number) == governing);
        marked.for_each(|stretch| bar(out, site, name, stretch, paint));
    }
}

fn gradient_axis(out: &mut String, site: &Site) {
    for gradient in (site.lowest.0..=site.highest.0).step_by(5).map(PerMille) {
        let y = site.y(gradient);
        line(out, (LEFT, y), (RIGHT, y));
        text(out, (LEFT - 8.0, y + 4.0), "end", &gradient.0.to_string());
    }
    let zero = site.y(PerMille(0));
    add(out, &format!(r#"<line x1="{LEFT}" y1="{zero:.1}" x2="{RIGHT}" y2="{zero:.1}" stroke="black"/>"#));
    upright(out, (TOP + BOTTOM) / 2.0, "gradient in \u{2030}");
}

/// The ends of what is shown, and between them the starts, each with a tick and, where there is room for it, a figure.
fn place_axis(out: &mut String, site: &Site) {
    let Span { from, to } = site.shown;
    let mut figure = |place: Metre| text(out, (site.x(place), BOTTOM + 22.0), "middle", &place.0.to_string());
    figure(from);
    figure(to);
    let (mut last, end) = (site.x(from), site.x(to));
    let starts = || site.stretches.iter().map(|stretch| stretch.from).filter(|&start| start > from);
    for start in starts() {
        let x = site.x(start);
        if x - last >= FIGURE && end - x >= FIGURE {
            figure(start);
            last = x;
        }
    }
    for x in starts().chain([from, to]).map(|place| site.x(place)) {
        upright_line(out, x, (BOTTOM, BOTTOM + 6.0), r#"stroke="black""#);
    }
    let words = "places in m: where the stretches start, and the ends of what is shown";
    text(out, (MIDDLE, BOTTOM + 44.0), "middle", words);
}

fn upright_line(out: &mut String, x: f64, (top, bottom): (f64, f64), stroke: &str) {
    add(out, &format!(r#"<line x1="{x:.1}" y1="{top:.1}" x2="{x:.1}" y2="{bottom:.1}" {stroke}/>"#));
}

/// On the side of a point that has more room.
fn beside(out: &mut String, x: f64, y: f64, words: &str) {
    let (x, anchor) = if x > MIDDLE { (x - 4.0, "end") } else { (x + 4.0, "start") };
    text(out, (x, y), anchor, words);
}

/// The overlap is a band through the field, behind the bars; where it has no length there is none.
fn overlap(out: &mut String, site: &Site) {
    let Span { to: end, .. } = site.past_the_signal();
    if site.overlap.is_some() {
        rectangle(out, "overlap", (site.x(site.signal.place), site.x(end)), (TOP, BOTTOM), OVERLAP);
    }
}

fn signal(out: &mut String, site: &Site) {
    let x = site.x(site.signal.place);
    upright_line(out, x, (TOP - 16.0, BOTTOM), r#"stroke="black" stroke-width="2""#);
    beside(out, x, TOP - 6.0, &format!("signal {}", site.asked.signal));
}

/// A span in its row, its words at the end that has more room, and dotted lines up into the field; the axis between is left clear.
fn row(out: &mut String, site: &Site, number: u32, span: Span, name: &str, paint: &str, words: &str) {
    let y = ROWS + ROW * f64::from(number);
    let (left, right) = (site.x(span.from), site.x(span.to));
    for (x, part) in [left, right].into_iter().flat_map(|x| [(x, (TOP, BOTTOM)), (x, (ROWS - 12.0, y + 6.0))]) {
        upright_line(out, x, part, r#"stroke="grey" stroke-dasharray="2 3""#);
    }
    rectangle(out, name, (left, right.max(left + THIN)), (y + 6.0, y + 14.0), paint);
    beside(out, if right > MIDDLE { left } else { right }, y, words);
}

/// The train where it is and with its head at the signal, and the two spans.
fn rows(out: &mut String, site: &Site) {
    let (head, place) = (site.asked.head, site.signal.place);
    let [train, there] = [head, place].map(|head| Span { from: site.asked.tail(head), to: head });
    let dark = r#"fill="black""#;
    row(out, site, 0, train, "train", dark, &format!("the train: tail at {}, head at {}", train.from, train.to));
    let words = format!("with its head at the signal: tail at {}", there.from);
    row(out, site, 1, there, "there", dark, &words);
    let ahead = site.way_ahead();
    let words = format!("way ahead: from {} to {}", ahead.from, ahead.to);
    row(out, site, 2, ahead, "way-ahead", AHEAD, &words);
    if site.overlap.is_some() {
        let past = site.past_the_signal();
        let words = format!("past the signal: from {} up to {}", past.from, past.to);
        row(out, site, 3, past, "way-past", PAST, &words);
    }
}

fn key(out: &mut String, number: u32, paint: &str, words: &str) {
    let (x, y) = (LEFT + 10.0, LEGEND + LINE * f64::from(number + 1));
    rectangle(out, &format!("key-{number}"), (x, x + 40.0), (y - 6.0, y + 6.0), paint);
    text(out, (x + 50.0, y + 4.0), "start", words);
}

/// The stretch of a number, which is shown since it holds a point that counts.
fn told(site: &Site, number: u32) -> String {
    let stretch = site.stretches.iter().find(|stretch| stretch.number == number);
    let Stretch { from, to, gradient, .. } = stretch.expect("a stretch that is shown");
    format!("stretch {number}, from {from} to {to}, with {gradient}")
}

fn legend(out: &mut String, site: &Site) {
    frame(out, LEGEND, LEGEND_HEIGHT);
    key(out, 0, AHEAD, &format!("governs the way ahead: {}", told(site, site.ahead)));
    match site.overlap {
        Some(number) => {
            key(out, 1, PAST, &format!("governs past the signal: {}", told(site, number)));
            key(out, 2, OVERLAP, &format!("the signal's overlap of {}", site.signal.overlap));
        }
        None => key(out, 1, r#"fill="none""#, "The overlap is 0 m: nothing governs past the signal."),
    }
}

fn title(out: &mut String, site: &Site) {
    let Asked { signal, head, length } = site.asked;
    let (place, overlap) = (site.signal.place, site.signal.overlap);
    let words = format!("The gradients up to signal {signal} at {place}, which has an overlap of {overlap},");
    text(out, (LEFT, 28.0), "start", &words);
    text(out, (LEFT, 48.0), "start", &format!("for a train of {length} with its head at {head}: uphill above 0"));
}

pub fn drawn(bytes: &[u8], asked: Asked) -> Result<String, Refusal> {
    let site = Site::of(bytes, asked)?;
    let mut out = String::new();
    add(&mut out, HATCH);
    title(&mut out, &site);
    overlap(&mut out, &site);
    gradient_axis(&mut out, &site);
    stretches(&mut out, &site);
    signal(&mut out, &site);
    site.stretches.iter().for_each(|stretch| number(&mut out, &site, stretch));
    place_axis(&mut out, &site);
    rows(&mut out, &site);
    legend(&mut out, &site);
    Ok(document(LEGEND + LEGEND_HEIGHT + LINE, &out))
}

#[cfg(test)]
mod tests {
    use super::*;
    use crate::svg::tests::number;
    use crate::svg::WIDTH;
    use crate::PROGRAM;
    use inputs::{Line, Query, Random};

    /// Left, right, head and foot of a rectangle by its name, as drawn.
    fn drawn_at(svg: &str, name: &str) -> [f64; 4] {
        let (_, rest) = svg.split_once(&format!("<rect id=\"{name}\" ")).expect(name);
        let [x, y, width, height] = ["x", "y", "width", "height"].map(|side| number(rest, &format!("{side}=\"")));
        [x, x + width, y, y + height]
    }

    /// The numbers of the bars that begin so.
    fn bars(svg: &str, name: &str) -> Vec<u32> {
        let ids = svg.split("<rect id=\"").skip(1).filter_map(|rest| rest.split('"').next());
        ids.filter_map(|id| id.strip_prefix(name)?.strip_prefix('-')?.parse().ok()).collect()
    }

    /// What is marked, of a sheet whose signal has the number.
    fn marked(asked: &str, line: &Line) -> (String, Vec<u32>, Vec<u32>) {
        let svg = PROGRAM.written(asked, &line.written());
        let (ahead, past) = (bars(&svg, "ahead"), bars(&svg, "past"));
        (svg, ahead, past)
    }

    fn line(gradients: [i16; 4], overlap: u16) -> Line {
        let (starts, places, overlaps) = (vec![0, 300, 600, 900], vec![650], vec![overlap]);
        Line { starts, gradients: gradients.to_vec(), places, overlaps, end: 2000 }
    }

    /// The walk's example: the fall of 11 per mille governs the way ahead, that of 3 the overlap from 4,900 m on.
    #[test]
    fn the_example() {
        let svg = PROGRAM.written("", b"");
        assert_eq!((bars(&svg, "ahead"), bars(&svg, "past")), (vec![3], vec![7]));
        assert_eq!(bars(&svg, "stretch"), [1, 2, 3, 4, 5, 6, 7, 8, 9]);
        for words in [
            ">governs the way ahead: stretch 3, from 2000 m to 2700 m, with -11 \u{2030}<",
            ">governs past the signal: stretch 7, from 4600 m to 5200 m, with -3 \u{2030}<",
            ">the train: tail at 1350 m, head at 1950 m<",
            ">with its head at the signal: tail at 4900 m<",
            ">way ahead: from 1350 m to 5500 m<",
            ">past the signal: from 4900 m up to 5650 m<",
            ">signal 1<",
            ">2000<",
            ">-15<",
        ] {
            assert!(svg.contains(words), "{words}");
        }
    }

    /// What counts is from 450 m to 900 m, and 50 m more are shown on either side; gradients from -15 to 5.
    #[test]
    fn places_and_gradients_drawn() {
        let (svg, ..) = marked("0 550 100", &line([5, -10, 0, -10], 250));
        let per_metre = (RIGHT - LEFT) / 550.0;
        let x = |metre: f64| LEFT + (metre - 400.0) * per_metre;
        let [left, right, top, bottom] = drawn_at(&svg, "stretch-1");
        assert!((left - LEFT).abs() < 0.11 && (right - x(600.0)).abs() < 0.11, "{left} {right}");
        let zero = top;
        assert!(((bottom - zero) - 10.0 / 20.0 * (BOTTOM - TOP)).abs() < 0.11, "{top} {bottom}");
        let [_, _, top, bottom] = drawn_at(&svg, "stretch-2");
        assert!(((top + bottom) / 2.0 - zero).abs() < 0.11, "{top} {bottom}");
        for (name, from, to) in [
            ("train", 450.0, 550.0),
            ("there", 550.0, 650.0),
            ("way-ahead", 450.0, 650.0),
            ("way-past", 550.0, 900.0),
            ("overlap", 650.0, 900.0),
        ] {
            let [left, right, ..] = drawn_at(&svg, name);
            assert!((left - x(from)).abs() < 0.11 && (right - x(to)).abs() < 0.11, "{name}: {left} {right}");
        }
    }

    /// One stretch may have both marks, and of equal falls the first has it.
    #[test]
    fn what_is_marked() {
        assert_eq!(marked("0 550 100", &line([5, -10, 0, -10], 251)).1, [1]);
        assert_eq!(marked("0 550 100", &line([5, -10, 0, -10], 251)).2, [1]);
        assert_eq!(marked("0 650 50", &line([5, -10, 0, -10], 250)).2, [2]);
        assert_eq!(marked("0 650 50", &line([5, -10, 0, -10], 251)).2, [3]);
        let (svg, ahead, past) = marked("0 550 100", &line([5, -10, 0, -10], 0));
        assert_eq!((ahead, past), (vec![1], vec![]));
        assert!(svg.contains(">The overlap is 0 m: nothing governs past the signal.<"));
        assert!(!svg.contains("url(#hatch)") && !svg.contains(OVERLAP) && !svg.contains("way-past"), "{svg}");
    }

    /// Left and right end of each text; in a wide font a letter takes 8 on the average.
    fn words(svg: &str) -> impl Iterator<Item = (&str, f64, f64)> {
        svg.split("<text x=\"").skip(1).filter(|text| !text.contains("rotate")).map(|text| {
            let x = text.split('"').next().and_then(|x| x.parse::<f64>().ok()).expect("a number");
            let (_, words) = text.split_once('>').expect("words");
            let words = words.split('<').next().expect("an end");
            let width = 8.0 * words.chars().count() as f64;
            let left = match text {
                _ if text.contains("text-anchor=\"end\"") => x - width,
                _ if text.contains("text-anchor=\"middle\"") => x - width / 2.0,
                _ => x,
            };
            (words, left, left + width)
        })
    }

    /// With the longest figures, and the train anywhere on the line.
    #[test]
    fn words_within_the_drawing() {
        let (starts, places) = ((0..500).map(|number| 1000 * number).collect(), vec![495_000]);
        let gradients = (0..500).map(|number| number % 71 - 35).collect();
        let line = Line { starts, gradients, places, overlaps: vec![4_999], end: 499_999 };
        for head in (490_000..=495_000).step_by(50) {
            let (svg, ..) = marked(&format!("0 {head} 1000"), &line);
            let outside: Vec<_> = words(&svg).filter(|&(_, left, right)| left < 0.0 || right > WIDTH).collect();
            assert!(outside.is_empty(), "{outside:?}");
        }
    }

    /// No fall is too steep for the train that is asked for, and all lies within the drawing.
    #[test]
    fn any_line_is_drawn() {
        let mut random = Random(121);
        for steep in (0..600).map(|round| round % 3 == 0) {
            let (mut line, q) = random.tied_query();
            line.gradients.iter_mut().filter(|_| steep).for_each(|gradient| *gradient -= 20);
            let Query { signal, head, train, .. } = q;
            let (svg, ahead, past) = marked(&format!("{signal} {head} {}", train.length.0), &line);
            assert!(ahead.len() == 1 && past.len() <= 1, "{svg}");
            let height = number(&svg, &format!("width=\"{WIDTH}\" height=\""));
            for name in svg.split("<rect id=\"").skip(1).filter_map(|rest| rest.split('"').next()) {
                let [left, right, top, bottom] = drawn_at(&svg, name);
                assert!((LEFT..=right + 0.1).contains(&left) && right <= RIGHT + 2.0 * THIN, "{name}: {svg}");
                assert!((TOP - 0.1..=bottom + 0.1).contains(&top) && bottom < height, "{name}: {svg}");
            }
        }
    }
}
