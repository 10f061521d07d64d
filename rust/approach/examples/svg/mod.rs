//! What the programs that draw share: an SVG as text, element by element, and the sides of its field.
use std::fmt::Write;

/// The drawing's width and, in it, the sides of the field. The legend is below the field, a line of it so high, and the drawing as
/// high as all asks for.
pub const WIDTH: f64 = 960.0;
pub const LEFT: f64 = 80.0;
pub const RIGHT: f64 = 930.0;
pub const LINE: f64 = 20.0;

pub type Point = (f64, f64);

/// Ends the line; a text has no failure.
pub fn add(out: &mut String, element: &str) {
    writeln!(out, "{element}").expect("a text to write to");
}

/// Of the grid.
pub fn line(out: &mut String, from: Point, to: Point) {
    let ((x1, y1), (x2, y2)) = (from, to);
    add(out, &format!(r##"<line x1="{x1:.1}" y1="{y1:.1}" x2="{x2:.1}" y2="{y2:.1}" stroke="#d8d8d8"/>"##));
}

pub fn text(out: &mut String, (x, y): Point, anchor: &str, words: &str) {
    add(out, &format!(r#"<text x="{x:.1}" y="{y:.1}" text-anchor="{anchor}">{words}</text>"#));
}

/// The words beside an axis that goes up, half way.
pub fn upright(out: &mut String, y: f64, words: &str) {
    let x = 24.0;
    let turned = format!(r#"<text x="{x}" y="{y}" text-anchor="middle" transform="rotate(-90 {x} {y})">"#);
    add(out, &format!("{turned}{words}</text>"));
}

/// The box of a legend.
pub fn frame(out: &mut String, top: f64, height: f64) {
    let width = RIGHT - LEFT;
    add(out, &format!(r#"<rect x="{LEFT}" y="{top}" width="{width}" height="{height}" fill="none" stroke="grey"/>"#));
}

/// The whole drawing.
pub fn document(height: f64, elements: &str) -> String {
    let mut out = String::new();
    add(&mut out, &format!(r#"<svg xmlns="http://www.w3.org/2000/svg" viewBox="0 0 {WIDTH} {height}" "#));
    add(&mut out, &format!(r#"width="{WIDTH}" height="{height}" font-family="sans-serif" font-size="13">"#));
    add(&mut out, r#"<rect width="100%" height="100%" fill="white"/>"#);
    out + elements + "</svg>\n"
}

#[cfg(test)]
pub mod tests {
    /// What follows a piece of text, up to the quotation mark.
    pub fn number(svg: &str, before: &str) -> f64 {
        let (_, rest) = svg.split_once(before).expect(before);
        rest.split('"').next().expect("an end").parse().expect("a number")
    }
}
