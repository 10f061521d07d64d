//! What the programs that print a table share: its figures and its lines.
use std::fmt::Display;

/// The figure of a quantity; its unit stands over the column.
pub fn figure(quantity: impl Display) -> String {
    quantity.to_string().split(' ').take(1).collect()
}

/// Columns are 10 wide.
pub fn line(cells: &[impl Display]) -> String {
    cells.iter().map(|cell| format!("{cell:>10}")).collect::<String>() + "\n"
}

#[cfg(test)]
pub mod tests {
    use super::*;
    use approach::{Hundredth, Kmh, PerMille};

    /// The table's lines from its headings on, each of which has a name and a unit for every column.
    pub fn columns(table: &str, headings: &[&str]) {
        let (heads, lines): (Vec<&str>, Vec<&str>) = table.lines().partition(|line| headings.contains(line));
        assert_eq!(heads, headings);
        let width = headings[0].chars().count();
        let figures: Vec<&str> = lines.into_iter().filter(|line| line.starts_with(' ')).collect();
        assert!(figures.len() > 3, "{table}");
        assert!(figures.iter().all(|line| line.chars().count() == width), "{table}");
        assert!(figures.iter().all(|line| 10 * line.split_whitespace().count() == width), "{table}");
    }

    #[test]
    fn figures_without_units() {
        assert_eq!([figure(Kmh(90)), figure(PerMille(-5)), figure(Hundredth(460))], ["90", "-5", "4.60"]);
    }
}
