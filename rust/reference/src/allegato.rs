//! The stopping distances that document 000 prints in its Allegato 1, and the cells that are misprinted there.

use crate::coefficients::FIRST_VALUES;
use crate::fraction::Fraction;
use crate::ramp::Motion;
use crate::train::Train;
use std::str::FromStr;

/// Its first lines tell the layout.
const TEXT: &str = include_str!("../data/allegato-1.txt");

/// Section 5.2.3: TM of a train whose own is not known, in hundredths of a second.
pub const DEAD_TIME: u32 = 300;
const HUNDREDTHS: u32 = 100;

/// In seconds.
fn dead_time() -> Fraction {
    Fraction::from(DEAD_TIME) / Fraction::from(HUNDREDTHS)
}

/// Speeds in km/h, length in metres, braked weights in per cent; a row is a gradient in per mille and its metres.
#[derive(Clone, Debug, PartialEq, Eq)]
pub struct Table {
    pub freight_train: bool,
    pub freight_brake: bool,
    pub nominal_v: u32,
    pub v: u32,
    pub length: u32,
    pub braked_weights: Vec<u32>,
    pub rows: Vec<(i32, Vec<u32>)>,
}

/// Length in metres, braked weight in per cent, V (the calculation speed, "V ril c") in km/h, gradient in per mille.
#[derive(Clone, Copy, Debug, PartialEq, Eq)]
pub struct Cell {
    pub freight_brake: bool,
    pub length: u32,
    pub braked_weight: u32,
    pub v: u32,
    pub gradient: i32,
    pub metres: u32,
}

/// A cell as printed, and the metres that the model and the neighbouring cells want there.
#[derive(Clone, Copy, Debug, PartialEq, Eq)]
pub struct Misprint {
    pub cell: Cell,
    pub wanted: u32,
    pub reason: &'static str,
}

const fn misprint(at: (bool, u32, u32, u32, i32), metres: u32, wanted: u32, reason: &'static str) -> Misprint {
    let (freight_brake, length, braked_weight, v, gradient) = at;
    Misprint { cell: Cell { freight_brake, length, braked_weight, v, gradient, metres }, wanted, reason }
}

/// Every cell that is more than half a metre off the model, in the order of the tables; what the model gives leads.
pub const MISPRINTS: [Misprint; 5] = [
    misprint((false, 250, 105, 24, -4), 64, 63, "63.497 m; the column goes 65, 64, 64, 63, 61 for 65, 63, 63, 62, 61"),
    misprint((false, 250, 105, 24, -3), 64, 63, "62.506 m; in that column, and the row above printed again"),
    misprint((false, 250, 105, 24, -2), 63, 62, "61.542 m; in that column, which then falls by 2 at once"),
    misprint((true, 750, 50, 34, -5), 295, 296, "296.003 m; last digit: the column goes 306, 295, 286, 277"),
    misprint((true, 500, 90, 14, -3), 51, 61, "61.132 m; first digit: the column goes 66, 63, 51, 59, 57"),
];

fn numbers<N: FromStr>(line: &str) -> Vec<N> {
    let number = |field: &str| field.parse().ok().expect("a number");
    line.split_whitespace().map(number).collect()
}

fn freight(kind: &str) -> bool {
    match kind {
        "V" => false,
        "M" => true,
        _ => panic!("a kind other than V and M"),
    }
}

fn row(line: &str) -> (i32, Vec<u32>) {
    let (gradient, metres) = line.split_once(' ').expect("a row of two fields or more");
    (gradient.parse().expect("a gradient"), numbers(metres))
}

fn table(lines: &str) -> Table {
    let mut lines = lines.lines();
    let mut kinds = lines.next().expect("a table's first line").splitn(3, ' ');
    let mut kind = || kinds.next().expect("two kinds and three numbers");
    let (freight_train, freight_brake) = (freight(kind()), freight(kind()));
    let [nominal_v, v, length] = numbers(kind()).try_into().expect("three numbers");
    let braked_weights = numbers(lines.next().expect("a table's second line"));
    Table { freight_train, freight_brake, nominal_v, v, length, braked_weights, rows: lines.map(row).collect() }
}

/// The tables in printed order.
pub fn tables() -> Vec<Table> {
    TEXT.split("\n\n").skip(1).map(table).collect()
}

impl Table {
    /// Row by row, as printed.
    pub fn cells(&self) -> impl Iterator<Item = Cell> + '_ {
        let Table { freight_brake, length, v, .. } = *self;
        self.rows.iter().flat_map(move |&(gradient, ref row)| {
            let cell =
                move |(&braked_weight, &metres)| Cell { freight_brake, length, braked_weight, v, gradient, metres };
            self.braked_weights.iter().zip(row).map(cell)
        })
    }
}

/// Every cell as printed, misprints and all.
pub fn cells() -> Vec<Cell> {
    tables().iter().flat_map(Table::cells).collect()
}

impl Cell {
    /// Section 5.2.3: TR = 2 × (tf - TM) in seconds, tf being document 002's delay before its safety coefficient.
    pub fn rise_time(self) -> Fraction {
        let Cell { freight_brake: freight, length, braked_weight, v: top_speed, .. } = self;
        let coefficients = FIRST_VALUES;
        let train = Train { freight, electropneumatic: false, braked_weight, length, top_speed, coefficients };
        Fraction::from(2) * (train.delay() - dead_time())
    }

    /// The rise time in hundredths of a second, lowered and raised to a whole number.
    ///
    /// They are equal at 200 m and with the freight brake. At 150, 250, 350 and 650 m the rise time ends on half a
    /// hundredth, which document 01's TR cannot express: its distance lies between those of the two, as a brake force
    /// that rises faster stops no later.
    pub fn rise_hundredths(self) -> (u32, u32) {
        let hundredths = self.rise_time() * Fraction::from(HUNDREDTHS);
        let raised = u32::try_from(hundredths.raised()).expect("a rise time of 32 bits, not below 0");
        let exact = hundredths == Fraction::from(raised);
        (if exact { raised } else { raised - 1 }, raised)
    }

    /// The motion that the cell was worked out with, its rise time unrounded, or refusal 10.
    pub fn motion(self) -> Result<Motion, u32> {
        Motion::new(self.braked_weight, self.gradient, self.v, dead_time(), self.rise_time(), FIRST_VALUES.inertia)
    }
}
