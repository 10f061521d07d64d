//! Inputs for tests and benchmarks, the same in every run: trains, lines, queries and walks, mostly such as are accepted; and how
//! the answers to queries and walks are held to the reference. A train has the first values, where it is not asked for with
//! coefficients of its own.
mod coefficients;
mod held;
mod seen;
mod tied;
mod walk;

use approach::sheet::{self, write, Lists};
use approach::{query, Approach, Brake, Coefficients, Hundredth, Kmh, Metre, Refusal, Times, Train};
pub use coefficients::{in_the_ramp, inertia_on_paper, on_paper, Span, SPANS};
pub use held::{answer_on_paper, without_stretches};
pub use seen::{beside, lent, Beside, Found};
use std::collections::BTreeSet;
pub use walk::Walked;

/// Document 01's example of a sheet, and the train of the program that prints it.
pub const EXAMPLE: [u8; 38] = [
    0x01, 0x00, 0x02, 0x00, 0x14, 0x00, 0x00, 0x00, 0x1A, 0x00, 0x00, 0x00, 0x26, 0x00, 0x00, 0x00, 0xD0, 0x07, 0x00,
    0x00, 0x00, 0x00, 0x00, 0x00, 0x00, 0x00, 0x00, 0x00, 0x00, 0x00, 0x78, 0x00, 0x21, 0x04, 0x00, 0x00, 0x00, 0x00,
];
pub const EXAMPLE_TRAIN: Train = Train {
    brake: Brake::Passenger,
    electropneumatic: true,
    braked_weight: 100,
    length: Metre(200),
    top_speed: Kmh(100),
    coefficients: Coefficients::FIRST_VALUES,
};

/// TM and TR in hundredths of a second.
pub fn times(tm: u32, tr: u32) -> Times {
    Times { dead: Hundredth(tm), rise: Hundredth(tr) }
}

/// What an approach query is asked.
#[derive(Clone, Debug)]
pub struct Query {
    pub train: Train,
    pub tm: u32,
    pub tr: u32,
    pub sheet: Vec<u8>,
    pub signal: u32,
    pub head: u32,
}

impl Query {
    /// The query of document 01's printing program for signal 0.
    pub fn printed(sheet: Vec<u8>) -> Query {
        Query { train: EXAMPLE_TRAIN, tm: 200, tr: 400, sheet, signal: 0, head: 0 }
    }

    pub fn answer(&self) -> Result<Approach, Refusal> {
        self.on(&self.sheet)
    }

    /// The same query of another sheet.
    pub fn on(&self, sheet: &[u8]) -> Result<Approach, Refusal> {
        query(self.train, times(self.tm, self.tr), sheet, self.signal, Metre(self.head))
    }
}

/// What a sheet is written from: starts, places, overlaps and the end in metres, gradients in per mille.
#[derive(Clone, Debug, PartialEq, Eq)]
pub struct Line {
    pub starts: Vec<u32>,
    pub gradients: Vec<i16>,
    pub places: Vec<u32>,
    pub overlaps: Vec<u16>,
    pub end: u32,
}

impl Line {
    /// The number of the stretch that holds a point of the line.
    pub fn stretch_at(&self, point: u32) -> usize {
        self.starts.partition_point(|&start| start <= point) - 1
    }

    /// How many bytes its sheet takes.
    pub fn length(&self) -> usize {
        sheet::length(self.starts.len(), self.places.len())
    }

    /// The library's sheet of a line that keeps every rule.
    pub fn written(&self) -> Vec<u8> {
        let metres = |numbers: &[u32]| numbers.iter().copied().map(Metre).collect::<Vec<_>>();
        let (starts, places) = (metres(&self.starts), metres(&self.places));
        let (gradients, overlaps, end) = (&self.gradients, &self.overlaps, Metre(self.end));
        // No zeros, so that a byte that is not written shows.
        let mut buffer = vec![0xa5; self.length()];
        let written = write(Lists { starts: &starts, gradients, places: &places, overlaps, end }, &mut buffer);
        written.expect("a line that keeps every rule").to_vec()
    }
}

/// SplitMix64.
pub struct Random(pub u64);

impl Random {
    pub fn word(&mut self) -> u64 {
        self.0 = self.0.wrapping_add(0x9e37_79b9_7f4a_7c15);
        let mut z = self.0;
        z = (z ^ (z >> 30)).wrapping_mul(0xbf58_476d_1ce4_e5b9);
        z = (z ^ (z >> 27)).wrapping_mul(0x94d0_49bb_1331_11eb);
        z ^ (z >> 31)
    }

    pub fn below(&mut self, n: u64) -> u64 {
        self.word() % n
    }

    /// Mostly from `least` to `most`, both ends among them, and now and then what lies outside.
    pub fn near(&mut self, least: u32, most: u32) -> u32 {
        match self.below(64) {
            0 => most + 1,
            1 => u32::MAX,
            2 => least.saturating_sub(1),
            3 => least,
            4 => most,
            _ => least + self.below((most - least + 1) as u64) as u32,
        }
    }

    /// The number itself, now and then the first outside its span or one above that.
    pub fn or_outside(&mut self, number: u32, first: u32) -> u32 {
        match self.below(24) {
            0 => first.saturating_add(self.below_any(&[1, 100, u32::MAX])),
            _ => number,
        }
    }

    /// Bytes that are mostly left as they are.
    pub fn damage(&mut self, sheet: &mut Vec<u8>) {
        let any = self.below(sheet.len() as u64) as usize;
        match self.below(64) {
            0 => sheet.push(0),
            1 => sheet.truncate(any),
            2 => sheet[any % 20] ^= 1 + self.below(255) as u8,
            3..=5 => sheet[any] ^= 1 + self.below(255) as u8,
            _ => (),
        }
    }

    /// Mostly of document 01's list, and now and then beside it.
    pub fn braked_weight(&mut self) -> u32 {
        match self.below(32) {
            0 => self.near(40, 170),
            _ => 45 + 5 * self.below(24) as u32,
        }
    }

    /// Mostly from -35 to 35.
    pub fn gradient(&mut self) -> i32 {
        match self.below(64) {
            0 => 36,
            1 => -36,
            2 => i32::MIN,
            3 => i32::MAX,
            _ => self.below(71) as i32 - 35,
        }
    }

    pub fn train(&mut self) -> Train {
        Train {
            brake: [Brake::Passenger, Brake::Freight][self.below(2) as usize],
            electropneumatic: self.below(2) == 0,
            braked_weight: self.braked_weight(),
            length: Metre(self.near(0, 1000)),
            top_speed: Kmh(self.near(1, 330)),
            coefficients: Coefficients::FIRST_VALUES,
        }
    }

    /// `count` rising numbers below `end`, which is not below `count`.
    fn rising(&mut self, count: u32, end: u32) -> Vec<u32> {
        let mut numbers = BTreeSet::new();
        while numbers.len() < count as usize {
            numbers.insert(self.below(end as u64) as u32);
        }
        numbers.into_iter().collect()
    }

    /// The least line end for these counts, the greatest of all, or one between.
    fn line_end(&mut self, stretches: u32, signals: u32) -> u32 {
        let least = stretches.max(signals).max(1);
        match self.below(8) {
            0 => least,
            1 => 500_000,
            2 => least + self.below(100) as u32,
            _ => least + self.below((500_001 - least) as u64) as u32,
        }
    }

    /// None, all that the line end leaves room for, or any between.
    fn overlap(&mut self, room: u32) -> u16 {
        let most = room.min(u16::MAX as u32);
        match self.below(4) {
            0 => 0,
            1 => most as u16,
            _ => self.below(most as u64 + 1) as u16,
        }
    }

    /// A line that keeps every rule of a sheet but, where asked for other counts, that of the counts.
    pub fn line(&mut self, stretches: u32, signals: u32) -> Line {
        let end = self.line_end(stretches, signals);
        let mut starts = self.rising(stretches, end);
        if let Some(first) = starts.first_mut() {
            *first = 0;
        }
        let gradients = starts.iter().map(|_| self.below(71) as i16 - 35).collect();
        let places = self.rising(signals, end);
        let overlaps = places.iter().map(|place| self.overlap(end - place)).collect();
        Line { starts, gradients, places, overlaps, end }
    }

    /// Below one of the ends, so that small numbers are not rare.
    pub fn below_any(&mut self, ends: &[u32]) -> u32 {
        let end = ends[self.below(ends.len() as u64) as usize];
        self.below(end as u64) as u32
    }

    /// A line of some kilometres at most, with short overlaps and mostly gentle slopes: one where speeds differ.
    pub fn short_line(&mut self) -> Line {
        let end = 8 + self.below_any(&[50, 1500, 6000, 20_000]);
        let (stretches, signals) = (1 + self.below(8) as u32, 1 + self.below(4) as u32);
        let mut starts = self.rising(stretches, end);
        starts[0] = 0;
        let steepest = [3, 12, 35][self.below(3) as usize];
        let gradients = starts.iter().map(|_| self.below(2 * steepest + 1) as i16 - steepest as i16).collect();
        let places = self.rising(signals, end);
        let overlaps = places.iter().map(|place| self.below_any(&[1, 20, 200, 1500]).min(end - place) as u16).collect();
        Line { starts, gradients, places, overlaps, end }
    }
}
