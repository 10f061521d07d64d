//! Walks from a signal back to a train's tail, mostly with both about the start of a stretch.
use crate::{Line, Random};
use approach::{step_back, Metre, Refusal, StepBack};

/// What a step is asked by, but for its number. The line is the sheet's before any damage.
#[derive(Clone, Debug)]
pub struct Walked {
    pub line: Line,
    pub sheet: Vec<u8>,
    pub signal: u32,
    pub head: u32,
    pub length: u32,
}

impl Walked {
    /// A step, of the same bytes at another place.
    pub fn step_on(&self, sheet: &[u8], step: u32) -> Result<Option<StepBack>, Refusal> {
        step_back(sheet, self.signal, Metre(self.head), Metre(self.length), step)
    }

    /// Where the signal stands, and where the tail is.
    pub fn ends(&self) -> (u32, u32) {
        (self.line.places[self.signal as usize], self.head.saturating_sub(self.length))
    }
}

impl Random {
    /// Mostly the start of a stretch, the metre before it or the one behind it; at most a point of the line.
    pub(crate) fn about_a_start(&mut self, line: &Line, most: u32) -> u32 {
        let begun = line.starts.partition_point(|&start| start <= most);
        let start = line.starts[self.below(begun as u64) as usize];
        let point = match self.below(4) {
            0 => start,
            1 => start.saturating_sub(1),
            2 => start + 1,
            _ => self.below(most as u64 + 1) as u32,
        };
        point.min(most)
    }

    /// Now and then the line's last metre, so that a walk may be one of all stretches.
    fn signal_place(&mut self, line: &Line) -> u32 {
        match self.below(4) {
            0 => line.end - 1,
            _ => self.about_a_start(line, line.end - 1),
        }
    }

    /// In metres, such as are accepted; the shortest and the longest are not rare.
    fn train_length(&mut self) -> u32 {
        match self.below(8) {
            known @ 0..4 => [0, 1, 600, 1000][known as usize],
            _ => self.below(1001) as u32,
        }
    }

    /// A head at the place or before it: there, a train's length ahead of a start, or at the line's beginning.
    fn head_before(&mut self, line: &Line, place: u32, length: u32) -> u32 {
        let head = match self.below(8) {
            0 => place,
            1 => self.below(length.max(1) as u64) as u32,
            2 => 0,
            _ => self.about_a_start(line, place.saturating_sub(length)) + length,
        };
        head.min(place)
    }

    /// A walk on a line whose signals this sets, without overlaps.
    pub fn walk_on(&mut self, mut line: Line) -> Walked {
        let place = self.signal_place(&line);
        line.places = (0..self.below(4)).map(|_| self.signal_place(&line)).chain([place]).collect();
        line.places.sort();
        line.places.dedup();
        line.overlaps = vec![0; line.places.len()];
        let signal = line.places.partition_point(|&other| other < place) as u32;
        let length = self.train_length();
        let head = self.head_before(&line, place, length);
        Walked { sheet: line.written(), line, signal, head, length }
    }

    /// Of a line that is a long one now and then.
    pub(crate) fn stretch_count(&mut self) -> u32 {
        match self.below(16) {
            0 => 512,
            1 => 1,
            2 => 1 + self.below(512) as u32,
            _ => 1 + self.below_any(&[3, 12, 60]),
        }
    }

    /// A walk on any line.
    pub fn walk(&mut self) -> Walked {
        let stretches = self.stretch_count();
        let line = self.line(stretches, 0);
        self.walk_on(line)
    }

    /// Mostly a walk of which each part by itself is accepted.
    pub fn any_walk(&mut self) -> Walked {
        let mut walk = self.walk();
        let (place, _) = walk.ends();
        self.damage(&mut walk.sheet);
        walk.length = self.or_outside(walk.length, 1001);
        walk.signal = self.or_outside(walk.signal, walk.line.places.len() as u32);
        walk.head = self.or_outside(walk.head, place + 1);
        walk
    }
}
