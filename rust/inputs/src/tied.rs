//! Lines of few gradients, on which several stretches often have the least, and queries whose spans end about a start.
use crate::{Line, Query, Random, Walked};
use approach::{Kmh, Metre, Train};

impl Random {
    /// The same line with one to three gradients in all, which every braked weight from 100 % on can brake on.
    fn tied(&mut self, line: Line) -> Line {
        let few: Vec<i16> = (0..1 + self.below(3)).map(|_| self.below_any(&[3, 13, 31]) as i16 - 15).collect();
        let gradients = line.starts.iter().map(|_| few[self.below(few.len() as u64) as usize]).collect();
        Line { gradients, ..line }
    }

    /// A walk on any line of few gradients.
    pub fn tied_walk(&mut self) -> Walked {
        let stretches = self.stretch_count();
        let line = self.line(stretches, 0);
        let line = self.tied(line);
        self.walk_on(line)
    }

    /// Some kilometres at most: the reference goes along a query's spans metre by metre.
    fn short_tied_line(&mut self) -> Line {
        let stretches = self.stretch_count();
        let end = stretches + self.below_any(&[1, 50, 1500, 4000]);
        let mut starts = self.rising(stretches, end);
        starts[0] = 0;
        self.tied(Line { starts, gradients: vec![], places: vec![], overlaps: vec![], end })
    }

    /// None; else up to one of the next starts, one metre less or more; up to the line end where there is none.
    fn overlap_about_a_start(&mut self, line: &Line, place: u32) -> u16 {
        let next = line.stretch_at(place) + 1 + self.below(3) as usize;
        let end = match line.starts.get(next) {
            _ if self.below(4) == 0 => place,
            Some(start) => start + self.below(3) as u32 - 1,
            None => line.end,
        };
        (end.min(line.end) - place) as u16
    }

    /// A query on a line of few gradients, and the line. The train is slow, since its speed has no say in which stretches govern.
    pub fn tied_query(&mut self) -> (Line, Query) {
        let line = self.short_tied_line();
        let Walked { mut line, signal, head, mut length, .. } = self.walk_on(line);
        let place = line.places[signal as usize];
        line.overlaps[signal as usize] = self.overlap_about_a_start(&line, place);
        if self.below(2) == 0 {
            length = (place - self.about_a_start(&line, place)).min(1000);
        }
        let (braked_weight, top_speed) = (100 + 5 * self.below(13) as u32, Kmh(1 + self.below(20) as u32));
        let train = Train { braked_weight, length: Metre(length), top_speed, ..self.train() };
        let (tm, tr) = (self.below(2001) as u32, 1 + self.below(3000) as u32);
        let sheet = line.written();
        (line, Query { train, tm, tr, sheet, signal, head })
    }
}
