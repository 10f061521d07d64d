//! The line sheet: a line's stretches and signals, in bytes that the caller keeps. Each call checks the whole sheet, and
//! refuses by [`Refusal::Sheet`] where a rule is broken.
//!
//! # Its rules
//!
//! Numbers are little-endian, and there are no gaps. With n stretches and m signals, each numbered from 0:
//!
//! | at | bytes | |
//! |---|---|---|
//! | 0 | 2 | n, 1 to 512 |
//! | 2 | 2 | m, 0 to 64 |
//! | 4 | 4 | where the stretches begin: 20 |
//! | 8 | 4 | where the signals begin: 20 + 6n |
//! | 12 | 4 | the sheet's length: 20 + 6n + 6m, just as many bytes as the slice has |
//! | 16 | 4 | line end in metres, 1 to 500,000 |
//! | 20 + 6k | 4 | stretch k: its start in metres |
//! | 24 + 6k | 2 | its gradient in per mille, -35 to 35, in two's complement |
//! | 20 + 6n + 6k | 4 | signal k: its place in metres |
//! | 24 + 6n + 6k | 2 | its overlap in metres |
//!
//! The first stretch starts at 0. Starts rise strictly and are below the line end. Places rise strictly and are below the
//! line end, and place + overlap is at most the line end.
use crate::raw;
use crate::refusal::{accepted, Refusal};
use crate::units::{Metre, PerMille};

/// A stretch of one gradient. It reaches to the next start or the line end, that point excluded.
#[derive(Clone, Copy, Debug, PartialEq, Eq)]
pub struct Stretch {
    /// Where it starts.
    pub start: Metre,
    /// Its gradient.
    pub gradient: PerMille,
}

/// A signal. A train that is braked at the place may still come to a stop in the overlap past it.
#[derive(Clone, Copy, Debug, PartialEq, Eq)]
pub struct Signal {
    /// Where it stands.
    pub place: Metre,
    /// How far past it a train may still come to a stop.
    pub overlap: Metre,
}

/// What a sheet is written from: starts and gradients pair up as stretches, places and overlaps as signals, in lists of
/// one length. Gradients are in per mille, overlaps in metres, in the widths that a sheet has for them.
#[derive(Clone, Copy, Debug, PartialEq, Eq)]
pub struct Lists<'a> {
    /// Of 1 to 512 stretches: the first is 0, they rise strictly and are below the line end.
    pub starts: &'a [Metre],
    /// -35 to 35, one for each start.
    pub gradients: &'a [i16],
    /// Of 0 to 64 signals: they rise strictly and are below the line end.
    pub places: &'a [Metre],
    /// One for each place: place + overlap is at most the line end.
    pub overlaps: &'a [u16],
    /// The line end, 1 to 500,000 m.
    pub end: Metre,
}

/// The most stretches that a sheet has.
pub const MOST_STRETCHES: usize = 512;

/// The most signals that a sheet has.
pub const MOST_SIGNALS: usize = 64;

/// How many bytes a sheet of so many stretches and signals has.
pub const fn length(stretches: usize, signals: usize) -> usize {
    20 + 6 * stretches + 6 * signals
}

/// How many bytes the longest sheet has.
pub const LONGEST: usize = length(MOST_STRETCHES, MOST_SIGNALS);

/// Writes a sheet into a lent buffer of at least its [`length`]. What is handed back is the part that was written; on a
/// refusal nothing is.
pub fn write<'a>(lists: Lists, buffer: &'a mut [u8]) -> Result<&'a [u8], Refusal> {
    let Lists { starts, gradients, places, overlaps, end } = lists;
    let written = raw::sheet_write(numbers(starts), gradients, numbers(places), overlaps, end.0, buffer);
    accepted(written.refusal, &buffer[..written.length as usize])
}

fn numbers(places: &[Metre]) -> &[u32] {
    // A `Metre` is laid out as its number.
    unsafe { &*(places as *const [Metre] as *const [u32]) }
}

/// The stretch of a number, from 0.
pub fn stretch(sheet: &[u8], number: u32) -> Result<Stretch, Refusal> {
    let raw::Stretch { refusal, start, gradient } = raw::sheet_stretch(sheet, number);
    accepted(refusal, Stretch { start: Metre(start), gradient: PerMille(gradient) })
}

/// The signal of a number, from 0.
pub fn signal(sheet: &[u8], number: u32) -> Result<Signal, Refusal> {
    let raw::Signal { refusal, place, overlap } = raw::sheet_signal(sheet, number);
    accepted(refusal, Signal { place: Metre(place), overlap: Metre(overlap) })
}

/// A reading mark, before the stretch of the number `next`. Any number is taken.
#[derive(Clone, Copy, Debug, PartialEq, Eq)]
pub struct Mark {
    /// The number of the stretch that the next move answers.
    pub next: u32,
}

impl Mark {
    /// Before stretch 0.
    pub const FRESH: Mark = Mark { next: 0 };

    /// The next stretch, if any, and the mark behind it; past the last stretch the mark stays.
    pub fn moved(self, sheet: &[u8]) -> Result<(Option<Stretch>, Mark), Refusal> {
        let raw::Move { refusal, end, start, gradient, mark } = raw::sheet_next(sheet, raw::Mark { next: self.next });
        let stretch = Stretch { start: Metre(start), gradient: PerMille(gradient) };
        accepted(refusal, ((end == 0).then_some(stretch), Mark { next: mark.next }))
    }
}

/// The stretches in order, by a reading mark.
pub fn stretches(sheet: &[u8]) -> Result<impl Iterator<Item = Stretch> + '_, Refusal> {
    Mark::FRESH.moved(sheet)?;
    let mut mark = Mark::FRESH;
    Ok(std::iter::from_fn(move || {
        let (stretch, after) = mark.moved(sheet).ok()?;
        mark = after;
        stretch
    }))
}

/// The signals in order.
pub fn signals(sheet: &[u8]) -> Result<impl Iterator<Item = Signal> + '_, Refusal> {
    Mark::FRESH.moved(sheet)?;
    Ok((0..).map_while(|number| signal(sheet, number).ok()))
}
