//! How fast a train may come up to a closed signal, and how fast it may creep past.
use crate::models::{Ceilings, Times, Train};
use crate::raw;
use crate::refusal::{accepted, Refusal};
use crate::units::{Ceiling, Kmh, Metre};
use std::fmt;

/// What holds the permitted speed.
#[derive(Clone, Copy, Debug, PartialEq, Eq)]
#[repr(u32)]
pub enum Mark {
    /// At the next speed the P distance to the release speed is longer than the way to the signal, or the brake too weak. This
    /// mark also stands where the top speed ends the climb: nothing but the top speed holds a permitted speed that equals it.
    Curve = raw::CURVE,
    /// The release speed, whose own P distance is longer than the way to the signal.
    Release = raw::RELEASE,
}

impl Mark {
    /// Both, by number.
    pub const ALL: [Mark; 2] = [Mark::Curve, Mark::Release];

    /// Its number in document 01.
    pub fn number(self) -> u32 {
        self as u32
    }

    /// The mark of that number; none of 0, which is a refused answer's.
    pub fn numbered(number: u32) -> Option<Mark> {
        Mark::ALL.into_iter().find(|mark| mark.number() == number)
    }
}

impl fmt::Display for Mark {
    fn fmt(&self, out: &mut fmt::Formatter) -> fmt::Result {
        out.pad(match self {
            Mark::Curve => "curve",
            Mark::Release => "release",
        })
    }
}

/// The speeds of an approach to a closed signal, and the stretches that govern them.
///
/// A stretch governs that has the least gradient of its span, which [`query`] tells; of several the one of the lowest number, from 0
/// along the sheet. The numbers are this sheet's own: sheets that agree on the signal and on every point of both spans have the same
/// speeds, mark and ceilings, and may differ in these two.
#[derive(Clone, Copy, Debug, PartialEq, Eq)]
pub struct Approach {
    /// The release speed: braked at the signal from it or less, the train stays within the overlap.
    pub release: Kmh,
    /// The permitted speed where the head stands.
    pub permitted: Kmh,
    /// What holds the permitted speed.
    pub mark: Mark,
    /// The three ceilings of the permitted speed.
    pub ceilings: Ceilings,
    /// The number of the stretch that governs past the signal; none where the overlap is 0.
    pub overlap_stretch: Option<u32>,
    /// The number of the stretch that governs up to the signal.
    pub ahead_stretch: u32,
}

/// The approach of a train whose head stands at a place to the signal of a number, from 0. It brakes to the release speed on
/// the least gradient from its tail to the signal, and past the signal on the least from where its tail is with the head at
/// the signal up to the overlap's end. The tail is the train's length behind the head, or at 0 where there is less of the line
/// behind it.
pub fn query(train: Train, times: Times, sheet: &[u8], signal: u32, head: Metre) -> Result<Approach, Refusal> {
    let answer = raw::query(train.into(), times.dead.0, times.rise.0, sheet, signal, head.0);
    let raw::Answer { refusal, release, permitted, mark, w, sbi, ebi, overlap_stretch, ahead_stretch } = answer;
    accepted(refusal, ())?;
    let mark = Mark::numbered(mark).expect("an accepted answer has one of two marks");
    let ceilings = Ceilings { w: Ceiling(w), sbi: Ceiling(sbi), ebi: Ceiling(ebi) };
    let overlap_stretch = (overlap_stretch != raw::NO_STRETCH).then_some(overlap_stretch);
    Ok(Approach { release: Kmh(release), permitted: Kmh(permitted), mark, ceilings, overlap_stretch, ahead_stretch })
}
