//! The way from the signal back to the tail, stretch by stretch, with the least gradient found so far (document 02,
//! Card 3) and the stretch that has it (Card 4).

use crate::approach::{signal_ahead, tail};
use crate::sheet::{governing, held};
use crate::train::check_length;

/// The stretch's number from 0 along the sheet, its gradient, the least gradient of the steps up to it, and the number
/// of the stretch that governs them.
#[derive(Clone, Copy, Debug, PartialEq, Eq)]
pub struct Step {
    pub stretch: u32,
    pub gradient: i16,
    pub least: i16,
    pub least_stretch: u32,
}

/// All steps, from the stretch that holds the signal's own point to the one that holds the tail's, or the number of a
/// refusal: 2, 7, 8 and 9, in this order. Head and length in metres.
///
/// No point between the two is without its stretch, so each step's stretch is the one before that of the last step.
pub fn walk(bytes: &[u8], signal: u32, head: u32, length: u32) -> Result<Vec<Step>, u32> {
    check_length(length)?;
    let (sheet, signal) = signal_ahead(bytes, signal, head)?;
    let mut falling = held(&sheet, tail(length, head)..signal.place + 1);
    falling.reverse();
    let step = |number: usize| {
        let (stretch, gradient) = falling[number];
        let walked = &falling[..=number];
        let least = walked.iter().map(|&(_, gradient)| gradient).min().expect("the step's own");
        Step { stretch, gradient, least, least_stretch: governing(walked).expect("the step's own") }
    };
    Ok((0..falling.len()).map(step).collect())
}

/// The step of a number from 0, which is that of the stretch so many before the signal's: none is "end".
pub fn back(bytes: &[u8], signal: u32, head: u32, length: u32, step: u32) -> Result<Option<Step>, u32> {
    Ok(walk(bytes, signal, head, length)?.get(step as usize).copied())
}
