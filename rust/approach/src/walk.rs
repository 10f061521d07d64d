//! The way from a signal back to a train's tail, stretch by stretch, as a designer lays out an approach.
use crate::raw;
use crate::refusal::{accepted, Refusal};
use crate::units::{Metre, PerMille};
use std::iter::FusedIterator;

/// A step of a [`walk`].
#[derive(Clone, Copy, Debug, PartialEq, Eq)]
pub struct StepBack {
    /// The stretch's number, from 0 along the sheet.
    pub stretch: u32,
    /// Its gradient.
    pub gradient: PerMille,
    /// The least gradient of the steps from 0 to this one.
    pub least: PerMille,
    /// The number of the stretch of these steps that has it, the lowest of several. It is this sheet's own, as [`stretch`] is: on
    /// sheets that agree the same fall may have another.
    ///
    /// [`stretch`]: StepBack::stretch
    pub least_stretch: u32,
}

/// The step of a number, from 0, on the walk from the signal of a number back to the tail of a train whose head stands at a
/// place. Step 0 is the stretch that holds the signal's own point, step k the one k before it. Past the stretch that holds the
/// tail there is none, of any number: the tail is the train's length behind the head, or at 0 where there is less of the line
/// behind it.
///
/// A call checks the sheet, finds the signal's stretch by halving, and walks no more steps than the number.
pub fn step_back(
    sheet: &[u8],
    signal: u32,
    head: Metre,
    train_length: Metre,
    step: u32,
) -> Result<Option<StepBack>, Refusal> {
    let back = raw::sheet_back(sheet, signal, head.0, train_length.0, step);
    let raw::Back { refusal, end, stretch, gradient, least, least_stretch } = back;
    let step = StepBack { stretch, gradient: PerMille(gradient), least: PerMille(least), least_stretch };
    accepted(refusal, (end == 0).then_some(step))
}

/// The steps of a [`walk`], from the signal's stretch to the tail's.
#[derive(Clone, Debug)]
pub struct Walk<'a> {
    sheet: &'a [u8],
    signal: u32,
    head: Metre,
    train_length: Metre,
    next: u32,
}

impl Iterator for Walk<'_> {
    type Item = StepBack;

    fn next(&mut self) -> Option<StepBack> {
        let Walk { sheet, signal, head, train_length, next } = *self;
        let step = step_back(sheet, signal, head, train_length, next).ok()??;
        self.next += 1;
        Some(step)
    }
}

/// At the end the number stays, and so does the answer.
impl FusedIterator for Walk<'_> {}

/// All steps of [`step_back`], in order. The last one's least is the gradient on which a [`query`](crate::query) brakes to the
/// release speed, and its least stretch the one that governs the way ahead.
///
/// ```
/// use approach::{sheet, walk, Metre, PerMille, Refusal};
///
/// # fn main() -> Result<(), Refusal> {
/// // A fall of 8 per mille between two rises, and a signal on the second.
/// let lists = sheet::Lists {
///     starts: &[Metre(0), Metre(400), Metre(900)],
///     gradients: &[5, -8, 3],
///     places: &[Metre(1000)],
///     overlaps: &[0],
///     end: Metre(2000),
/// };
/// let mut buffer = [0; sheet::length(3, 1)];
/// let line = sheet::write(lists, &mut buffer)?;
///
/// // A train of 200 m with its head at 700 m: its tail is on the fall.
/// let steps: Vec<_> = walk(line, 0, Metre(700), Metre(200))?.collect();
/// assert_eq!(steps.iter().map(|step| step.stretch).collect::<Vec<_>>(), [2, 1]);
/// assert_eq!(steps.last().map(|step| (step.least, step.least_stretch)), Some((PerMille(-8), 1)));
///
/// // The head is beyond the signal.
/// assert_eq!(walk(line, 0, Metre(1001), Metre(200)).unwrap_err(), Refusal::Head);
/// # Ok(())
/// # }
/// ```
///
/// Each step is a call of its own, which checks the sheet and walks there from the signal anew: 512 of them take 514 checks and
/// some 131,000 of the library's steps.
pub fn walk(sheet: &[u8], signal: u32, head: Metre, train_length: Metre) -> Result<Walk<'_>, Refusal> {
    step_back(sheet, signal, head, train_length, 0)?;
    Ok(Walk { sheet, signal, head, train_length, next: 0 })
}
