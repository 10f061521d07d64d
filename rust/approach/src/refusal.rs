//! Why a call is turned down: document 01, "What is turned away", with document 02's Card 5.
use std::error::Error;
use std::fmt;

/// What was turned away, in the words of the header's constants: of all that applies, the first in the order of
/// [`Refusal::DECIDED`].
#[derive(Clone, Copy, PartialEq, Eq, Hash)]
#[repr(u32)]
pub enum Refusal {
    /// A braked weight percentage that is not one of 45 to 160 in steps of 5.
    BrakedWeight = 1,
    /// A train longer than 1,000 m.
    Length = 2,
    /// A top speed that is not 1 to 330 km/h, another speed over 330, or one past the signal that is not 1 to 100.
    Speed = 3,
    /// A target speed above the speed, or in a row above the top speed.
    Target = 4,
    /// A gradient that is not -35 to 35 per mille.
    Gradient = 5,
    /// A dead time over 20 s, or a rise time that is not 0.01 to 30 s.
    Times = 6,
    /// Bytes that are no line sheet, or fields that make none: the rules are those of [`sheet`](crate::sheet).
    Sheet = 7,
    /// The number of a signal or stretch that the sheet does not have.
    Number = 8,
    /// A head beyond the signal.
    Head = 9,
    /// A brake that on its gradient decelerates by less than 0.05 m/s², in a model consulted. A row is refused if any of its
    /// speeds is too weak, a query if its release speed is: a too weak speed above it ends the climb to the permitted one.
    WeakBrake = 10,
    /// A list or buffer too short for the output.
    Room = 11,
    /// A coefficient outside its span or step: those are [`Coefficients`](crate::Coefficients)'.
    Coefficient = 12,
}

impl Refusal {
    /// All of them, by number. That is not the order in which they are decided: see [`Refusal::DECIDED`].
    pub const ALL: [Refusal; 12] = [
        Refusal::BrakedWeight,
        Refusal::Length,
        Refusal::Speed,
        Refusal::Target,
        Refusal::Gradient,
        Refusal::Times,
        Refusal::Sheet,
        Refusal::Number,
        Refusal::Head,
        Refusal::WeakBrake,
        Refusal::Room,
        Refusal::Coefficient,
    ];

    /// All of them, in the order in which they are decided: the one of a coefficient comes before that of the sheet.
    pub const DECIDED: [Refusal; 12] = [
        Refusal::BrakedWeight,
        Refusal::Length,
        Refusal::Speed,
        Refusal::Target,
        Refusal::Gradient,
        Refusal::Times,
        Refusal::Coefficient,
        Refusal::Sheet,
        Refusal::Number,
        Refusal::Head,
        Refusal::WeakBrake,
        Refusal::Room,
    ];

    /// Its number in documents 01 and 02.
    pub fn number(self) -> u32 {
        self as u32
    }

    /// The refusal of that number; none of 0, which is an accepted answer's.
    pub fn numbered(number: u32) -> Option<Refusal> {
        Refusal::ALL.into_iter().find(|refusal| refusal.number() == number)
    }

    /// What is wrong, without the number.
    pub fn text(self) -> &'static str {
        match self {
            Refusal::BrakedWeight => "the braked weight percentage is not one of 45 to 160 in steps of 5",
            Refusal::Length => "the train is longer than 1,000 m",
            Refusal::Speed => {
                "a speed is outside its span: a top speed of 1 to 330 km/h, a speed of 0 to 330, one past the signal of 1 to 100"
            }
            Refusal::Target => "the target speed is above the speed, or in a row above the top speed",
            Refusal::Gradient => "the gradient is not from -35 to 35 per mille",
            Refusal::Times => "the dead time is over 20 s, or the rise time is not from 0.01 to 30 s",
            Refusal::Sheet => "the bytes are no line sheet, or the fields make none",
            Refusal::Number => "there is no signal or stretch of that number",
            Refusal::Head => "the head is beyond the signal",
            Refusal::WeakBrake => "the brake is too weak on this gradient: with the slope it gives less than 0.05 m/s²",
            Refusal::Room => "the list or buffer is too short for the output",
            Refusal::Coefficient => "a coefficient is outside its span or step",
        }
    }
}

impl fmt::Display for Refusal {
    fn fmt(&self, out: &mut fmt::Formatter) -> fmt::Result {
        write!(out, "{} (refusal {})", self.text(), self.number())
    }
}

/// As it is displayed: a `main` that hands a refusal back then prints the text and the number, not a bare name.
impl fmt::Debug for Refusal {
    fn fmt(&self, out: &mut fmt::Formatter) -> fmt::Result {
        fmt::Display::fmt(self, out)
    }
}

impl Error for Refusal {}

/// The answer, unless its number is a refusal's.
pub(crate) fn accepted<A>(number: u32, answer: A) -> Result<A, Refusal> {
    match number {
        0 => Ok(answer),
        _ => Err(Refusal::numbered(number).expect("a number of document 01's table, or of document 02's")),
    }
}
