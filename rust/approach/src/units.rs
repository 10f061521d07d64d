//! A speed in km/h, a place in metres and a distance in millimetres never stand in for each other.
use std::fmt;

/// A speed in km/h.
#[repr(transparent)]
#[derive(Clone, Copy, Debug, PartialEq, Eq, PartialOrd, Ord, Hash)]
pub struct Kmh(pub u32);

/// A place on the line or a length, in metres.
#[repr(transparent)]
#[derive(Clone, Copy, Debug, PartialEq, Eq, PartialOrd, Ord, Hash)]
pub struct Metre(pub u32);

/// A distance in millimetres. It is shown in metres.
#[repr(transparent)]
#[derive(Clone, Copy, Debug, PartialEq, Eq, PartialOrd, Ord, Hash)]
pub struct Millimetre(pub u32);

/// A gradient in per mille, positive uphill.
#[repr(transparent)]
#[derive(Clone, Copy, Debug, PartialEq, Eq, PartialOrd, Ord, Hash)]
pub struct PerMille(pub i32);

/// A time in hundredths of a second.
#[repr(transparent)]
#[derive(Clone, Copy, Debug, PartialEq, Eq, PartialOrd, Ord, Hash)]
pub struct Hundredth(pub u32);

/// A moment in milliseconds. It is shown in seconds.
#[repr(transparent)]
#[derive(Clone, Copy, Debug, PartialEq, Eq, PartialOrd, Ord, Hash)]
pub struct Millisecond(pub u32);

/// A speed in 120ths of a km/h, as the ceilings have it. It is shown in km/h, cut to thousandths.
#[repr(transparent)]
#[derive(Clone, Copy, Debug, PartialEq, Eq, PartialOrd, Ord, Hash)]
pub struct Ceiling(pub u32);

/// A number of thousandths, with its point.
fn thousandths(out: &mut fmt::Formatter, number: u64, unit: &str) -> fmt::Result {
    out.pad(&format!("{}.{:03} {unit}", number / 1000, number % 1000))
}

impl fmt::Display for Kmh {
    fn fmt(&self, out: &mut fmt::Formatter) -> fmt::Result {
        out.pad(&format!("{} km/h", self.0))
    }
}

impl fmt::Display for Metre {
    fn fmt(&self, out: &mut fmt::Formatter) -> fmt::Result {
        out.pad(&format!("{} m", self.0))
    }
}

impl fmt::Display for Millimetre {
    fn fmt(&self, out: &mut fmt::Formatter) -> fmt::Result {
        thousandths(out, self.0.into(), "m")
    }
}

impl fmt::Display for PerMille {
    fn fmt(&self, out: &mut fmt::Formatter) -> fmt::Result {
        out.pad(&format!("{} ‰", self.0))
    }
}

impl fmt::Display for Hundredth {
    fn fmt(&self, out: &mut fmt::Formatter) -> fmt::Result {
        out.pad(&format!("{}.{:02} s", self.0 / 100, self.0 % 100))
    }
}

impl fmt::Display for Millisecond {
    fn fmt(&self, out: &mut fmt::Formatter) -> fmt::Result {
        thousandths(out, self.0.into(), "s")
    }
}

impl fmt::Display for Ceiling {
    fn fmt(&self, out: &mut fmt::Formatter) -> fmt::Result {
        thousandths(out, u64::from(self.0) * 1000 / 120, "km/h")
    }
}
