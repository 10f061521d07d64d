//! The check of a line sheet as one would write it in Rust: one pass over the bytes, and no copy of them.
//! What is timed stands behind a call that is not inlined, as the proved one does.
use approach::raw::Signal;
use std::ops::Range;

const HEADER: usize = 20;

/// A stretch or a signal: a place in four bytes, then its gradient or overlap.
pub(crate) type Entry = [u8; 6];

#[inline(always)]
pub(crate) fn split(&[a, b, c, d, e, f]: &Entry) -> (u32, [u8; 2]) {
    (u32::from_le_bytes([a, b, c, d]), [e, f])
}

/// The stretches, the signals and the line end of a sheet whose header is right.
#[inline(always)]
fn parts(sheet: &[u8]) -> Option<(&[Entry], &[Entry], u32)> {
    let (header, rest) = sheet.split_first_chunk::<HEADER>()?;
    let count = |at: usize| u16::from_le_bytes([header[at], header[at + 1]]) as usize;
    let number = |at: usize| u32::from_le_bytes([header[at], header[at + 1], header[at + 2], header[at + 3]]);
    let (n, m, end) = (count(0), count(2), number(16));
    let signal_offset = HEADER + 6 * n;
    let length = signal_offset + 6 * m;
    if !(1..=512).contains(&n)
        || m > 64
        || [number(4), number(8), number(12)] != [HEADER, signal_offset, length].map(|n| n as u32)
        || sheet.len() != length
        || !(1..=500_000).contains(&end)
    {
        return None;
    }
    let (stretches, signals) = rest.as_chunks().0.split_at(n);
    Some((stretches, signals, end))
}

/// Whether the places rise strictly below the line end, each with what its last two bytes have to keep.
#[inline(always)]
fn rise(entries: &[Entry], end: u32, keeps: impl Fn(u32, [u8; 2]) -> bool) -> bool {
    // From the last to the first, so that one comparison serves for the order and the end.
    let mut bound = end;
    for entry in entries.iter().rev() {
        let (place, last) = split(entry);
        if place >= bound || !keeps(place, last) {
            return false;
        }
        bound = place;
    }
    true
}

/// The stretches and the signals of a sheet that keeps every rule.
#[inline(always)]
pub(crate) fn checked(sheet: &[u8]) -> Option<(&[Entry], &[Entry])> {
    let (stretches, signals, end) = parts(sheet)?;
    let kept = split(&stretches[0]).0 == 0
        && rise(stretches, end, |_, gradient| i16::from_le_bytes(gradient).unsigned_abs() <= 35)
        && rise(signals, end, |place, overlap| u16::from_le_bytes(overlap) as u32 <= end - place);
    kept.then_some((stretches, signals))
}

/// Place and overlap of a signal by its number.
#[inline(always)]
pub(crate) fn numbered(signals: &[Entry], number: u32) -> Option<(u32, u32)> {
    let (place, overlap) = split(signals.get(number as usize)?);
    Some((place, u16::from_le_bytes(overlap) as u32))
}

/// The stretches, with place and overlap of a signal that the head is not beyond; else 7, 8 or 9.
#[inline(always)]
pub(crate) fn signal_ahead(sheet: &[u8], number: u32, head: u32) -> Result<(&[Entry], u32, u32), u32> {
    let (stretches, signals) = checked(sheet).ok_or(7u32)?;
    let (place, overlap) = numbered(signals, number).ok_or(8u32)?;
    if head > place {
        return Err(9);
    }
    Ok((stretches, place, overlap))
}

/// A stretch's gradient in per mille.
#[inline(always)]
pub(crate) fn gradient(stretch: &Entry) -> i32 {
    i16::from_le_bytes(split(stretch).1).into()
}

/// The least gradient of some stretches in per mille, and the lowest number among those that have it.
#[derive(Clone, Copy)]
pub(crate) struct Grade {
    pub gradient: i32,
    pub stretch: u32,
}

/// Of the stretches of these numbers, of which there is one at least.
#[inline(always)]
pub(crate) fn governing(stretches: &[Entry], numbers: Range<usize>) -> Grade {
    let held = &stretches[numbers.clone()];
    // The least first, and then where it is: two quick loops rather than a slow one.
    let least = held.iter().map(gradient).fold(i32::MAX, i32::min);
    let first = held.iter().take_while(|stretch| gradient(stretch) != least).count();
    Grade { gradient: least, stretch: (numbers.start + first) as u32 }
}

/// Over the points `from` up to but not including `to`, of which there is one at least.
#[inline(always)]
pub(crate) fn grade(stretches: &[Entry], from: u32, to: u32) -> Grade {
    let begun = |point: u32| stretches.partition_point(|stretch| split(stretch).0 < point);
    // The first stretch starts at 0, so one has begun.
    governing(stretches, begun(from + 1) - 1..begun(to))
}

#[inline(never)]
pub fn accepts(sheet: &[u8]) -> bool {
    checked(sheet).is_some()
}

/// The check of the whole sheet, then one signal of it.
#[inline(never)]
pub fn signal(sheet: &[u8], number: u32) -> Signal {
    let refused = |refusal| Signal { refusal, place: 0, overlap: 0 };
    let Some((_, signals)) = checked(sheet) else { return refused(7) };
    let Some((place, overlap)) = numbered(signals, number) else { return refused(8) };
    Signal { refusal: 0, place, overlap }
}
