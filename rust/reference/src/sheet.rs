//! The line sheet: a line's stretches and signals in the bytes of document 01, "Line sheet".

use std::ops::{Range, RangeInclusive};

/// Bytes of the header, and of one stretch or one signal.
const HEADER: usize = 20;
const ENTRY: usize = 6;

const STRETCHES: RangeInclusive<usize> = 1..=512;
const SIGNALS: RangeInclusive<usize> = 0..=64;
/// In metres.
const LINE_ENDS: RangeInclusive<u32> = 1..=500_000;
/// In per mille, positive uphill.
const GRADIENTS: RangeInclusive<i16> = -35..=35;

/// From its start in metres up to the next start or the line end, that point excluded.
#[derive(Clone, Copy, Debug, PartialEq, Eq)]
pub struct Stretch {
    pub start: u32,
    pub gradient: i16,
}

/// In metres.
#[derive(Clone, Copy, Debug, PartialEq, Eq)]
pub struct Signal {
    pub place: u32,
    pub overlap: u16,
}

/// The fields of a sheet, whether they keep its rules or not.
#[derive(Clone, Debug, PartialEq, Eq)]
pub struct Sheet {
    pub stretches: Vec<Stretch>,
    pub signals: Vec<Signal>,
    pub end: u32,
}

/// The stretch offset, the signal offset and the sheet length that the two counts fix.
fn layout(stretches: u16, signals: u16) -> [u32; 3] {
    let (header, entry) = (HEADER as u32, ENTRY as u32);
    let signal_offset = header + entry * u32::from(stretches);
    [header, signal_offset, signal_offset + entry * u32::from(signals)]
}

/// Strictly, and each below the line end.
fn rise(places: &[u32], end: u32) -> bool {
    places.windows(2).all(|pair| pair[0] < pair[1]) && places.iter().all(|&place| place < end)
}

/// Every rule of the fields; the layout in bytes has its own.
pub fn keeps(sheet: &Sheet) -> bool {
    let end = sheet.end;
    let starts: Vec<u32> = sheet.stretches.iter().map(|stretch| stretch.start).collect();
    let places: Vec<u32> = sheet.signals.iter().map(|signal| signal.place).collect();
    let overlap_fits = |signal: &Signal| u64::from(signal.place) + u64::from(signal.overlap) <= u64::from(end);
    STRETCHES.contains(&starts.len())
        && SIGNALS.contains(&places.len())
        && LINE_ENDS.contains(&end)
        && starts[0] == 0
        && rise(&starts, end)
        && sheet.stretches.iter().all(|stretch| GRADIENTS.contains(&stretch.gradient))
        && rise(&places, end)
        && sheet.signals.iter().all(overlap_fits)
}

/// Stretches and signals alike: a place in four bytes, then two bytes more.
fn entries(bytes: &[u8]) -> Vec<(u32, [u8; 2])> {
    let entry = |e: &[u8]| (u32::from_le_bytes([e[0], e[1], e[2], e[3]]), [e[4], e[5]]);
    bytes.chunks(ENTRY).map(entry).collect()
}

/// The fields of a sheet; none where any rule of the sheet is broken.
pub fn read(bytes: &[u8]) -> Option<Sheet> {
    let (header, rest) = bytes.split_at_checked(HEADER)?;
    let stretch_count = u16::from_le_bytes([header[0], header[1]]);
    let signal_count = u16::from_le_bytes([header[2], header[3]]);
    let numbers: Vec<u32> =
        header[4..].chunks(4).map(|bytes| u32::from_le_bytes(bytes.try_into().expect("four bytes"))).collect();
    let layout = layout(stretch_count, signal_count);
    if numbers[..3] != layout || bytes.len() != layout[2] as usize {
        return None;
    }
    let (stretches, signals) = rest.split_at(ENTRY * usize::from(stretch_count));
    let stretch = |(start, last)| Stretch { start, gradient: i16::from_le_bytes(last) };
    let signal = |(place, last)| Signal { place, overlap: u16::from_le_bytes(last) };
    let sheet = Sheet {
        stretches: entries(stretches).into_iter().map(stretch).collect(),
        signals: entries(signals).into_iter().map(signal).collect(),
        end: numbers[3],
    };
    keeps(&sheet).then_some(sheet)
}

/// The fields laid out, whether they keep the rules or not; panics on a count that two bytes cannot hold.
pub fn bytes(sheet: &Sheet) -> Vec<u8> {
    let count = |count| u16::try_from(count).expect("a count of two bytes");
    let counts = [count(sheet.stretches.len()), count(sheet.signals.len())];
    let mut bytes = counts.map(u16::to_le_bytes).concat();
    bytes.extend(layout(counts[0], counts[1]).map(u32::to_le_bytes).concat());
    bytes.extend(sheet.end.to_le_bytes());
    for stretch in &sheet.stretches {
        bytes.extend(stretch.start.to_le_bytes());
        bytes.extend(stretch.gradient.to_le_bytes());
    }
    for signal in &sheet.signals {
        bytes.extend(signal.place.to_le_bytes());
        bytes.extend(signal.overlap.to_le_bytes());
    }
    bytes
}

/// The sheet of four lists and the line end, for a buffer of `room` bytes, or the refusal's number.
pub fn write(
    starts: &[u32],
    gradients: &[i16],
    places: &[u32],
    overlaps: &[u16],
    end: u32,
    room: usize,
) -> Result<Vec<u8>, u32> {
    if starts.len() != gradients.len() || places.len() != overlaps.len() {
        return Err(7);
    }
    let stretches = starts.iter().zip(gradients).map(|(&start, &gradient)| Stretch { start, gradient });
    let signals = places.iter().zip(overlaps).map(|(&place, &overlap)| Signal { place, overlap });
    let sheet = Sheet { stretches: stretches.collect(), signals: signals.collect(), end };
    if !keeps(&sheet) {
        return Err(7);
    }
    let bytes = bytes(&sheet);
    if room < bytes.len() {
        return Err(11);
    }
    Ok(bytes)
}

/// The stretch of a number from 0, or the refusal's number.
pub fn stretch(bytes: &[u8], number: u32) -> Result<Stretch, u32> {
    let sheet = read(bytes).ok_or(7u32)?;
    sheet.stretches.get(number as usize).copied().ok_or(8)
}

/// The signal of a number from 0, or the refusal's number.
pub fn signal(bytes: &[u8], number: u32) -> Result<Signal, u32> {
    let sheet = read(bytes).ok_or(7u32)?;
    sheet.signals.get(number as usize).copied().ok_or(8)
}

/// What the move of a reading mark that stands before stretch `mark` answers: none is "end".
pub fn next(bytes: &[u8], mark: u32) -> Result<Option<Stretch>, u32> {
    let sheet = read(bytes).ok_or(7u32)?;
    Ok(sheet.stretches.get(mark as usize).copied())
}

/// The gradient of the stretch that holds a point of the line.
fn gradient_at(sheet: &Sheet, point: u32) -> i16 {
    let holding = sheet.stretches.iter().rfind(|stretch| stretch.start <= point);
    holding.expect("a first stretch that starts at 0").gradient
}

/// The least gradient over the points `from` up to but not including `to`; none where none of them is on the line.
pub fn least(sheet: &Sheet, from: u32, to: u32) -> Option<i16> {
    // No stretch holds the line end.
    (from..to.min(sheet.end)).map(|point| gradient_at(sheet, point)).min()
}

/// From each start up to the next one or the line end, that point excluded.
fn reaches(sheet: &Sheet) -> impl Iterator<Item = Range<u32>> + '_ {
    let starts = sheet.stretches.iter().map(|stretch| stretch.start);
    let ends = starts.clone().skip(1).chain([sheet.end]);
    starts.zip(ends).map(|(start, end)| start..end)
}

/// Whether a point is in both.
fn meet(reach: &Range<u32>, span: &Range<u32>) -> bool {
    reach.start.max(span.start) < reach.end.min(span.end)
}

/// Number and gradient of each stretch that holds a point of the span, in the order of the sheet.
pub fn held(sheet: &Sheet, span: Range<u32>) -> Vec<(u32, i16)> {
    let gradients = sheet.stretches.iter().map(|stretch| stretch.gradient);
    let numbered = (0..).zip(gradients).zip(reaches(sheet));
    numbered.filter(|(_, reach)| meet(reach, &span)).map(|(stretch, _)| stretch).collect()
}

/// Document 02, Card 4: the number of the stretch that has the least gradient, the lowest among equals. Of stretches
/// told as `held` tells them, in any order; none where there are none.
pub fn governing(stretches: &[(u32, i16)]) -> Option<u32> {
    let governing = stretches.iter().min_by_key(|&&(number, gradient)| (gradient, number));
    governing.map(|&(number, _)| number)
}
