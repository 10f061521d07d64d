//! The approach query: how fast a train may creep past a closed signal, and how fast it may come up to it (document 01,
//! "Approach", with document 02's Cards 2, 4 and 5), and the desk's third demand held against any answer.

use crate::ceilings::ceilings;
use crate::fraction::Fraction;
use crate::ramp::{greatest_place, ramp, ALLOWANCE, DEAD_TIMES, RISE_TIMES, SPEEDS};
use crate::sheet::{self, governing, held, least, Sheet, Signal};
use crate::step::{exact_p, step, Curve};
use crate::train::{Train, EP};
use crate::units::in_millimetres;
use std::fmt;
use std::ops::RangeInclusive;

const MILLIMETRES: u32 = 1000;

/// Document 01, "What is turned away", numbers the two.
#[derive(Clone, Copy, Debug, PartialEq, Eq)]
pub enum Mark {
    Curve = 1,
    Release = 2,
}

/// Speeds in km/h; the permitted speed's W, SBI and EBI ceilings in 120ths of a km/h; by Card 4 the numbers, from 0
/// along the sheet, of the stretches that govern the overlap, none where it has no length, and the way ahead.
#[derive(Clone, Copy, Debug, PartialEq, Eq)]
pub struct Answer {
    pub release: u32,
    pub permitted: u32,
    pub mark: Mark,
    pub ceilings: [u32; 3],
    pub overlap_stretch: Option<u32>,
    pub ahead_stretch: u32,
}

/// Why an answer does not keep the third demand; speeds in km/h.
#[derive(Clone, Copy, Debug, PartialEq, Eq)]
pub enum Fault {
    /// The query itself is refused by this number.
    Refused(u32),
    /// The release speed is over 100 or over the top speed.
    TooFast,
    /// At this speed, not over the release speed, some moment finds the train beyond the overlap's end.
    Beyond(u32),
    /// At one km/h more than the release speed no moment finds it less than 2 mm short of the overlap's end.
    Short,
    /// The mark is not the one that the release speed's own P distance gives.
    Mark,
    /// The permitted speed is not the release speed under mark "release", or is outside its span under mark "curve".
    Permitted,
    /// This speed, over the release speed and not over the permitted speed, is too weak to have a P distance.
    Weak(u32),
    /// The P distance of this speed, not over the permitted speed, is over the distance to the signal.
    Unfit(u32),
    /// One km/h more than the permitted speed is strong enough and fits too.
    Slow,
}

impl From<u32> for Fault {
    fn from(refusal: u32) -> Fault {
        Fault::Refused(refusal)
    }
}

/// The least gradient of a span in per mille, and the number of the stretch that governs there (Card 4).
struct Grade {
    gradient: i32,
    stretch: u32,
}

/// What the answer needs of the sheet: lengths in millimetres.
struct Site {
    overlap: u32,
    /// From the head to the signal.
    distance: u32,
    /// The grade of the overlap; none where it has no length.
    past: Option<Grade>,
    /// The grade ahead.
    ahead: Grade,
}

/// Document 02, Card 2, after document 002, section 7.2: a gradient starts at the tail, for the wagons stand on slopes
/// too. The line has no points before 0, and a train that would reach there is not refused.
pub(crate) fn tail(length: u32, head: u32) -> u32 {
    head.saturating_sub(length)
}

/// The sheet and the signal of this number, for a head that is not beyond it; refusals 7, 8 and 9, in this order.
pub(crate) fn signal_ahead(bytes: &[u8], number: u32, head: u32) -> Result<(Sheet, Signal), u32> {
    let sheet = sheet::read(bytes).ok_or(7u32)?;
    let signal = *sheet.signals.get(number as usize).ok_or(8u32)?;
    if head > signal.place {
        return Err(9);
    }
    Ok((sheet, signal))
}

/// Over the points `from` up to but not including `to`, of which one at least is on the line.
fn grade(sheet: &Sheet, from: u32, to: u32) -> Grade {
    Grade {
        gradient: least(sheet, from, to).expect("a point on the line").into(),
        stretch: governing(&held(sheet, from..to)).expect("a point on the line"),
    }
}

/// Refusals 1, 2, 3, 6, 12, 7, 8 and 9, in this order: Card 5 decides 12 between 6 and 7, by every coefficient of the
/// train, whether a model consults it or not.
///
/// The gradient ahead is over the points from the tail to the signal, both included. That of the overlap is over those
/// from the tail of a train whose head is at the signal up to but not including the overlap's end.
///
/// Document 01 takes the points of a span, fractions of a metre included, and `grade` its whole metres. As stretches
/// start at whole metres, a stretch that holds a point holds the whole metre at or before it, which is in the span too.
fn site(train: Train, tm: u32, tr: u32, bytes: &[u8], number: u32, head: u32) -> Result<Site, u32> {
    train.check()?;
    if !DEAD_TIMES.contains(&tm) || !RISE_TIMES.contains(&tr) {
        return Err(6);
    }
    train.coefficients.check()?;
    let (sheet, signal) = signal_ahead(bytes, number, head)?;
    let (place, overlap) = (signal.place, u32::from(signal.overlap));
    let grade_from_tail = |head, to| grade(&sheet, tail(train.length, head), to);
    Ok(Site {
        overlap: MILLIMETRES * overlap,
        distance: MILLIMETRES * (place - head),
        // Without a length the overlap consults nothing, though there are points between tail and signal.
        past: (overlap > 0).then(|| grade_from_tail(place, place + overlap)),
        ahead: grade_from_tail(head, place + 1),
    })
}

/// The last speed before the first that does not fit; none where the first of all does not.
fn climb(speeds: RangeInclusive<u32>, fits: impl Fn(u32) -> Result<bool, u32>) -> Result<Option<u32>, u32> {
    let mut last = None;
    for v in speeds {
        if !fits(v)? {
            break;
        }
        last = Some(v);
    }
    Ok(last)
}

/// The ramp's speeds that the train can have.
fn creeps(train: Train) -> RangeInclusive<u32> {
    *SPEEDS.start()..=train.top_speed.min(*SPEEDS.end())
}

/// The ramp is consulted, and its refusal 10 raised, only where the overlap has a length.
fn release_speed(train: Train, tm: u32, tr: u32, site: &Site) -> Result<u32, u32> {
    let Some(Grade { gradient, .. }) = site.past else {
        return Ok(0);
    };
    let inertia = train.coefficients.inertia;
    let fits = |v| Ok(ramp(train.braked_weight, gradient, v, tm, tr, inertia)?.distance <= site.overlap);
    Ok(climb(creeps(train), fits)?.unwrap_or(0))
}

/// Document 01, "Approach", with Cards 2, 4 and 5: TM and TR in hundredths of a second, head in metres, or the number
/// of a refusal.
///
/// The P distances are the raised ones. They fit exactly where the exact ones do: the distance to the signal is a whole
/// number of millimetres, and such a number is not below the raised one just when it is not below the exact one.
/// Refusal 10 of the step model comes from the climb's first speed, V0, or not at all: by Card 5 a higher speed that is
/// too weak is one that does not fit.
pub fn approach(train: Train, tm: u32, tr: u32, sheet: &[u8], signal: u32, head: u32) -> Result<Answer, u32> {
    let site = site(train, tm, tr, sheet, signal, head)?;
    let release = release_speed(train, tm, tr, &site)?;
    let fits = |v| match step(train, v, release, site.ahead.gradient) {
        Err(10) if v > release => Ok(false),
        distances => Ok(distances?[Curve::P as usize] <= site.distance),
    };
    let (permitted, mark) = match climb(release..=train.top_speed, fits)? {
        Some(last) => (last, Mark::Curve),
        None => (release, Mark::Release),
    };
    Ok(Answer {
        release,
        permitted,
        mark,
        ceilings: ceilings(permitted)?,
        overlap_stretch: site.past.map(|grade| grade.stretch),
        ahead_stretch: site.ahead.stretch,
    })
}

/// The third demand's sentences on the motion past the signal, with Card 13's 2 mm for its 5.
fn keeps_overlap(train: Train, tm: u32, tr: u32, site: &Site, release: u32) -> Result<(), Fault> {
    let Some(Grade { gradient, .. }) = site.past else {
        // Every motion leaves place 0, which is the overlap's end.
        return if release == 0 { Ok(()) } else { Err(Fault::Beyond(1)) };
    };
    let fastest = *creeps(train).end();
    if release > fastest {
        return Err(Fault::TooFast);
    }
    let most = |v| greatest_place(train.braked_weight, gradient, v, tm, tr, train.coefficients.inertia);
    let end = Fraction::from(site.overlap);
    for v in 1..=release {
        let (_, upper) = most(v)?;
        if in_millimetres(&upper) > end {
            return Err(Fault::Beyond(v));
        }
    }
    if release < fastest {
        let (reached, _) = most(release + 1)?;
        if in_millimetres(&reached) + Fraction::from(ALLOWANCE) <= end {
            return Err(Fault::Short);
        }
    }
    Ok(())
}

/// The third demand's sentences on the way to the signal, with Card 5's: each speed up to the permitted one is strong
/// enough and fits, the next one is too weak or does not.
fn keeps_distance(train: Train, site: &Site, answer: Answer) -> Result<(), Fault> {
    let Answer { release, permitted, mark, .. } = answer;
    let distance = Fraction::from(site.distance);
    let fits = |v| match exact_p(train, v, release, site.ahead.gradient) {
        Err(10) if v > release => Err(Fault::Weak(v)),
        Err(refusal) => Err(Fault::Refused(refusal)),
        Ok(p) if p > distance => Err(Fault::Unfit(v)),
        Ok(_) => Ok(()),
    };
    let (wanted, highest) = match fits(release) {
        Ok(()) => (Mark::Curve, train.top_speed),
        Err(Fault::Unfit(_)) => (Mark::Release, release),
        Err(refused) => return Err(refused),
    };
    if mark != wanted {
        return Err(Fault::Mark);
    }
    if !(release..=highest).contains(&permitted) {
        return Err(Fault::Permitted);
    }
    if mark == Mark::Release {
        return Ok(());
    }
    (release..=permitted).try_for_each(fits)?;
    if permitted < highest && fits(permitted + 1).is_ok() {
        return Err(Fault::Slow);
    }
    Ok(())
}

/// The desk's third demand of an answer to this query, from wherever it comes: no climb and no ramp answer is used, but
/// the bounds on the greatest place and the exact P distances. Where a limit lies between two bounds, which are nearer
/// to each other than a micrometre, the answer is turned down. The ceilings are the second demand's and not looked at,
/// nor are Card 4's numbers of stretches.
pub fn keeps_demand(
    train: Train,
    tm: u32,
    tr: u32,
    sheet: &[u8],
    signal: u32,
    head: u32,
    answer: Answer,
) -> Result<(), Fault> {
    let site = site(train, tm, tr, sheet, signal, head)?;
    keeps_overlap(train, tm, tr, &site, answer.release)?;
    keeps_distance(train, &site, answer)
}

impl fmt::Display for Mark {
    fn fmt(&self, out: &mut fmt::Formatter) -> fmt::Result {
        out.write_str(match self {
            Mark::Curve => "curve",
            Mark::Release => "release",
        })
    }
}

/// Document 01, "Figures to hold": TM, TR and head of the printing program, whose train is EP.
const PRINTED_TM: u32 = 200;
const PRINTED_TR: u32 = 400;
const PRINTED_HEAD: u32 = 0;

fn printed_line(sheet: &[u8], number: u32) -> String {
    match approach(EP, PRINTED_TM, PRINTED_TR, sheet, number, PRINTED_HEAD) {
        Ok(Answer { release, permitted, mark, ceilings: [w, sbi, ebi], .. }) => {
            format!("{number} {release} {permitted} {mark} {w} {sbi} {ebi}\n")
        }
        Err(refusal) => format!("{number} refused {refusal}\n"),
    }
}

/// What the printing program prints for these bytes.
pub fn printed(sheet: &[u8]) -> String {
    let Some(fields) = sheet::read(sheet) else {
        return "refused 7\n".to_owned();
    };
    (0..fields.signals.len()).map(|number| printed_line(sheet, number as u32)).collect()
}
