//! The library's line sheets against the reference, on kept and damaged sheets and lists.
use approach::raw;
use approach::sheet::{signal, signals, stretch, stretches, write, Lists, Mark, Signal, Stretch};
use approach::{Metre, PerMille, Refusal};
use inputs::{Line, Random, EXAMPLE};
use reference::sheet;
use std::hint::black_box;

/// What stands in lent memory before a call, and in as many bytes on either side of it.
const UNTOUCHED: u8 = 0xa5;
const GUARD: usize = 7;

/// A list with as many others on either side of it.
fn between<T: Copy>(list: &[T], other: T) -> Vec<T> {
    [&[other; GUARD], list, &[other; GUARD]].concat()
}

fn on_line(s: sheet::Stretch) -> Stretch {
    Stretch { start: Metre(s.start), gradient: PerMille(s.gradient.into()) }
}

fn at_line(s: sheet::Signal) -> Signal {
    Signal { place: Metre(s.place), overlap: Metre(s.overlap.into()) }
}

/// A number whose six bytes would begin 2 bytes on if the product were cut to 32 bits.
const WRAPS: u32 = 715_827_883;

/// Each of `count` entries, and numbers past them.
fn numbers(count: usize) -> impl Iterator<Item = u32> {
    (0..count as u32 + 2).chain([WRAPS, u32::MAX])
}

fn check_stretch(bytes: &[u8], number: u32) {
    let answer = stretch(bytes, number).map_err(Refusal::number);
    assert_eq!(answer, sheet::stretch(bytes, number).map(on_line), "stretch {number} of {bytes:?}");
    if let Err(refusal) = answer {
        assert_eq!(raw::sheet_stretch(bytes, number), raw::Stretch { refusal, start: 0, gradient: 0 });
    }
}

fn check_signal(bytes: &[u8], number: u32) {
    let answer = signal(bytes, number).map_err(Refusal::number);
    assert_eq!(answer, sheet::signal(bytes, number).map(at_line), "signal {number} of {bytes:?}");
    if let Err(refusal) = answer {
        assert_eq!(raw::sheet_signal(bytes, number), raw::Signal { refusal, place: 0, overlap: 0 });
    }
}

/// Answers the mark for the next move: none after a refusal.
fn check_move(bytes: &[u8], mark: Mark) -> Option<Mark> {
    let answer = mark.moved(bytes).map_err(Refusal::number);
    let expected = sheet::next(bytes, mark.next).map(|stretch| match stretch {
        Some(stretch) => (Some(on_line(stretch)), Mark { next: mark.next + 1 }),
        None => (None, mark),
    });
    assert_eq!(answer, expected, "{mark:?} on {bytes:?}");
    let raw = raw::sheet_next(bytes, raw::Mark { next: mark.next });
    match answer {
        Ok((None, _)) => assert_eq!((raw.end, raw.start, raw.gradient), (1, 0, 0)),
        Ok((Some(_), _)) => assert_eq!(raw.end, 0),
        Err(refusal) => {
            assert_eq!(raw, raw::Move { refusal, end: 0, start: 0, gradient: 0, mark: raw::FRESH });
        }
    }
    answer.ok().map(|(_, after)| after)
}

/// A fresh mark moved past the end and on, then marks that no move hands back.
fn check_moves(bytes: &[u8], stretches: usize, any: u32) {
    let mut mark = Mark::FRESH;
    for _ in 0..stretches + 3 {
        mark = check_move(bytes, mark).unwrap_or(Mark::FRESH);
    }
    for next in [stretches as u32 + 1, any, WRAPS, u32::MAX] {
        check_move(bytes, Mark { next });
    }
}

/// The wrapper's own walks.
fn check_walks(bytes: &[u8], fields: Option<&sheet::Sheet>) {
    let walked = stretches(bytes).map(Iterator::collect::<Vec<_>>).ok();
    assert_eq!(walked, fields.map(|sheet| sheet.stretches.iter().copied().map(on_line).collect()));
    let walked = signals(bytes).map(Iterator::collect::<Vec<_>>).ok();
    assert_eq!(walked, fields.map(|sheet| sheet.signals.iter().copied().map(at_line).collect()));
}

/// Lends the first `length` bytes of a memory between others, all of which stay. Answers whether they were accepted.
fn check(memory: &[u8], length: usize, random: &mut Random) -> bool {
    let around = between(memory, UNTOUCHED);
    let bytes = &around[GUARD..GUARD + length];
    let fields = sheet::read(bytes);
    let (stretches, signals) = fields.as_ref().map_or((0, 0), |s| (s.stretches.len(), s.signals.len()));
    numbers(stretches).for_each(|number| check_stretch(bytes, number));
    numbers(signals).for_each(|number| check_signal(bytes, number));
    check_moves(bytes, stretches, random.word() as u32);
    check_walks(bytes, fields.as_ref());
    assert_eq!(black_box(&around), &between(memory, UNTOUCHED), "a call has changed bytes");
    fields.is_some()
}

/// Counts within their spans, the ends often among them.
fn counts(random: &mut Random) -> (u32, u32) {
    let stretches = match random.below(12) {
        0 => 512,
        1 => 1 + random.below(512) as u32,
        2 => 1,
        _ => 1 + random.below(12) as u32,
    };
    let signals = match random.below(8) {
        0 => 64,
        1 => random.below(65) as u32,
        2 => 0,
        _ => random.below(8) as u32,
    };
    (stretches, signals)
}

fn kept(random: &mut Random) -> Line {
    let (stretches, signals) = counts(random);
    random.line(stretches, signals)
}

fn laid_out(line: &Line) -> Vec<u8> {
    let stretches =
        line.starts.iter().zip(&line.gradients).map(|(&start, &gradient)| sheet::Stretch { start, gradient });
    let signals = line.places.iter().zip(&line.overlaps).map(|(&place, &overlap)| sheet::Signal { place, overlap });
    sheet::bytes(&sheet::Sheet { stretches: stretches.collect(), signals: signals.collect(), end: line.end })
}

/// All the bytes are lent.
fn whole(bytes: Vec<u8>) -> (Vec<u8>, usize) {
    let length = bytes.len();
    (bytes, length)
}

/// A line with a count outside its span and nothing else wrong.
fn wrong_counts(random: &mut Random) -> Line {
    let (stretches, signals) = counts(random);
    let many = 66 + random.below(300) as u32;
    match random.below(4) {
        0 => random.line(0, signals),
        1 => random.line(513, signals),
        2 => random.line(stretches, 65),
        _ => random.line(stretches, many),
    }
}

fn spoil_stretches(line: &mut Line, random: &mut Random) {
    let last = line.starts.len() - 1;
    let at = random.below(last as u64 + 1) as usize;
    match random.below(8) {
        0 => line.starts[at] = line.starts[at.saturating_sub(1)],
        1 => line.starts[last] = line.end,
        2 => line.starts[at] = line.end + random.below(2) as u32,
        3 => line.starts[0] = 1,
        4 => line.starts.swap(at, last),
        5 => line.starts[at] = random.word() as u32 >> random.below(32),
        _ => line.gradients[at] = [36, -36, i16::MAX, i16::MIN][random.below(4) as usize],
    }
}

/// Does nothing to a line without signals.
fn spoil_signals(line: &mut Line, random: &mut Random) {
    let Some(last) = line.places.len().checked_sub(1) else { return };
    let at = random.below(last as u64 + 1) as usize;
    match random.below(8) {
        0 => line.places[at] = line.places[at.saturating_sub(1)],
        1 => (line.places[last], line.overlaps[last]) = (line.end, 0),
        2 => line.places[last] = u32::MAX - random.below(2) as u32,
        3 => line.places.swap(at, last),
        4 => line.places[at] = random.word() as u32 >> random.below(32),
        5 => line.overlaps.swap(at, last),
        6 => (line.places[last], line.overlaps[last]) = (line.end - 1, 2),
        _ => line.overlaps[at] = (line.end - line.places[at] + 1).min(u16::MAX as u32) as u16,
    }
}

fn spoil_end(line: &mut Line, random: &mut Random) {
    line.end = match random.below(5) {
        0 => 0,
        1 => 500_001,
        2 => line.end - 1,
        3 => *line.starts.last().unwrap(),
        _ => u32::MAX,
    }
}

/// A line with one field changed, mostly so that it breaks a rule.
fn spoilt(random: &mut Random) -> Line {
    let mut line = kept(random);
    match random.below(8) {
        0 => line = wrong_counts(random),
        1 => spoil_end(&mut line, random),
        2..=4 => spoil_stretches(&mut line, random),
        _ => spoil_signals(&mut line, random),
    }
    line
}

fn add(bytes: &mut [u8], at: usize, amount: i32) {
    let number = i32::from_le_bytes(bytes[at..at + 4].try_into().unwrap());
    bytes[at..at + 4].copy_from_slice(&number.wrapping_add(amount).to_le_bytes());
}

fn swap(bytes: &mut [u8], left: usize, right: usize, width: usize) {
    (0..width).for_each(|i| bytes.swap(left + i, right + i));
}

/// A kept sheet's bytes damaged, and how many of them to lend: where fewer, the rest still stands behind them.
fn damaged(random: &mut Random) -> (Vec<u8>, usize) {
    let mut bytes = laid_out(&kept(random));
    let length = bytes.len();
    let any = random.below(length as u64) as usize;
    let [left, right] = [(); 2].map(|_| 4 + 4 * random.below(4) as usize);
    let told = random.below(2) == 0;
    match random.below(10) {
        0 => bytes[any] ^= 1 + random.below(255) as u8,
        1 => bytes[any % 20] ^= 1 + random.below(255) as u8,
        2 => bytes[any % 20] ^= 1 << random.below(8),
        3 => add(&mut bytes, left, [-1, 1][told as usize]),
        4 => swap(&mut bytes, left, right, 4),
        5 => swap(&mut bytes, 0, 2, 2),
        6 => move_the_border(&mut bytes, told),
        7 => return (bytes, any),
        8 => return (bytes, length - 1 - random.below(6) as usize),
        _ => lengthen(&mut bytes, 1 + random.below(6) as usize, told),
    }
    whole(bytes)
}

fn lengthen(bytes: &mut Vec<u8>, more: usize, told: bool) {
    bytes.resize(bytes.len() + more, 0);
    if told {
        add(bytes, 12, more as i32);
    }
}

/// One signal fewer and one stretch more, in the same bytes; the signal offset may follow.
fn move_the_border(bytes: &mut [u8], told: bool) {
    bytes[0] = bytes[0].wrapping_add(1);
    bytes[2] = bytes[2].wrapping_sub(1);
    if told {
        add(bytes, 8, 6);
    }
}

#[test]
fn sheets_at_random() {
    let mut random = Random(41);
    let mut seen = [0; 2];
    for round in 0..12_000 {
        let (memory, length) = match round % 3 {
            0 => whole(laid_out(&kept(&mut random))),
            1 => whole(laid_out(&spoilt(&mut random))),
            _ => damaged(&mut random),
        };
        seen[check(&memory, length, &mut random) as usize] += 1;
    }
    let [refused, accepted] = seen;
    assert!(5 * refused.min(accepted) >= refused + accepted, "{refused} refused, {accepted} accepted");
}

/// Each byte of document 01's example with each of its values.
#[test]
fn every_byte_of_the_example() {
    let mut random = Random(42);
    let mut accepted = 0;
    for at in 0..EXAMPLE.len() {
        for byte in 0..=u8::MAX {
            let mut bytes = EXAMPLE;
            bytes[at] = byte;
            accepted += check(&bytes, EXAMPLE.len(), &mut random) as u32;
        }
    }
    // Counted by hand, byte by byte: counts, offsets and length; line end; the stretch; the two signals.
    let by_hand = [16, 256 + 252 + 8 + 1, 4 + 36 + 1, 256 + 5 + 2 + 256 + 8, 256 + 8 + 2 + 256 + 4];
    assert_eq!(accepted, by_hand.iter().sum());
}

#[test]
fn the_example_cut_short() {
    let mut random = Random(45);
    for length in 0..EXAMPLE.len() {
        assert!(!check(&EXAMPLE, length, &mut random), "{length} bytes");
    }
}

/// The wrapper's call with its lists between other numbers, all of which stay.
fn write_guarded(line: &Line, buffer: &mut [u8]) -> Result<Vec<u8>, u32> {
    let metres = |numbers: &[u32]| between(&numbers.iter().copied().map(Metre).collect::<Vec<_>>(), Metre(7));
    let (starts, places) = (metres(&line.starts), metres(&line.places));
    let (gradients, overlaps) = (between(&line.gradients, 7), between(&line.overlaps, 7));
    let lists = Lists {
        starts: &starts[GUARD..starts.len() - GUARD],
        gradients: &gradients[GUARD..gradients.len() - GUARD],
        places: &places[GUARD..places.len() - GUARD],
        overlaps: &overlaps[GUARD..overlaps.len() - GUARD],
        end: Metre(line.end),
    };
    let answer = write(lists, buffer).map(<[u8]>::to_vec).map_err(Refusal::number);
    let (metres_after, others_after) = black_box(((&starts, &places), (&gradients, &overlaps)));
    assert_eq!(metres_after, (&metres(&line.starts), &metres(&line.places)), "a list has changed");
    assert_eq!(others_after, (&between(&line.gradients, 7), &between(&line.overlaps, 7)), "a list has changed");
    answer
}

/// The writer between bytes that are not lent: written where the answer says, and nowhere else.
fn check_write(line: &Line, room: usize) -> u32 {
    let mut memory = vec![UNTOUCHED; room + 2 * GUARD];
    let mut after = memory.clone();
    let answer = write_guarded(line, &mut memory[GUARD..GUARD + room]);
    let Line { starts, gradients, places, overlaps, end } = line;
    let expected = sheet::write(starts, gradients, places, overlaps, *end, room);
    if let Ok(sheet) = &expected {
        after[GUARD..GUARD + sheet.len()].copy_from_slice(sheet);
    }
    assert_eq!(answer, expected, "{line:?} into {room} bytes");
    assert_eq!(memory, after, "{line:?} into {room} bytes");
    let Err(refusal) = answer else { return 0 };
    let written = raw::sheet_write(starts, gradients, places, overlaps, *end, &mut vec![0; room]);
    assert_eq!(written, raw::Written { refusal, length: 0 });
    refusal
}

/// One of the four lists longer or shorter than the one it is paired with.
fn unpaired(random: &mut Random) -> Line {
    let mut line = kept(random);
    match random.below(6) {
        0 => line.starts.truncate(line.starts.len() - 1),
        1 => line.starts.push(line.end - 1),
        2 => line.gradients.truncate(line.gradients.len() - 1),
        3 => line.gradients.push(0),
        4 => line.places.push(line.end - 1),
        _ => line.overlaps.push(0),
    }
    line
}

#[test]
fn written_between_untouched_bytes() {
    let mut random = Random(43);
    let mut seen = [0; 12];
    for round in 0..12_000 {
        let line = match round % 4 {
            0 => unpaired(&mut random),
            1 => spoilt(&mut random),
            _ => kept(&mut random),
        };
        let needed = line.length();
        let [more, fewer] = [20, needed as u64].map(|n| random.below(n) as usize);
        for room in [needed, needed + 1 + more, needed - 1, if round % 8 < 4 { 0 } else { fewer }] {
            seen[check_write(&line, room) as usize] += 1;
        }
    }
    for refusal in [0, 7, 11] {
        assert!(5 * seen[refusal] >= seen.iter().sum(), "too few answers with {refusal}: {seen:?}");
    }
}

/// Counts that would be within their spans if they were cut to 16 bits.
#[test]
fn lists_of_many() {
    let mut random = Random(46);
    for (stretches, signals) in [(65_537, 0), (1, 65_536), (66_048, 65_600)] {
        assert_eq!(check_write(&random.line(stretches, signals), 1_000_000), 7);
    }
}

/// What the library reads from an accepted sheet; the line end stands in its header.
fn fields(bytes: &[u8]) -> Line {
    let stretches: Vec<Stretch> = stretches(bytes).expect("an accepted sheet").collect();
    let signals: Vec<Signal> = signals(bytes).expect("an accepted sheet").collect();
    Line {
        starts: stretches.iter().map(|stretch| stretch.start.0).collect(),
        gradients: stretches.iter().map(|stretch| stretch.gradient.0.try_into().unwrap()).collect(),
        places: signals.iter().map(|signal| signal.place.0).collect(),
        overlaps: signals.iter().map(|signal| signal.overlap.0.try_into().unwrap()).collect(),
        end: u32::from_le_bytes(bytes[16..20].try_into().unwrap()),
    }
}

/// The library alone: what it writes it reads back, and what it reads it writes back.
#[test]
fn both_round_trips() {
    let mut random = Random(44);
    assert_eq!(fields(&EXAMPLE).written(), EXAMPLE);
    for _ in 0..5_000 {
        let line = kept(&mut random);
        assert_eq!(fields(&line.written()), line);
        let bytes = laid_out(&line);
        assert_eq!(fields(&bytes).written(), bytes);
    }
}
