//! Document 01's line sheet: its example, its rules broken one by one, the round trips, the least gradients, and which
//! stretches have them.

use reference::sheet::{
    bytes, governing, held, keeps, least, next, read, signal, stretch, write, Sheet, Signal, Stretch,
};

/// The sheet that document 01 prints: one level stretch, signals at 0 and 1,057 m, line end 2,000 m.
const EXAMPLE: &str = "01 00 02 00 14 00 00 00 1A 00 00 00 26 00 00 00 D0 07 00 00 \
    00 00 00 00 00 00 00 00 00 00 78 00 21 04 00 00 00 00";

/// The sheet of `line`, laid out by hand.
const LINE: &str = "03 00 02 00 14 00 00 00 26 00 00 00 32 00 00 00 E8 03 00 00 \
    00 00 00 00 FB FF 90 01 00 00 23 00 BC 02 00 00 DD FF 64 00 00 00 32 00 84 03 00 00 64 00";

fn hexadecimal(text: &str) -> Vec<u8> {
    text.split_whitespace().map(|byte| u8::from_str_radix(byte, 16).expect("a byte")).collect()
}

fn sheet(stretches: &[(u32, i16)], signals: &[(u32, u16)], end: u32) -> Sheet {
    Sheet {
        stretches: stretches.iter().map(|&(start, gradient)| Stretch { start, gradient }).collect(),
        signals: signals.iter().map(|&(place, overlap)| Signal { place, overlap }).collect(),
        end,
    }
}

fn line() -> Sheet {
    sheet(&[(0, -5), (400, 35), (700, -35)], &[(100, 50), (900, 100)], 1000)
}

fn stretches(count: u32) -> Vec<Stretch> {
    (0..count).map(|start| Stretch { start, gradient: 0 }).collect()
}

fn signals(count: u32) -> Vec<Signal> {
    (0..count).map(|place| Signal { place, overlap: 0 }).collect()
}

fn written(sheet: &Sheet, room: usize) -> Result<Vec<u8>, u32> {
    let starts: Vec<u32> = sheet.stretches.iter().map(|stretch| stretch.start).collect();
    let gradients: Vec<i16> = sheet.stretches.iter().map(|stretch| stretch.gradient).collect();
    let places: Vec<u32> = sheet.signals.iter().map(|signal| signal.place).collect();
    let overlaps: Vec<u16> = sheet.signals.iter().map(|signal| signal.overlap).collect();
    write(&starts, &gradients, &places, &overlaps, sheet.end, room)
}

#[test]
fn the_printed_example() {
    let example = hexadecimal(EXAMPLE);
    assert_eq!(read(&example), Some(sheet(&[(0, 0)], &[(0, 120), (1057, 0)], 2000)));
    assert_eq!(write(&[0], &[0], &[0, 1057], &[120, 0], 2000, 38), Ok(example));
}

#[test]
fn a_line_laid_out_by_hand() {
    assert_eq!(read(&hexadecimal(LINE)), Some(line()));
    assert_eq!(bytes(&line()), hexadecimal(LINE));
}

type Edit = fn(&mut Sheet);

/// Each edit of `line` breaks one rule of the fields; a line end of 0 is below every start too.
const BROKEN_FIELDS: [(&str, Edit); 20] = [
    ("no stretch", |s| s.stretches.clear()),
    ("513 stretches", |s| s.stretches = stretches(513)),
    ("65 signals", |s| s.signals = signals(65)),
    ("line end 0", |s| *s = sheet(&[(0, 0)], &[], 0)),
    ("line end 500,001", |s| s.end = 500_001),
    ("first start 1", |s| s.stretches[0].start = 1),
    ("equal starts", |s| s.stretches[2].start = 400),
    ("a start that falls", |s| s.stretches[2].start = 399),
    ("a start at the line end", |s| s.stretches[2].start = 1000),
    ("a start past the line end", |s| s.stretches[2].start = u32::MAX),
    ("gradient 36", |s| s.stretches[1].gradient = 36),
    ("gradient -36", |s| s.stretches[1].gradient = -36),
    ("the greatest gradient of two bytes", |s| s.stretches[0].gradient = i16::MAX),
    ("the least gradient of two bytes", |s| s.stretches[2].gradient = i16::MIN),
    ("equal places", |s| s.signals[1].place = 100),
    ("a place that falls", |s| s.signals[1].place = 99),
    ("a place at the line end", |s| s.signals[1] = Signal { place: 1000, overlap: 0 }),
    ("an overlap one past the line end", |s| s.signals[1].overlap = 101),
    ("the longest overlap", |s| s.signals[0].overlap = u16::MAX),
    ("an overlap's end that 32 bits would cut", |s| s.signals[1] = Signal { place: u32::MAX, overlap: 2 }),
];

#[test]
fn each_rule_of_the_fields() {
    for (name, edit) in BROKEN_FIELDS {
        let mut broken = line();
        edit(&mut broken);
        assert!(!keeps(&broken), "{name}");
        assert_eq!(read(&bytes(&broken)), None, "{name}");
        assert_eq!(written(&broken, 10_000), Err(7), "{name}");
    }
}

/// Each puts another byte into LINE and breaks a rule of the layout.
const BROKEN_LAYOUT: [(&str, usize, u8); 13] = [
    ("2 stretches told", 0, 2),
    ("4 stretches told", 0, 4),
    ("1 signal told", 2, 1),
    ("3 signals told", 2, 3),
    ("stretch offset 19", 4, 19),
    ("stretch offset 21", 4, 21),
    ("a high byte of the stretch offset", 7, 1),
    ("signal offset 37", 8, 37),
    ("signal offset 39", 8, 39),
    ("a high byte of the signal offset", 11, 1),
    ("sheet length 49", 12, 49),
    ("sheet length 51", 12, 51),
    ("a high byte of the sheet length", 15, 1),
];

#[test]
fn each_rule_of_the_layout() {
    for (name, at, byte) in BROKEN_LAYOUT {
        let mut broken = hexadecimal(LINE);
        broken[at] = byte;
        assert_eq!(read(&broken), None, "{name}");
    }
}

#[test]
fn the_length_of_the_slice() {
    let whole = hexadecimal(LINE);
    for length in 0..whole.len() {
        assert_eq!(read(&whole[..length]), None, "cut to {length} bytes");
    }
    for more in 1..=12 {
        let mut longer = [whole.clone(), vec![0; more]].concat();
        assert_eq!(read(&longer), None, "{more} bytes longer");
        longer[12] += more as u8;
        assert_eq!(read(&longer), None, "{more} bytes longer, and the sheet length with it");
    }
}

/// On the near side of every rule, read back from the bytes and written to the same bytes.
#[test]
fn both_round_trips_at_the_ends_of_the_spans() {
    let kept = [
        line(),
        sheet(&[(0, 0)], &[], 1),
        sheet(&[(0, -35)], &[(0, 1)], 1),
        sheet(&[(0, 35), (499_999, -35)], &[(499_999, 1)], 500_000),
        sheet(&[(0, 1), (1, -1), (2, 0)], &[(0, u16::MAX), (1, 2), (65_535, 0)], 65_536),
        Sheet { stretches: stretches(512), signals: signals(64), end: 512 },
        Sheet { stretches: stretches(1), signals: signals(64), end: 64 },
        Sheet { stretches: stretches(512), signals: signals(0), end: 500_000 },
    ];
    for sheet in kept {
        let laid_out = bytes(&sheet);
        assert_eq!(laid_out.len(), 20 + 6 * sheet.stretches.len() + 6 * sheet.signals.len());
        assert_eq!(read(&laid_out), Some(sheet.clone()));
        assert_eq!(written(&sheet, laid_out.len()), Ok(laid_out));
    }
}

#[test]
fn refusals_of_the_writer() {
    assert_eq!(write(&[0, 5], &[0], &[], &[], 10, 100), Err(7));
    assert_eq!(write(&[0], &[0, 0], &[], &[], 10, 100), Err(7));
    assert_eq!(write(&[0], &[0], &[1], &[], 10, 100), Err(7));
    assert_eq!(write(&[0], &[0], &[], &[1], 10, 100), Err(7));
    // A broken rule comes before a buffer that is too short.
    assert_eq!(write(&[0, 5], &[0], &[], &[], 10, 0), Err(7));
    assert_eq!(write(&[0], &[36], &[], &[], 10, 0), Err(7));
    assert_eq!(written(&line(), 0), Err(11));
    assert_eq!(written(&line(), 49), Err(11));
    assert_eq!(written(&line(), 50), Ok(hexadecimal(LINE)));
    assert_eq!(written(&line(), 51), Ok(hexadecimal(LINE)));
}

#[test]
fn entries_by_number() {
    let line = hexadecimal(LINE);
    assert_eq!(stretch(&line, 0), Ok(Stretch { start: 0, gradient: -5 }));
    assert_eq!(stretch(&line, 2), Ok(Stretch { start: 700, gradient: -35 }));
    assert_eq!(signal(&line, 0), Ok(Signal { place: 100, overlap: 50 }));
    assert_eq!(signal(&line, 1), Ok(Signal { place: 900, overlap: 100 }));
    for past in [3, 4, u32::MAX] {
        assert_eq!(stretch(&line, past), Err(8));
        assert_eq!(signal(&line, past - 1), Err(8));
    }
    // A broken sheet comes before a number that is too high.
    assert_eq!(stretch(&line[1..], 3), Err(7));
    assert_eq!(signal(&line[1..], 2), Err(7));
}

#[test]
fn moves_of_the_reading_mark() {
    let line = hexadecimal(LINE);
    assert_eq!(next(&line, 0), Ok(Some(Stretch { start: 0, gradient: -5 })));
    assert_eq!(next(&line, 1), Ok(Some(Stretch { start: 400, gradient: 35 })));
    assert_eq!(next(&line, 2), Ok(Some(Stretch { start: 700, gradient: -35 })));
    for end in [3, 4, u32::MAX] {
        assert_eq!(next(&line, end), Ok(None));
    }
    assert_eq!(next(&line[1..], 0), Err(7));
    assert_eq!(next(&line[1..], u32::MAX), Err(7));
}

#[test]
fn least_gradients() {
    let line = line();
    for (from, to, gradient) in [
        (0, 1, Some(-5)),
        (0, 400, Some(-5)),
        (399, 401, Some(-5)),
        (399, 400, Some(-5)),
        (400, 401, Some(35)),
        (400, 700, Some(35)),
        (400, 701, Some(-35)),
        (0, 1000, Some(-35)),
        (999, 1000, Some(-35)),
        (999, u32::MAX, Some(-35)),
        (0, 0, None),
        (500, 500, None),
        (500, 499, None),
        (1000, 1001, None),
        (1000, u32::MAX, None),
    ] {
        assert_eq!(least(&line, from, to), gradient, "{from} up to {to}");
    }
    // The least lies inside the span, and at neither end of it.
    assert_eq!(least(&sheet(&[(0, 4), (10, -3), (11, 2)], &[], 20), 0, 20), Some(-3));
}

#[test]
fn stretches_that_hold_a_point() {
    let line = line();
    let (first, second, third) = ((0, -5), (1, 35), (2, -35));
    for (from, to, wanted) in [
        (0, 1, vec![first]),
        (0, 400, vec![first]),
        (399, 401, vec![first, second]),
        (400, 401, vec![second]),
        (400, 700, vec![second]),
        (399, 701, vec![first, second, third]),
        (699, 1000, vec![second, third]),
        (999, 1000, vec![third]),
        (999, u32::MAX, vec![third]),
        (0, u32::MAX, vec![first, second, third]),
        (0, 0, vec![]),
        (500, 500, vec![]),
        (500, 499, vec![]),
        (1000, 1001, vec![]),
    ] {
        assert_eq!(held(&line, from..to), wanted, "{from} up to {to}");
    }
}

/// Document 02, Card 4.
#[test]
fn governing_stretches() {
    for (stretches, number) in [
        (vec![], None),
        (vec![(7, 35)], Some(7)),
        (vec![(3, 1), (4, 0), (5, 1)], Some(4)),
        (vec![(3, 1), (4, -35), (5, 35), (6, -34)], Some(4)),
        (vec![(3, 1), (4, -2), (5, 0), (6, -2)], Some(4)),
    ] {
        assert_eq!(governing(&stretches), number, "{stretches:?}");
        let back: Vec<(u32, i16)> = stretches.into_iter().rev().collect();
        assert_eq!(governing(&back), number, "{back:?}");
    }
}
