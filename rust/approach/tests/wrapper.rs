//! What the wrapper itself adds: refusals by name, numbers with their units.
use approach::{
    query, raw, row, sheet, Brake, Ceiling, Curve, Hundredth, Kmh, Mark, Metre, Millimetre, Millisecond, PerMille,
    Refusal, Times, Train, CURVES, LONGEST_ROW,
};
use inputs::{EXAMPLE, EXAMPLE_TRAIN};
use std::collections::BTreeSet;

/// Document 01's table has the numbers 1 to 11, and document 02's Card 5 adds one.
#[test]
fn refusals_by_number() {
    for (number, refusal) in (1..).zip(Refusal::ALL) {
        assert_eq!(refusal.number(), number);
        assert_eq!(Refusal::numbered(number), Some(refusal));
        assert!(refusal.to_string().ends_with(&format!(" (refusal {number})")), "{refusal}");
    }
    assert_eq!([0, 13, u32::MAX].map(Refusal::numbered), [None; 3]);
    let texts: BTreeSet<&str> = Refusal::ALL.into_iter().map(Refusal::text).collect();
    assert_eq!(texts.len(), 12);
}

/// Card 5's is decided between 6 and 7.
#[test]
fn refusals_as_decided() {
    let numbers = Refusal::DECIDED.map(Refusal::number);
    assert_eq!(numbers, [1, 2, 3, 4, 5, 6, 12, 7, 8, 9, 10, 11]);
}

/// A `main` that hands a refusal back prints "Error: " and its `{:?}`.
#[test]
fn refusals_where_main_ends() {
    let printed = format!("Error: {:?}", Refusal::Number);
    assert_eq!(printed, "Error: there is no signal or stretch of that number (refusal 8)");
    for refusal in Refusal::ALL {
        assert_eq!(format!("{refusal:?}"), refusal.to_string());
    }
}

#[test]
fn numbers_with_their_units() {
    assert_eq!(Kmh(90).to_string(), "90 km/h");
    assert_eq!(Metre(1057).to_string(), "1057 m");
    assert_eq!([842_532, 7, u32::MAX].map(|n| Millimetre(n).to_string()), ["842.532 m", "0.007 m", "4294967.295 m"]);
    assert_eq!(PerMille(-21).to_string(), "-21 ‰");
    assert_eq!([5, 3000].map(|n| Hundredth(n).to_string()), ["0.05 s", "30.00 s"]);
    assert_eq!(Millisecond(18_263).to_string(), "18.263 s");
    assert_eq!(
        [13_804, 41_400, u32::MAX].map(|n| Ceiling(n).to_string()),
        ["115.033 km/h", "345.000 km/h", "35791394.125 km/h"]
    );
    assert_eq!([Mark::Curve, Mark::Release].map(|mark| mark.to_string()), ["curve", "release"]);
    assert_eq!(format!("[{:>9}] [{:<8}]", Millimetre(1000), Kmh(5)), "[  1.000 m] [5 km/h  ]");
}

#[test]
fn brakes_by_name() {
    assert_eq!(["passenger", "freight"].map(|word| word.parse()), [Ok(Brake::Passenger), Ok(Brake::Freight)]);
    assert!(["", "Freight", "p"].iter().all(|word| word.parse::<Brake>().is_err()));
}

/// Document 01 numbers the marks so.
#[test]
fn curves_and_marks() {
    assert_eq!(CURVES, [Curve::Ebi, Curve::Sbi, Curve::W, Curve::P]);
    assert_eq!([raw::CURVE, raw::RELEASE], [1, 2]);
    assert_eq!(Mark::ALL.map(Mark::number), [1, 2]);
    assert_eq!([0, 1, 2, 3].map(Mark::numbered), [None, Some(Mark::Curve), Some(Mark::Release), None]);
}

/// As 90 km/h is permitted to document 01's train, all speeds below fit, and its top speed ends a climb to 60.
#[test]
fn mark_at_the_top_speed() {
    let approach = |top_speed| {
        let train = Train { top_speed: Kmh(top_speed), ..EXAMPLE_TRAIN };
        let times = Times { dead: Hundredth(200), rise: Hundredth(400) };
        query(train, times, &EXAMPLE, 1, Metre(0)).map(|approach| (approach.permitted, approach.mark))
    };
    assert_eq!(approach(100), Ok((Kmh(90), Mark::Curve)));
    assert_eq!(approach(60), Ok((Kmh(60), Mark::Curve)));
}

/// A level line of so many stretches and signals, one of each a metre, in the longest sheet's buffer.
fn written(stretches: usize, signals: usize) -> Result<usize, Refusal> {
    let metres: Vec<Metre> = (0..stretches.max(signals) as u32).map(Metre).collect();
    let (starts, places) = (&metres[..stretches], &metres[..signals]);
    let (gradients, overlaps) = (&vec![0; stretches], &vec![0; signals]);
    let lists = sheet::Lists { starts, gradients, places, overlaps, end: Metre(2000) };
    sheet::write(lists, &mut [0; sheet::LONGEST]).map(<[u8]>::len)
}

#[test]
fn longest_sheet_and_row() {
    assert_eq!(written(1, 0), Ok(sheet::length(1, 0)));
    assert_eq!(written(512, 64), Ok(sheet::LONGEST));
    assert_eq!([written(0, 64), written(513, 64), written(512, 65)], [Err(Refusal::Sheet); 3]);

    let train = Train { top_speed: Kmh(330), ..EXAMPLE_TRAIN };
    let mut list = [Millimetre(0); LONGEST_ROW];
    assert_eq!(row(Curve::P, train, Kmh(0), PerMille(0), &mut list).map(<[_]>::len), Ok(LONGEST_ROW));
    assert_eq!(row(Curve::P, train, Kmh(0), PerMille(0), &mut list[1..]), Err(Refusal::Room));
}
