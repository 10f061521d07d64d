//! Every cell of document 000's Allegato 1 against the exact ramp; the misprinted ones are named in src/allegato.rs.

use reference::allegato::{cells, tables, Cell, DEAD_TIME, MISPRINTS};
use reference::coefficients::FIRST_VALUES;
use reference::fraction::Fraction;
use reference::ramp::{greatest_place, ramp};

fn half_a_metre_off(metres: u32) -> (Fraction, Fraction) {
    let (metres, half) = (Fraction::from(metres), Fraction::from((1, 2)));
    (&metres - &half, metres + half)
}

/// Whether the printed metres are the exact greatest place to half a metre; the bounds must leave no doubt.
fn agrees(cell: Cell) -> bool {
    let (lower, upper) = cell.motion().expect("an accepted motion").greatest_place();
    let (least, greatest) = half_a_metre_off(cell.metres);
    let near = least <= lower && upper <= greatest;
    let far = upper < least || greatest < lower;
    assert_ne!(near, far, "{cell:?}");
    near
}

#[test]
fn tables_are_whole() {
    let passenger = [135, 125, 115, 105, 95, 85, 75, 65];
    let (mixed, freight) = ([100, 90, 80, 70, 60], [90, 80, 70, 60, 50]);
    let mut printed = Vec::new();
    for (kinds, lengths, braked_weights) in [
        ((false, false), &[150, 200, 250, 350, 650][..], &passenger[..]),
        ((true, false), &[350, 650], &mixed),
        ((true, true), &[500, 750], &freight),
    ] {
        for nominal_v in [30, 20, 10, 5] {
            printed.extend(lengths.iter().map(|&length| (kinds, nominal_v, length, braked_weights.to_vec())));
        }
    }
    let tables = tables();
    let heads = tables.iter().map(|table| {
        ((table.freight_train, table.freight_brake), table.nominal_v, table.length, table.braked_weights.clone())
    });
    assert_eq!(heads.collect::<Vec<_>>(), printed);
    for table in &tables {
        assert_eq!(table.v, table.nominal_v + 4);
        assert!(table.rows.iter().map(|row| row.0).eq(-6..=6), "{table:?}");
        assert!(table.rows.iter().all(|row| row.1.len() == table.braked_weights.len()), "{table:?}");
    }
    assert_eq!(cells().len(), 13 * (20 * 8 + 8 * 5 + 8 * 5));
}

/// A few cells read off the paper by eye, at the corners of tables and about the breaks of its pages.
#[test]
fn cells_read_by_eye() {
    let read = [
        (false, 150, 135, 34, -6, 91),
        (false, 150, 65, 34, 6, 115),
        (false, 650, 65, 34, -3, 194),
        (false, 650, 135, 34, -2, 138),
        (false, 200, 105, 24, 0, 58),
        (false, 200, 105, 24, 1, 57),
        (false, 650, 65, 9, 6, 22),
        (false, 350, 100, 34, -6, 125),
        (false, 650, 60, 14, 3, 47),
        (true, 500, 90, 34, -6, 220),
        (true, 750, 70, 24, 0, 134),
        (true, 750, 50, 9, 6, 28),
    ];
    let cells = cells();
    for (freight_brake, length, braked_weight, v, gradient, metres) in read {
        let cell = Cell { freight_brake, length, braked_weight, v, gradient, metres };
        assert_eq!(cells.iter().filter(|&&other| other == cell).count(), 1, "{cell:?}");
    }
}

#[test]
fn no_input_is_printed_twice() {
    let inputs: Vec<Cell> = cells().into_iter().map(|cell| Cell { metres: 0, ..cell }).collect();
    assert!(inputs.iter().enumerate().all(|(number, input)| !inputs[..number].contains(input)));
}

/// A misprint that in fact agrees fails here, and so does a cell that does not agree and is not named.
#[test]
fn every_cell_but_the_misprints_agrees() {
    let off: Vec<Cell> = cells().into_iter().filter(|&cell| !agrees(cell)).collect();
    assert_eq!(off, MISPRINTS.map(|misprint| misprint.cell));
}

#[test]
fn misprints_as_wanted_agree() {
    for misprint in MISPRINTS {
        assert!(agrees(Cell { metres: misprint.wanted, ..misprint.cell }), "{misprint:?}");
    }
}

/// Document 01's own inputs: where TR is no whole hundredth, the next below and above close the exact place in.
#[test]
fn whole_hundredths_close_the_cells_in() {
    let mut whole = 0;
    for cell in cells() {
        let Cell { braked_weight, gradient, v, .. } = cell;
        let (lowered, raised) = cell.rise_hundredths();
        whole += u32::from(lowered == raised);
        let inertia = FIRST_VALUES.inertia;
        let bounds = |tr| greatest_place(braked_weight, gradient, v, DEAD_TIME, tr, inertia).expect("accepted inputs");
        let (exact_lower, exact_upper) = cell.motion().expect("an accepted motion").greatest_place();
        assert!(bounds(lowered).0 <= exact_upper && exact_lower <= bounds(raised).1, "{cell:?}");
        if MISPRINTS.iter().all(|misprint| misprint.cell != cell) {
            let stop = |tr| ramp(braked_weight, gradient, v, DEAD_TIME, tr, inertia).expect("accepted inputs");
            let answer = |tr| stop(tr).distance;
            // The answer is beyond the exact place, by less than 2 mm.
            assert!(answer(lowered) < 1000 * cell.metres + 500 + 2, "{cell:?}");
            assert!(answer(raised) >= 1000 * cell.metres - 500, "{cell:?}");
        }
    }
    // All of 200 m and of the freight brake.
    assert_eq!(whole, 13 * (4 * 8 + 8 * 5));
}

/// Section 5.2.3 prints 3,7 s for the passenger brake and 300 m; the others are worked out by hand.
#[test]
fn rise_times() {
    let of = |freight_brake, length| {
        let cell = Cell { freight_brake, length, braked_weight: 100, v: 34, gradient: 0, metres: 0 };
        (cell.rise_time(), cell.rise_hundredths())
    };
    assert_eq!(of(false, 300), (Fraction::from((37, 10)), (370, 370)));
    assert_eq!(of(false, 150), (Fraction::from((1675, 1000)), (167, 168)));
    assert_eq!(of(false, 200), (Fraction::from((22, 10)), (220, 220)));
    assert_eq!(of(false, 250), (Fraction::from((2875, 1000)), (287, 288)));
    assert_eq!(of(false, 350), (Fraction::from((4675, 1000)), (467, 468)));
    assert_eq!(of(false, 650), (Fraction::from((13_675, 1000)), (1367, 1368)));
    assert_eq!(of(true, 500), (Fraction::from((23, 1)), (2300, 2300)));
    assert_eq!(of(true, 750), (Fraction::from((255, 10)), (2550, 2550)));
}
