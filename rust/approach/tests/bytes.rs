//! Whether a train is freight, and whether its electropneumatic brake works, is a byte in C's record, and C can pass any: 0 is no,
//! each of the other 255 is yes.
use approach::raw::{query, row, step, Distances, Train, CURVES};
use approach::Coefficients;
use inputs::EXAMPLE;
use reference::coefficients::FIRST_VALUES;

/// A train of either length, by its two bytes. Freight tells at 500 m, and a freight train's electropneumatic brake at 1,000 m.
fn train(freight: u8, electropneumatic: u8, length: u32) -> Train {
    let coefficients = Coefficients::FIRST_VALUES.into();
    Train { freight, electropneumatic, braked_weight: 100, length, top_speed: 100, coefficients }
}

/// The reference's four distances of either answer to the two questions, at `[freight][electropneumatic]`.
fn on_paper(length: u32) -> [[Distances; 2]; 2] {
    [false, true].map(|freight| {
        [false, true].map(|electropneumatic| {
            let (braked_weight, top_speed, coefficients) = (100, 100, FIRST_VALUES);
            let train =
                reference::train::Train { freight, electropneumatic, braked_weight, length, top_speed, coefficients };
            let [ebi, sbi, w, p] = reference::step::step(train, 90, 0, 0).expect("an accepted train");
            Distances { refusal: 0, ebi, sbi, w, p }
        })
    })
}

fn said(byte: u8) -> usize {
    (byte != 0).into()
}

#[test]
fn distances_by_every_two_bytes() {
    for length in [500, 1000] {
        let expected = on_paper(length);
        for freight in 0..=u8::MAX {
            for electropneumatic in 0..=u8::MAX {
                let answer = step(train(freight, electropneumatic, length), 90, 0, 0);
                let expected = expected[said(freight)][said(electropneumatic)];
                assert_eq!(answer, expected, "freight {freight}, electropneumatic {electropneumatic}, {length} m");
            }
        }
    }
}

/// So that a byte that is taken for the wrong answer shows.
#[test]
fn answers_differ() {
    let [[neither, electropneumatic], [freight, both]] = on_paper(500);
    assert!(electropneumatic.ebi < neither.ebi && neither.ebi < freight.ebi && electropneumatic.ebi < both.ebi);
    let [_, [freight, both]] = on_paper(1000);
    assert!(both.ebi < freight.ebi);
}

/// Rows of each curve and a query, by each byte alone: the train has the answers of its 0 or of its 1.
#[test]
fn rows_and_queries_by_every_byte() {
    let answers = |train: Train| {
        let rows = CURVES.map(|curve| {
            let mut places = [0; 101];
            (row(curve, train, 0, 0, &mut places), places)
        });
        (rows, query(train, 200, 400, &EXAMPLE, 1, 0))
    };
    let trains: [fn(u8) -> Train; 2] =
        [|freight| train(freight, 0, 500), |electropneumatic| train(0, electropneumatic, 500)];
    for train in trains {
        let expected = [0, 1].map(|byte| answers(train(byte)));
        let [no, yes] = &expected;
        assert!(no.0 != yes.0 && no.1 != yes.1, "{no:?}");
        for byte in 0..=u8::MAX {
            assert!(answers(train(byte)) == expected[said(byte)], "{:?}", train(byte));
        }
    }
}
