//! A distance and a row asked of the library and of the reference.
use approach::{raw, row, step, Curve, Distances, Kmh, Millimetre, PerMille, Refusal, Train, CURVES};
use inputs::on_paper;
use reference::step::in_order;

/// What stands in lent memory before a call, and in as many places on either side of it.
pub const UNTOUCHED: Millimetre = Millimetre(0xdead_beef);
const GUARD: usize = 4;

/// The answer as the reference gives it: four numbers, or the refusal's.
fn numbers(answer: Result<Distances, Refusal>) -> Result<[u32; 4], u32> {
    answer.map(|d| CURVES.map(|curve| d.of(curve).0)).map_err(Refusal::number)
}

/// Document 02, Card 13: the four are in order, and from P to W and from W to SBI a train at V has 1.5 s, 1250 V / 3 mm, to less
/// than the millimetre that each is raised by.
pub fn in_order_and_time(v: u32, distances: [u32; 4]) -> bool {
    let [_, sbi, w, p] = distances;
    let in_time = [(sbi, w), (w, p)].into_iter().all(|(near, far)| (3 * far).abs_diff(3 * near + 1250 * v) < 3);
    in_order(&distances) && in_time
}

/// Answers 0, or the number of the refusal, beside which there are zeros.
pub fn check(t: Train, v: u32, v0: u32, gradient: i32) -> u32 {
    let answer = numbers(step(t, Kmh(v), Kmh(v0), PerMille(gradient)));
    if let Ok(distances) = answer {
        assert!(in_order_and_time(v, distances), "{t:?}, V {v}, V0 {v0}, i {gradient}: {distances:?}");
    }
    let expected = reference::step::step(on_paper(t), v, v0, gradient);
    assert_eq!(answer, expected, "{t:?}, V {v}, V0 {v0}, i {gradient}");
    let Err(refusal) = answer else { return 0 };
    let zeros = raw::Distances { refusal, ebi: 0, sbi: 0, w: 0, p: 0 };
    assert_eq!(raw::step(t.into(), v, v0, gradient), zeros, "{t:?}, V {v}, V0 {v0}, i {gradient}");
    refusal
}

/// A row between places that are not lent: written where the answer says, and nowhere else.
pub fn check_row(curve: Curve, t: Train, v0: u32, gradient: i32, places: usize) -> u32 {
    let mut memory = vec![UNTOUCHED; places + 2 * GUARD];
    let answer = row(curve, t, Kmh(v0), PerMille(gradient), &mut memory[GUARD..GUARD + places]);
    let answer = answer.map(<[Millimetre]>::to_vec).map_err(Refusal::number);
    let paper_curve = match curve {
        Curve::Ebi => reference::step::Curve::Ebi,
        Curve::Sbi => reference::step::Curve::Sbi,
        Curve::W => reference::step::Curve::W,
        Curve::P => reference::step::Curve::P,
    };
    let expected = reference::step::row(paper_curve, on_paper(t), v0, gradient, places);
    let expected = expected.map(|row| row.into_iter().map(Millimetre).collect::<Vec<_>>());
    let mut after = vec![UNTOUCHED; places + 2 * GUARD];
    if let Ok(row) = &expected {
        after[GUARD..GUARD + row.len()].copy_from_slice(row);
    }
    assert_eq!(answer, expected, "{curve:?}, {t:?}, V0 {v0}, i {gradient}, {places} places");
    assert_eq!(memory, after, "{curve:?}, {t:?}, V0 {v0}, i {gradient}, {places} places");
    let Err(refusal) = answer else { return 0 };
    let written = raw::row(curve, t.into(), v0, gradient, &mut vec![0; places]);
    assert_eq!(written, raw::Written { refusal, length: 0 });
    refusal
}
