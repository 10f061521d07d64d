//! Document 02, Card 13, for the step model: EBI is at most SBI, SBI at most W and W at most P, and the times between.

use numbers::Numbers;
use reference::fraction::Fraction;
use reference::step::{exact, in_order, row, step, CURVES};
use reference::train::{di, Train, EP};
use reference::units::{in_millimetres, metres_per_second};

mod numbers;

/// Where a train's delay, a slope's K or a span's end changes.
const KINDS: [(bool, bool); 4] = [(false, false), (false, true), (true, false), (true, true)];
const BRAKED_WEIGHTS: [u32; 3] = [45, 100, 160];
const LENGTHS: [u32; 4] = [0, 953, 954, 1000];
const GRADIENTS: [i32; 11] = [-35, -34, -22, -21, -20, -19, -1, 0, 1, 34, 35];
/// V and V0.
const SPEEDS: [(u32, u32); 13] = [
    (0, 0),
    (1, 0),
    (1, 1),
    (2, 1),
    (6, 0),
    (28, 0),
    (30, 29),
    (90, 90),
    (150, 60),
    (151, 60),
    (330, 0),
    (330, 329),
    (330, 330),
];

/// Train, V, V0 and gradient as `step` takes them.
type Inputs = (Train, u32, u32, i32);

/// Which law four distances break.
#[derive(Clone, Copy, Debug, PartialEq, Eq)]
enum Fault {
    Order,
    /// SBI, W and P are equal where V is not 0, or differ where it is; likewise EBI and SBI where Vβ is not 0 or is.
    Equal,
    /// From W to SBI or from P to W the train at V has not 1.5 s.
    Times,
    /// From SBI to EBI the train at Vβ has not tR + tf.
    Service,
    /// A whole distance is not the least that is not below the exact one.
    Raised,
    /// Rows for the same arguments differ in length.
    Length,
}

fn fraction(numerator: i64, denominator: u64) -> Fraction {
    Fraction::from((numerator, denominator))
}

/// Document 01: Vβ in m/s, by document 02's Card 5 with the train's own h, Dt and Ki.
fn v_beta((train, v, v0, gradient): Inputs) -> Fraction {
    let t = fraction(i64::from(train.coefficients.h), 10) + train.tf();
    let coasted = metres_per_second(v) - di(gradient, train.coefficients.inertia) * t;
    coasted.max(metres_per_second(v0))
}

/// Exact distances in millimetres, from wherever they come, held to the laws between them.
fn judged(inputs: Inputs, distances: &[Fraction; 4]) -> Result<(), Fault> {
    let [ebi, sbi, w, p] = distances;
    let (v, v_beta) = (metres_per_second(inputs.1), v_beta(inputs));
    if !in_order(distances) {
        return Err(Fault::Order);
    }
    if [ebi == sbi, sbi == w, w == p] != [v_beta.is_zero(), v.is_zero(), v.is_zero()] {
        return Err(Fault::Equal);
    }
    let notice = in_millimetres(&(fraction(3, 2) * v));
    if [w - sbi, p - w] != [notice.clone(), notice] {
        return Err(Fault::Times);
    }
    let service = in_millimetres(&((fraction(1, 1) + inputs.0.tf()) * v_beta));
    if sbi - ebi != service {
        return Err(Fault::Service);
    }
    Ok(())
}

/// Whole distances held to the exact ones.
fn judged_whole(distances: &[u32; 4], exact: &[Fraction; 4]) -> Result<(), Fault> {
    if !in_order(distances) {
        return Err(Fault::Order);
    }
    let raised = exact.each_ref().map(|exact| exact.raised());
    if distances.map(i64::from) != raised {
        return Err(Fault::Raised);
    }
    Ok(())
}

/// The rows of the four curves for the same arguments, place by place.
fn judged_rows(v0: u32, rows: &[Vec<u32>; 4]) -> Result<(), Fault> {
    let [ebi, ..] = rows;
    if rows.iter().any(|row| row.len() != ebi.len()) {
        return Err(Fault::Length);
    }
    for (place, v) in (0..ebi.len()).zip(i64::from(v0)..) {
        let distances = rows.each_ref().map(|row| row[place]);
        if !in_order(&distances) {
            return Err(Fault::Order);
        }
        // 1.5 s at V km/h are 1250 V / 3 mm; two raised distances are that apart to less than 1 mm.
        let [_, sbi, w, p] = distances.map(i64::from);
        if [w - sbi, p - w].iter().any(|way| (3 * way - 1250 * v).abs() >= 3) {
            return Err(Fault::Times);
        }
    }
    Ok(())
}

/// All laws of one input; false where it is refused for its brakes.
fn held(inputs: Inputs) -> bool {
    let (train, v, v0, gradient) = inputs;
    let whole = step(train, v, v0, gradient);
    let exact = exact(train, v, v0, gradient);
    if whole == Err(10) {
        assert_eq!(exact, Err(10), "{inputs:?}");
        return false;
    }
    let (whole, exact) = (whole.expect("accepted inputs"), exact.expect("accepted inputs"));
    assert_eq!(judged(inputs, &exact), Ok(()), "{inputs:?}");
    assert_eq!(judged_whole(&whole, &exact), Ok(()), "{inputs:?}");
    true
}

impl Numbers {
    /// Standing trains, low speeds, V0 = 0 and V0 = V are not rare, as they are where two distances may be one.
    fn inputs(&mut self) -> Inputs {
        let train = self.train();
        let v = [1, 30, 331].map(|end| self.below(end))[self.below(8).min(2) as usize];
        let v0 = [0, v, self.below(v + 1)][self.below(4).min(2) as usize];
        (train, v, v0, self.gradient())
    }

    fn train(&mut self) -> Train {
        let length = [LENGTHS[self.below(4) as usize], self.below(1001)][self.below(2) as usize];
        Train {
            freight: self.below(2) == 0,
            electropneumatic: self.below(2) == 0,
            braked_weight: 45 + 5 * self.below(24),
            length,
            top_speed: 1 + self.below(330),
            coefficients: self.coefficients(),
        }
    }

    fn gradient(&mut self) -> i32 {
        self.below(71) as i32 - 35
    }
}

#[test]
fn distances_at_random() {
    let mut numbers = Numbers(0x9E37_79B9_7F4A_7C15);
    let (mut accepted, mut coasted_out, mut standing) = (0, 0, 0);
    while accepted < 100_000 {
        let inputs = numbers.inputs();
        if held(inputs) {
            accepted += 1;
            coasted_out += u32::from(v_beta(inputs).is_zero());
            standing += u32::from(inputs.1 == 0);
        }
    }
    assert!(coasted_out > 1000 && standing > 1000, "{coasted_out} without speed at Vβ, {standing} standing");
}

/// Every threshold with every other.
#[test]
fn distances_at_the_thresholds() {
    let (mut accepted, mut refused) = (0, 0);
    for (freight, electropneumatic) in KINDS {
        for (braked_weight, length) in BRAKED_WEIGHTS.into_iter().flat_map(|bw| LENGTHS.map(|length| (bw, length))) {
            let train = Train { freight, electropneumatic, braked_weight, length, top_speed: 330, ..EP };
            for (gradient, (v, v0)) in GRADIENTS.into_iter().flat_map(|i| SPEEDS.map(|speeds| (i, speeds))) {
                *(if held((train, v, v0, gradient)) { &mut accepted } else { &mut refused }) += 1;
            }
        }
    }
    assert!(accepted > 5000 && refused > 500, "{accepted} accepted, {refused} refused");
}

fn rows(train: Train, v0: u32, gradient: i32) -> [Result<Vec<u32>, u32>; 4] {
    CURVES.map(|curve| row(curve, train, v0, gradient, 331))
}

#[test]
fn rows_at_random() {
    let mut numbers = Numbers(0xD1B5_4A32_D192_ED03);
    let (mut accepted, mut places) = (0, 0);
    while accepted < 150 {
        let (train, gradient) = (numbers.train(), numbers.gradient());
        let v0 = [0, numbers.below(train.top_speed + 1)][numbers.below(2) as usize];
        let rows = rows(train, v0, gradient);
        if rows == [const { Err(10) }; 4] {
            continue;
        }
        let rows = rows.map(|row| row.expect("accepted like the others"));
        assert_eq!(judged_rows(v0, &rows), Ok(()), "{train:?} to {v0} on {gradient}");
        accepted += 1;
        places += rows[0].len();
    }
    assert!(places > 10_000, "{places} places in each curve's rows");
}

/// Where V is small, uphill and to 0, the slope alone stops the train within T: Vβ is 0, and with it EBI and SBI.
#[test]
fn equal_distances_of_a_moving_train() {
    // 0.9 × 9.81 × 0.035 × 5.55 = 1.715 m/s, between 6 and 7 km/h.
    let [ebi, sbi, w, p] = step(EP, 6, 0, 35).expect("strong enough");
    assert_eq!([ebi, sbi, w, p], [0, 0, 2500, 5000]);
    let [ebi, sbi, ..] = step(EP, 7, 0, 35).expect("strong enough");
    assert!(0 < ebi && ebi < sbi);
    // No target of 0, no stop.
    let [ebi, sbi, ..] = step(EP, 6, 1, 35).expect("strong enough");
    assert!(0 < ebi && ebi < sbi);
}

/// Document 01's first figure, at 25 m/s, put out of its laws in turn.
#[test]
fn broken_laws_are_seen() {
    type Edit = fn(&mut [Fraction; 4]);
    let edits: [(Fault, Edit); 9] = [
        (Fault::Order, |distances| distances.swap(0, 1)),
        (Fault::Order, |distances| distances.swap(1, 2)),
        (Fault::Order, |[_, _, w, p]| *p = &*w - fraction(1, 1000)),
        // A curve without its time.
        (Fault::Equal, |[ebi, sbi, ..]| *sbi = ebi.clone()),
        (Fault::Equal, |[_, sbi, w, _]| *w = sbi.clone()),
        (Fault::Equal, |[_, _, w, p]| *p = w.clone()),
        // tR taken off SBI alone, and off all that rest on it.
        (Fault::Times, |[_, sbi, ..]| *sbi = &*sbi - fraction(25_000, 1)),
        (Fault::Times, |[.., p]| *p = &*p + fraction(1, 1000)),
        (Fault::Service, |[_, rest @ ..]| rest.iter_mut().for_each(|way| *way = &*way - fraction(25_000, 1))),
    ];
    let inputs = (EP, 90, 0, 0);
    let right = exact(EP, 90, 0, 0).expect("an accepted figure");
    assert_eq!(judged(inputs, &right), Ok(()));
    for (number, (fault, edit)) in edits.into_iter().enumerate() {
        let mut wrong = right.clone();
        edit(&mut wrong);
        assert_eq!(judged(inputs, &wrong), Err(fault), "edit {number}");
    }
    // What is right at 90 km/h is wrong at 91, and on a slope that leaves another Vβ.
    assert_eq!(judged((EP, 91, 0, 0), &right), Err(Fault::Times));
    assert_eq!(judged((EP, 90, 0, 1), &right), Err(Fault::Service));
}

#[test]
fn broken_laws_of_whole_distances_are_seen() {
    let exact = exact(EP, 90, 0, 0).expect("an accepted figure");
    let right = step(EP, 90, 0, 0).expect("an accepted figure");
    assert_eq!(judged_whole(&right, &exact), Ok(()));
    let [ebi, sbi, w, p] = right;
    for wrong in [[sbi, ebi, w, p], [ebi, w, sbi, p], [ebi, sbi, w, w - 1]] {
        assert_eq!(judged_whole(&wrong, &exact), Err(Fault::Order), "{wrong:?}");
    }
    for wrong in [[ebi - 1, sbi, w, p], [ebi, sbi + 1, w, p], [ebi, sbi, sbi, p], [ebi, sbi, w, p + 1]] {
        assert_eq!(judged_whole(&wrong, &exact), Err(Fault::Raised), "{wrong:?}");
    }
}

#[test]
fn broken_laws_of_rows_are_seen() {
    type Edit = fn(&mut [Vec<u32>; 4]);
    let edits: [(Fault, Edit); 7] = [
        (Fault::Length, |[.., p]| p.truncate(70)),
        (Fault::Order, |rows| rows.swap(2, 3)),
        // One place: too long an EBI, too short a P.
        (Fault::Order, |[ebi, sbi, ..]| ebi[70] = sbi[70] + 1),
        (Fault::Order, |[_, _, w, p]| p[0] = w[0] - 1),
        (Fault::Times, |[_, sbi, w, _]| w.clone_from(sbi)),
        (Fault::Times, |[.., p]| p[70] += 2),
        // V0 right and repeated after.
        (Fault::Times, |rows| rows.iter_mut().for_each(|row| *row = vec![row[0]; row.len()])),
    ];
    let right = rows(EP, 30, -5).map(|row| row.expect("strong enough"));
    assert_eq!(judged_rows(30, &right), Ok(()));
    for (number, (fault, edit)) in edits.into_iter().enumerate() {
        let mut wrong = right.clone();
        edit(&mut wrong);
        assert_eq!(judged_rows(30, &wrong), Err(fault), "edit {number}");
    }
    assert_eq!(judged_rows(29, &right), Err(Fault::Times));
}
