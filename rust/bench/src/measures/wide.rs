//! Operations on wide numbers. Both are called the same way; the first line is what the call itself costs.
use super::timing::{compared, way};
use bench::plain::wide as peer;
use bench::wide_inputs::{dividend, factors, summands};
use bench::{wide_calls, Wide};
use inputs::Random;

const INPUTS: usize = 1_000_000;

/// Folds a result into a sum that both sides must agree on.
fn folded(w: Wide) -> u64 {
    w.low ^ w.mid.rotate_left(21) ^ w.high.rotate_left(42)
}

pub fn measure() {
    let mut random = Random(7);
    let words: Vec<u64> = (0..INPUTS).map(|_| random.word()).collect();
    let pairs: Vec<(Wide, u64)> = (0..INPUTS).map(|_| factors(&mut random)).collect();
    let sums: Vec<(Wide, Wide)> = (0..INPUTS).map(|_| summands(&mut random)).collect();
    let calls = [way(|x| folded(unsafe { wide_calls::wide_from_word(*x) })), way(|x| folded(peer::from_word(*x)))];
    compared("from_word: the call", &words, 1.0, &calls);
    let times =
        [way(|(w, m)| folded(unsafe { wide_calls::wide_times(*w, *m) })), way(|(w, m)| folded(peer::times(*w, *m)))];
    compared("times", &pairs, 1.0, &times);
    let sum = [way(|(a, b)| folded(unsafe { wide_calls::wide_sum(*a, *b) })), way(|(a, b)| folded(peer::sum(*a, *b)))];
    compared("sum", &sums, 1.0, &sum);
    let quotient = [
        way(|(n, d)| unsafe { wide_calls::wide_quotient_up(*n, *d) } as u64),
        way(|(n, d)| peer::quotient_up(*n, *d) as u64),
    ];
    for bits in [8, 60, 100, 128, 160] {
        let pairs: Vec<(Wide, Wide)> = (0..INPUTS).map(|_| dividend(&mut random, bits)).collect();
        compared(&format!("quotient_up, divisor of {bits} bits"), &pairs, 1.0, &quotient);
    }
}
