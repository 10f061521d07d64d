//! Times several ways to the same results over the same inputs, in one run.
use std::hint::black_box;
use std::time::Instant;

/// How often each way is timed, by turns, so that what else the machine does falls on all; the least counts.
const ROUNDS: usize = 25;

/// A way through all inputs, to the sum of its results.
pub type Way<I> = Box<dyn Fn(&[I]) -> u64>;

pub fn way<I>(operation: impl Fn(&I) -> u64 + 'static) -> Way<I> {
    Box::new(move |inputs| inputs.iter().fold(0u64, |sum, input| sum.rotate_left(1) ^ operation(black_box(input))))
}

/// ns an input, and the sum of the results.
fn timed<I>(inputs: &[I], way: &Way<I>) -> (f64, u64) {
    let begun = Instant::now();
    let sum = way(inputs);
    (begun.elapsed().as_nanos() as f64 / inputs.len() as f64, sum)
}

/// Prints the ns of a unit by each way, the proved one first, and its ratio to the others; an input stands for `units` of them.
pub fn compared<I, const N: usize>(name: &str, inputs: &[I], units: f64, ways: &[Way<I>; N]) {
    let mut least = [f64::INFINITY; N];
    for _ in 0..ROUNDS {
        let round = ways.each_ref().map(|way| timed(inputs, way));
        assert!(round.iter().all(|&(_, sum)| sum == round[0].1), "{name}: the results differ");
        for (least, (ns, _)) in least.iter_mut().zip(round) {
            *least = least.min(ns / units);
        }
    }
    print(name, least);
}

/// Prints the same of the one input that takes the proved way longest, amid the others so that no branch is known beforehand.
pub fn worst<I, const N: usize>(name: &str, inputs: &[I], ways: &[Way<I>; N]) {
    let mut least = vec![[f64::INFINITY; N]; inputs.len()];
    for _ in 0..ROUNDS {
        for (number, way) in ways.iter().enumerate() {
            for (input, least) in inputs.iter().zip(&mut least) {
                least[number] = least[number].min(timed(std::slice::from_ref(input), way).0);
            }
        }
    }
    print(name, least.into_iter().max_by(|a, b| a[0].total_cmp(&b[0])).expect("an input"));
}

/// Folds an answer's numbers into one that all ways must agree on.
pub fn mixed(numbers: impl IntoIterator<Item = u32>) -> u64 {
    numbers.into_iter().fold(0, |sum: u64, number| sum.rotate_left(9) ^ u64::from(number))
}

fn print<const N: usize>(name: &str, ns: [f64; N]) {
    let times: String = ns.iter().map(|ns| format!(" {ns:>9.1}")).collect();
    let ratios: String = ns[1..].iter().map(|other| format!(" {:>7.2}", ns[0] / other)).collect();
    println!("{name:<34}{times}{ratios}");
}

/// The names of the ways beside the proved one.
pub fn heading(title: &str, others: &[&str]) {
    let names: String = others.iter().map(|name| format!(" {name:>9}")).collect();
    let ratios: String = others.iter().map(|name| format!(" {:>7}", format!("/{name}"))).collect();
    println!("{title:<34} {:>9}{names}{ratios}", "proved");
}
