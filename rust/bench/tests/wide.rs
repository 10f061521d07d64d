//! The proved wide numbers against schoolbook arithmetic in digits of 16 bits, and the peer against the proved ones.
use bench::plain::wide as peer;
use bench::wide_calls::*;
use bench::wide_inputs::{factors, summands, wide, word};
use bench::Wide;
use inputs::Random;

const ROUNDS: usize = 200_000;

/// The number's digits, the least first, none of them a leading 0.
fn digits(w: Wide) -> Vec<u64> {
    let words = [w.low, w.mid, w.high];
    trimmed((0..12).map(|i| words[i / 4] >> (16 * (i % 4)) & 0xffff).collect())
}

fn trimmed(mut d: Vec<u64>) -> Vec<u64> {
    while d.last() == Some(&0) {
        d.pop();
    }
    d
}

/// Digits that may be 2^16 or more, carried upwards.
fn carried(columns: Vec<u64>) -> Vec<u64> {
    let mut carry = 0;
    let mut digits = Vec::new();
    for column in columns {
        digits.push((column + carry) & 0xffff);
        carry = (column + carry) >> 16;
    }
    while carry > 0 {
        digits.push(carry & 0xffff);
        carry >>= 16;
    }
    trimmed(digits)
}

fn add(a: &[u64], b: &[u64]) -> Vec<u64> {
    let at = |d: &[u64], i| d.get(i).copied().unwrap_or(0);
    carried((0..a.len().max(b.len())).map(|i| at(a, i) + at(b, i)).collect())
}

fn multiply(a: &[u64], b: &[u64]) -> Vec<u64> {
    let mut columns = vec![0; a.len() + b.len()];
    for (i, x) in a.iter().enumerate() {
        for (j, y) in b.iter().enumerate() {
            columns[i + j] += x * y;
        }
    }
    carried(columns)
}

fn at_most(a: &[u64], b: &[u64]) -> bool {
    a.len() < b.len() || a.len() == b.len() && a.iter().rev().le(b.iter().rev())
}

fn number(n: u64) -> Vec<u64> {
    digits(Wide { low: n, mid: 0, high: 0 })
}

/// The least q with n at most q d, held to its meaning; the caller keeps n at most (2^32 - 1) d.
fn check_quotient(n: Wide, d: Wide) {
    let q = unsafe { wide_quotient_up(n, d) };
    assert!(at_most(&digits(n), &multiply(&number(q as u64), &digits(d))), "{n:?} / {d:?}: {q} is too low");
    assert!(
        q == 0 || !at_most(&digits(n), &multiply(&number(q as u64 - 1), &digits(d))),
        "{n:?} / {d:?}: {q} is too high"
    );
    assert_eq!(q, peer::quotient_up(n, d), "{n:?} / {d:?}");
}

#[test]
fn words_and_their_products() {
    let mut random = Random(1);
    for _ in 0..ROUNDS {
        let (a, b) = (word(&mut random), word(&mut random));
        assert_eq!(digits(unsafe { wide_from_word(a) }), number(a));
        assert_eq!(digits(unsafe { wide_product(a, b) }), multiply(&number(a), &number(b)));
        assert_eq!(unsafe { wide_from_word(a) }, peer::from_word(a));
    }
}

#[test]
fn products() {
    let mut random = Random(2);
    for _ in 0..ROUNDS {
        let (w, m) = factors(&mut random);
        let product = unsafe { wide_times(w, m) };
        assert_eq!(digits(product), multiply(&digits(w), &number(m)), "{w:?} * {m}");
        assert_eq!(product, peer::times(w, m));
    }
}

#[test]
fn sums_differences_and_order() {
    let mut random = Random(3);
    for _ in 0..ROUNDS {
        let (a, b) = summands(&mut random);
        let sum = unsafe { wide_sum(a, b) };
        assert_eq!(digits(sum), add(&digits(a), &digits(b)), "{a:?} + {b:?}");
        assert_eq!(sum, peer::sum(a, b));
        assert_eq!(unsafe { wide_difference(sum, b) }, a, "{sum:?} - {b:?}");
        assert_eq!(unsafe { wide_at_most(a, b) }, at_most(&digits(a), &digits(b)), "{a:?} <= {b:?}");
        assert!(unsafe { wide_at_most(a, a) });
    }
}

/// Divisors of every length, small ones too, and quotients of every length, with a rest as long as the divisor and without.
#[test]
fn quotients() {
    let mut random = Random(4);
    let mut with_rest = [0; 160];
    for round in 0..ROUNDS {
        let bits = round % 160;
        let mut d = wide(&mut random, 1 + bits as u32);
        if digits(d).is_empty() {
            d.low = 1;
        }
        let q = random.word() as u32 >> random.below(32);
        let whole = unsafe { wide_times(d, q as u64) };
        check_quotient(whole, d);
        let rest = wide(&mut random, 1 + bits as u32);
        if !digits(rest).is_empty() && unsafe { wide_at_most(rest, whole) && wide_at_most(rest, d) } {
            check_quotient(unsafe { wide_difference(whole, rest) }, d);
            with_rest[bits] += 1;
        }
    }
    // at least an eighth of the rounds at each length
    assert!(with_rest.iter().all(|n| n * 8 * 160 >= ROUNDS), "too few with a rest: {with_rest:?}");
}

/// The ends of the quotient's span.
#[test]
fn quotients_at_the_ends() {
    let none = Wide { low: 0, mid: 0, high: 0 };
    let full = u64::MAX;
    for d in [
        Wide { low: 1, ..none },
        Wide { low: 2, ..none },
        Wide { low: full, ..none },
        Wide { mid: 1, ..none },
        Wide { low: full, mid: 1, ..none },
        Wide { low: full, mid: full, ..none },
        Wide { high: 1, ..none },
        Wide { low: full, mid: full, high: (1 << 32) - 1 },
    ] {
        assert_eq!(unsafe { wide_quotient_up(none, d) }, 0);
        assert_eq!(unsafe { wide_quotient_up(d, d) }, 1);
        let most = unsafe { wide_times(d, u32::MAX as u64) };
        assert_eq!(unsafe { wide_quotient_up(most, d) }, u32::MAX);
        let one = unsafe { wide_from_word(1) };
        check_quotient(one, d);
        check_quotient(most, d);
        check_quotient(unsafe { wide_difference(most, one) }, d);
        check_quotient(unsafe { wide_sum(wide_difference(most, d), one) }, d);
    }
    // divisors of all three words: just as large as the number, larger and smaller by 1
    let all = Wide { low: full, mid: full, high: full };
    check_quotient(all, all);
    check_quotient(Wide { low: full - 1, ..all }, all);
    check_quotient(all, Wide { low: full - 1, ..all });
}
