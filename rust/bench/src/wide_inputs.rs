//! Wide numbers that keep what the contracts ask, with 0, the largest word and short words among them.
use crate::plain::wide::{at_most, difference, times};
use crate::Wide;
use inputs::Random;

pub fn word(random: &mut Random) -> u64 {
    match random.below(8) {
        0 => 0,
        1 => u64::MAX,
        2 | 3 => random.word() >> random.below(64),
        _ => random.word(),
    }
}

/// A number of at most `bits` bits, 0 to 192.
pub fn wide(random: &mut Random, bits: u32) -> Wide {
    let mut part = |from: u32| match bits.saturating_sub(from) {
        0 => 0,
        left => word(random) >> (64 - left.min(64)),
    };
    Wide { low: part(0), mid: part(64), high: part(128) }
}

/// A number and a factor whose product is below 2^192.
pub fn factors(random: &mut Random) -> (Wide, u64) {
    let m = word(random);
    (wide(random, 128 + m.leading_zeros()), m)
}

/// Two numbers whose sum is below 2^192.
pub fn summands(random: &mut Random) -> (Wide, Wide) {
    (wide(random, 191), wide(random, 191))
}

fn full(random: &mut Random) -> Wide {
    Wide { low: random.word(), mid: random.word(), high: random.word() }
}

/// A number and a divisor of just `bits` bits, 1 to 160, the least quotient not below being any of 32 bits.
pub fn dividend(random: &mut Random, bits: u32) -> (Wide, Wide) {
    let d = cut(full(random), bits);
    let whole = times(d, random.word() >> 32);
    let rest = cut(full(random), bits - 1);
    (if at_most(rest, whole) { difference(whole, rest) } else { whole }, d)
}

/// Its lowest `bits` bits, the topmost of them set.
fn cut(w: Wide, bits: u32) -> Wide {
    let part = |word: u64, from: u32| match bits.saturating_sub(from) {
        0 => 0,
        left if left > 64 => word,
        left => (word | 1 << 63) >> (64 - left),
    };
    Wide { low: part(w.low, 0), mid: part(w.mid, 64), high: part(w.high, 128) }
}
