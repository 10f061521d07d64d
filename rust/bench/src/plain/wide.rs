//! The same operations as one would write them in Rust: u128 limbs, and a quotient estimated from the leading bits.
//! What is timed stands behind a C call that is not inlined, as the proved ones do, so that both pay the same for the call.
use crate::Wide;

fn lower_two(w: Wide) -> u128 {
    w.low as u128 | (w.mid as u128) << 64
}

fn upper_two(w: Wide) -> u128 {
    w.mid as u128 | (w.high as u128) << 64
}

#[inline(never)]
pub extern "C" fn from_word(x: u64) -> Wide {
    Wide { low: x, mid: 0, high: 0 }
}

#[inline(always)]
pub fn times_inline(w: Wide, m: u64) -> Wide {
    let c = w.low as u128 * m as u128;
    let e = w.mid as u128 * m as u128 + (c >> 64);
    Wide { low: c as u64, mid: e as u64, high: w.high * m + (e >> 64) as u64 }
}

#[inline(never)]
pub extern "C" fn times(w: Wide, m: u64) -> Wide {
    times_inline(w, m)
}

#[inline(always)]
pub fn sum_inline(a: Wide, b: Wide) -> Wide {
    let (c, over) = lower_two(a).overflowing_add(lower_two(b));
    Wide { low: c as u64, mid: (c >> 64) as u64, high: a.high + b.high + over as u64 }
}

#[inline(never)]
pub extern "C" fn sum(a: Wide, b: Wide) -> Wide {
    sum_inline(a, b)
}

#[inline(always)]
pub fn difference(a: Wide, b: Wide) -> Wide {
    let (c, under) = lower_two(a).overflowing_sub(lower_two(b));
    Wide { low: c as u64, mid: (c >> 64) as u64, high: a.high - b.high - under as u64 }
}

#[inline(always)]
pub fn at_most(a: Wide, b: Wide) -> bool {
    (a.high, lower_two(a)) <= (b.high, lower_two(b))
}

/// At most n / d: the 64 leading bits of n by those of d at the same places, and 1.
#[inline(always)]
fn lower(n: Wide, d: Wide) -> u64 {
    let (n, d) = if n.high > 0 {
        (upper_two(n), upper_two(d))
    } else if d.high > 0 {
        return 0;
    } else {
        (lower_two(n), lower_two(d))
    };
    if d > n {
        return 0;
    }
    let shift = 64 - (n.leading_zeros()).min(64);
    let (a, b) = ((n >> shift) as u64, (d >> shift) as u64);
    if shift == 0 && b > 0 {
        a / b
    } else {
        b.checked_add(1).map_or(0, |b| a / b)
    }
}

#[inline(always)]
pub fn quotient_up_inline(n: Wide, d: Wide) -> u32 {
    let mut q = lower(n, d) as u32;
    let mut left = difference(n, times_inline(d, q as u64));
    while !at_most(left, d) {
        left = difference(left, d);
        q += 1;
    }
    q + (left != Wide { low: 0, mid: 0, high: 0 }) as u32
}

#[inline(never)]
pub extern "C" fn quotient_up(n: Wide, d: Wide) -> u32 {
    quotient_up_inline(n, d)
}
