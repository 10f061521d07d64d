//! What tests see to: that lent bytes stay, and that each kind of input was met.
use std::collections::BTreeMap;
use std::fmt::Debug;
use std::hint::black_box;

/// What stands in as many bytes on either side of lent ones.
const UNTOUCHED: u8 = 0xa5;
const GUARD: usize = 7;

/// The answer to bytes that lie between others, all of which it leaves as they are.
pub fn lent<A>(bytes: &[u8], answer: impl FnOnce(&[u8]) -> A) -> A {
    let guard = [UNTOUCHED; GUARD];
    let memory = [&guard, bytes, &guard].concat();
    let answer = answer(&memory[GUARD..GUARD + bytes.len()]);
    assert_eq!(black_box(memory), [&guard, bytes, &guard].concat(), "a call has changed bytes");
    answer
}

/// Where a point is that is about a stretch's start.
#[derive(Clone, Copy, Debug, PartialEq, Eq, PartialOrd, Ord)]
pub enum Beside {
    Before,
    On,
    Behind,
}

/// A point that is a stretch's start, or one metre from it, but not both; 0 is the start of every line, and does not count.
pub fn beside(starts: &[u32], point: u32) -> Option<Beside> {
    let is_start = |point| starts.binary_search(&point).is_ok();
    match [point + 1, point, point.saturating_sub(1)].map(|point| point > 0 && is_start(point)) {
        [true, false, false] => Some(Beside::Before),
        [false, true, false] => Some(Beside::On),
        [false, false, true] => Some(Beside::Behind),
        _ => None,
    }
}

/// How often each kind was found.
pub struct Found<K>(BTreeMap<K, u32>);

impl<K: Ord + Debug> Found<K> {
    pub fn none() -> Found<K> {
        Found(BTreeMap::new())
    }

    pub fn note(&mut self, kind: K) {
        *self.0.entry(kind).or_default() += 1;
    }

    /// So many kinds, and each of them at least so often.
    pub fn hold(&self, kinds: usize, least: u32) {
        assert!(self.0.len() == kinds && self.0.values().all(|&count| count >= least), "{:?}", self.0);
    }
}
