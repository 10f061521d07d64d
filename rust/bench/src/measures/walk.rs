//! A step back from a signal by its number, the check of the sheet included.
use super::query::{largest, twenty, varied, QUERIES};
use super::timing::{compared, mixed, way, Way};
use approach::raw::{self, Back};
use bench::{own, plain};
use inputs::{Query, Random};

type Call = fn(&[u8], u32, u32, u32, u32) -> Back;

fn answered(call: Call, step: u32) -> Way<Query> {
    way(move |q: &Query| {
        let back = call(&q.sheet, q.signal, q.head, q.train.length.0, step);
        let Back { refusal, end, stretch, gradient, least, least_stretch } = back;
        mixed([refusal, end, stretch, gradient as u32, least as u32, least_stretch])
    })
}

/// The same step for trains of all lengths, whose tails are on its stretch or behind it.
fn measure_step(name: &str, random: &mut Random, query: Query, step: u32) {
    let queries: Vec<Query> = (0..QUERIES).map(|_| varied(random, &query)).collect();
    for q in &queries {
        let answer = raw::sheet_back(&q.sheet, q.signal, q.head, q.train.length.0, step);
        assert_eq!((answer.refusal, answer.end), (0, 0), "a walk that ends before step {step}: {q:?}");
    }
    let calls: [Call; 3] = [raw::sheet_back, plain::walk::back, own::walk::back];
    compared(name, &queries, 1.0, &calls.map(|call| answered(call, step)));
}

pub fn measure() {
    let mut random = Random(61);
    measure_step("step back, the last of 512", &mut random, largest(0, 0), 511);
    measure_step("step back, 20 stretches, step 6", &mut random, twenty(), 6);
}
