//! Approach queries: some as they come in practice, and the longest of all.
use super::timing::{compared, mixed, way, worst, Way};
use approach::raw::{self, Answer};
use approach::{Brake, Coefficients, Kmh, Metre, Train};
use bench::{own, plain};
use inputs::{Line, Query, Random, EXAMPLE, EXAMPLE_TRAIN};

pub(super) const QUERIES: usize = 300;

const FREIGHT: Train = Train {
    brake: Brake::Freight,
    electropneumatic: false,
    braked_weight: 100,
    length: Metre(1000),
    top_speed: Kmh(330),
    coefficients: Coefficients::FIRST_VALUES,
};

fn numbers(a: Answer) -> u64 {
    mixed([a.refusal, a.release, a.permitted, a.mark, a.w, a.sbi, a.ebi, a.overlap_stretch, a.ahead_stretch])
}

fn ways() -> [Way<Query>; 3] {
    [
        way(|q: &Query| numbers(raw::query(q.train.into(), q.tm, q.tr, &q.sheet, q.signal, q.head))),
        way(|q: &Query| numbers(plain::query::query(q.train.into(), q.tm, q.tr, &q.sheet, q.signal, q.head))),
        way(|q: &Query| numbers(own::query::query(q.train.into(), q.tm, q.tr, &q.sheet, q.signal, q.head))),
    ]
}

/// The query with other braked weights, lengths and times, so that no branch is known beforehand.
pub(super) fn varied(random: &mut Random, query: &Query) -> Query {
    let mut below = |n| random.below(n) as u32;
    let train = Train { braked_weight: 80 + 5 * below(17), length: Metre(below(1001)), ..query.train };
    Query { train, tm: below(2001), tr: 1 + below(3000), ..query.clone() }
}

/// 512 stretches of 900 m but the last, and 64 signals, the last of them in the last stretch with the overlap behind it:
/// asked for from the line's beginning.
pub(super) fn largest(gradient: i16, overlap: u16) -> Query {
    let line = Line {
        starts: (0..512).map(|number| 900 * number).collect(),
        gradients: (0..512).map(|number| gradient + number % 3).collect(),
        places: (1..64).map(|number| 7000 * number).chain([460_000]).collect(),
        overlaps: (1..64).map(|_| 0).chain([overlap]).collect(),
        end: 500_000,
    };
    Query { train: FREIGHT, tm: 200, tr: 400, sheet: line.written(), signal: 63, head: 0 }
}

/// 20 stretches of 500 m with a signal in each, of which the 16th is asked for from 3,000 m before it.
pub(super) fn twenty() -> Query {
    let line = Line {
        starts: (0..20).map(|number| 500 * number).collect(),
        gradients: (0..20).map(|number| number * 7 % 19 - 9).collect(),
        places: (0..20).map(|number| 500 * number + 250).collect(),
        overlaps: (0..20).map(|_| 150).collect(),
        end: 10_000,
    };
    let train = Train { top_speed: Kmh(160), ..EXAMPLE_TRAIN };
    Query { train, signal: 15, head: 4750, ..Query::printed(line.written()) }
}

fn measure_varied(name: &str, random: &mut Random, query: Query) {
    let queries: Vec<Query> = (0..QUERIES).map(|_| varied(random, &query)).collect();
    compared(name, &queries, 1.0, &ways());
}

/// Both climbs go to their ends, on gradients of all kinds.
fn longest(random: &mut Random) -> Vec<Query> {
    let sheets = [-10, 0, 10, 33].map(|gradient| largest(gradient, 40_000));
    let queries: Vec<Query> = sheets.iter().cycle().take(QUERIES).map(|query| varied(random, query)).collect();
    for query in &queries {
        let answer = query.answer().expect("an accepted query");
        assert_eq!((answer.release, answer.permitted), (Kmh(100), Kmh(330)), "a climb that ends early: {query:?}");
    }
    queries
}

pub fn measure() {
    let mut random = Random(71);
    let example = |signal| Query { signal, ..Query::printed(EXAMPLE.to_vec()) };
    measure_varied("query, document 01's signal 0", &mut random, example(0));
    measure_varied("query, document 01's signal 1", &mut random, example(1));
    measure_varied("query, 20 stretches, 3 km ahead", &mut random, twenty());
    measure_varied("query, 512 stretches, no overlap", &mut random, largest(0, 0));
    let longest = longest(&mut random);
    compared("query, 512, both climbs whole", &longest, 1.0, &ways());
    worst("the worst single one of these", &longest, &ways());
}
