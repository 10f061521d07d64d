//! The last least is the query's gradient ahead, by the answers that it makes: the query has the same answer where the whole line
//! has that gradient, and mostly another where it has one per mille more or less. Which stretch has it the whole line does not tell.
use approach::{Approach, Kmh, Metre, Refusal, Train};
use inputs::{without_stretches, Line, Query, Random, Walked};

/// The walk's query, whose signal has no overlap: nothing past it counts.
fn query(random: &mut Random, w: &Walked) -> Query {
    let train = Train { length: Metre(w.length), top_speed: Kmh(330), ..random.train() };
    let (tm, tr) = (random.below(2001) as u32, 1 + random.below(3000) as u32);
    Query { train, tm, tr, sheet: w.sheet.clone(), signal: w.signal, head: w.head }
}

/// The same query on the line with all of one gradient.
fn flattened(q: &Query, line: &Line, gradient: i32) -> Result<Approach, Refusal> {
    let flat = Line { starts: vec![0], gradients: vec![gradient as i16], ..line.clone() };
    q.on(&flat.written()).map(without_stretches)
}

/// How often the answer is another, of how many; only of ways long enough for speeds that a per mille changes.
#[derive(Debug, Default)]
struct Told {
    all: u32,
    another: u32,
}

impl Told {
    const WAY: u32 = 1000;

    fn note(&mut self, another: bool) {
        self.all += 1;
        self.another += another as u32;
    }
}

#[test]
fn the_last_least() {
    let mut random = Random(106);
    let (mut accepted, mut weak) = (0, 0);
    let mut told = [-1, 1].map(|by| (by, Told::default()));
    while accepted < 4_000 {
        let line = random.short_line();
        let w = random.walk_on(line);
        let (q, steps) = (query(&mut random, &w), w.check());
        let ahead = steps[steps.len() - 1].least.0;
        let answer = q.answer().map(without_stretches);
        assert_eq!(answer, flattened(&q, &w.line, ahead), "{ahead} per mille: {q:?}");
        accepted += answer.is_ok() as u32;
        weak += (answer == Err(Refusal::WeakBrake)) as u32;
        if answer.is_err() || w.ends().0 - w.head < Told::WAY {
            continue;
        }
        for (by, told) in told.iter_mut().filter(|(by, _)| (-35..=35).contains(&(ahead + by))) {
            told.note(flattened(&q, &w.line, ahead + *by) != answer);
        }
    }
    assert!(weak > 100, "{weak} with too weak a brake");
    for (by, told) in told {
        assert!(told.all > 500 && 2 * told.another > told.all, "{by} per mille: {told:?}");
    }
}
