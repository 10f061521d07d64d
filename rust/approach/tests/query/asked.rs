//! A query asked of the library and of the reference, on sheets of few stretches and signals.
use approach::{Approach, Refusal};
use inputs::{answer_on_paper, lent, on_paper, without_stretches, Line, Query};
use reference::approach::keeps_demand;

/// The library's answer from a lent sheet, which it leaves as it is; without the numbers of stretches, in which sheets may differ that
/// agree.
pub fn answer(q: &Query) -> Result<Approach, u32> {
    lent(&q.sheet, |sheet| q.on(sheet)).map(without_stretches).map_err(Refusal::number)
}

/// The reference's answer, which keeps the demand.
pub fn check(q: &Query) -> Result<Approach, u32> {
    let Query { train, tm, tr, sheet, signal, head } = q;
    let answer = q.check();
    if let Ok(answer) = answer {
        let kept = keeps_demand(on_paper(*train), *tm, *tr, sheet, *signal, *head, answer_on_paper(answer));
        assert_eq!(kept, Ok(()), "the demand: {answer:?} to {q:?}");
    }
    answer
}

pub fn accepted(q: &Query) -> Approach {
    check(q).expect("an accepted query")
}

/// 0 of an accepted one.
pub fn refusal(q: &Query) -> u32 {
    check(q).err().unwrap_or(0)
}

pub fn sheet(stretches: &[(u32, i16)], signals: &[(u32, u16)], end: u32) -> Vec<u8> {
    let (starts, gradients) = stretches.iter().copied().unzip();
    let (places, overlaps) = signals.iter().copied().unzip();
    Line { starts, gradients, places, overlaps, end }.written()
}

/// The printing program's query, one signal 1,000 m on.
pub fn one_signal(stretches: &[(u32, i16)], overlap: u16) -> Query {
    Query::printed(sheet(stretches, &[(1000, overlap)], 40_000))
}
