//! The library's answers from lent bytes, held to the reference in every field.
use crate::{lent, on_paper, Query, Walked};
use approach::{raw, walk, Approach, Ceilings, Kmh, Mark, Metre, PerMille, Refusal, StepBack};
use reference::approach as paper;
use reference::walk::Step;

/// Document 02, Card 4: without the two numbers, which are all that sheets may differ in which agree.
pub fn without_stretches(answer: Approach) -> Approach {
    Approach { overlap_stretch: None, ahead_stretch: 0, ..answer }
}

/// The same answer as the reference has it.
pub fn answer_on_paper(answer: Approach) -> paper::Answer {
    let Approach { release, permitted, mark, ceilings: Ceilings { w, sbi, ebi }, overlap_stretch, ahead_stretch } =
        answer;
    let (Kmh(release), Kmh(permitted), ceilings) = (release, permitted, [w.0, sbi.0, ebi.0]);
    let mark = match mark {
        Mark::Curve => paper::Mark::Curve,
        Mark::Release => paper::Mark::Release,
    };
    paper::Answer { release, permitted, mark, ceilings, overlap_stretch, ahead_stretch }
}

/// The reference's answer as it crosses to C. Card 4 has 65,535 for no stretch.
fn crossed(answer: Result<paper::Answer, u32>) -> raw::Answer {
    let answer = match answer {
        Ok(answer) => answer,
        Err(refusal) => return raw::Answer { refusal, ..Default::default() },
    };
    let paper::Answer { release, permitted, mark, ceilings: [w, sbi, ebi], overlap_stretch, ahead_stretch } = answer;
    let (mark, overlap_stretch) = (mark as u32, overlap_stretch.unwrap_or(65_535));
    raw::Answer { refusal: 0, release, permitted, mark, w, sbi, ebi, overlap_stretch, ahead_stretch }
}

fn step_on_line(step: Step) -> StepBack {
    let Step { stretch, gradient, least, least_stretch } = step;
    StepBack { stretch, gradient: PerMille(gradient.into()), least: PerMille(least.into()), least_stretch }
}

/// The reference's step as it crosses to C.
fn step_crossed(step: Result<Option<Step>, u32>) -> raw::Back {
    match step {
        Ok(Some(Step { stretch, gradient, least, least_stretch })) => {
            raw::Back { stretch, gradient: gradient.into(), least: least.into(), least_stretch, ..Default::default() }
        }
        Ok(None) => raw::Back { end: 1, ..Default::default() },
        Err(refusal) => raw::Back { refusal, ..Default::default() },
    }
}

impl Query {
    fn on_reference(&self) -> Result<paper::Answer, u32> {
        let Query { train, tm, tr, sheet, signal, head } = self;
        paper::approach(on_paper(*train), *tm, *tr, sheet, *signal, *head)
    }

    /// What C is to be answered.
    pub fn expected(&self) -> raw::Answer {
        crossed(self.on_reference())
    }

    /// The answer, or the number of a refusal; C's and the wrapper's are both the reference's.
    pub fn check(&self) -> Result<Approach, u32> {
        let expected = self.on_reference();
        lent(&self.sheet, |sheet| {
            let answer = raw::query(self.train.into(), self.tm, self.tr, sheet, self.signal, self.head);
            assert_eq!(answer, crossed(expected), "{self:?}");
            let answer = self.on(sheet).map_err(Refusal::number);
            assert_eq!(answer.map(answer_on_paper), expected, "{self:?}");
            answer
        })
    }
}

/// The first number past the walk, the next one, and larger ones.
fn past(steps: usize) -> impl Iterator<Item = u32> {
    let steps = steps as u32;
    let larger = [511, 512, 513, 1 << 16, 1 << 31, u32::MAX - 1, u32::MAX];
    [steps, steps + 1].into_iter().chain(larger.into_iter().filter(move |&step| step > steps))
}

impl Walked {
    /// What C is to be answered.
    pub fn expected(&self, step: u32) -> raw::Back {
        step_crossed(reference::walk::back(&self.sheet, self.signal, self.head, self.length, step))
    }

    /// A step of C's from the same bytes at another place.
    pub fn crossed_on(&self, sheet: &[u8], step: u32) -> raw::Back {
        raw::sheet_back(sheet, self.signal, self.head, self.length, step)
    }

    /// The wrapper's walk: once it has ended, it stays so.
    fn check_walk(&self, sheet: &[u8], steps: &[StepBack]) {
        let mut walk = walk(sheet, self.signal, Metre(self.head), Metre(self.length)).expect("an accepted walk");
        assert_eq!(walk.by_ref().collect::<Vec<_>>(), steps, "{self:?}");
        assert_eq!([walk.next(), walk.next()], [None; 2], "{self:?}");
    }

    /// All steps of an accepted walk, each by its number the reference's, and none past them; C's and the wrapper's.
    pub fn check(&self) -> Vec<StepBack> {
        let walked = reference::walk::walk(&self.sheet, self.signal, self.head, self.length).expect("an accepted walk");
        let steps: Vec<StepBack> = walked.iter().copied().map(step_on_line).collect();
        lent(&self.sheet, |sheet| {
            for (number, &step) in (0..).zip(&walked) {
                let crossed = step_crossed(Ok(Some(step)));
                assert_eq!(self.crossed_on(sheet, number), crossed, "step {number} of {self:?}");
                assert_eq!(self.step_on(sheet, number), Ok(Some(step_on_line(step))), "step {number} of {self:?}");
            }
            for number in past(steps.len()) {
                assert_eq!(self.crossed_on(sheet, number), step_crossed(Ok(None)), "step {number} of {self:?}");
                assert_eq!(self.step_on(sheet, number), Ok(None), "step {number} of {self:?}");
            }
            self.check_walk(sheet, &steps);
        });
        steps
    }
}
