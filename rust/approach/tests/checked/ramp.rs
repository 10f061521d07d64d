//! A way past a closed signal asked of the library and of the reference.
use approach::{ramp, raw, Inertia, Kmh, Millimetre, Millisecond, PerMille, Refusal, Stop};
use inputs::{inertia_on_paper, times};
use reference::ramp::{goes_farther, keeps_promise};

/// What the ramp is asked.
#[derive(Clone, Copy, Debug)]
pub struct Run {
    pub weight: u32,
    pub gradient: i32,
    pub v: u32,
    pub tm: u32,
    pub tr: u32,
    pub inertia: Inertia,
}

impl Run {
    /// Distance and moment, or the number of the refusal.
    pub fn answer(self) -> Result<(u32, u32), u32> {
        let Run { weight, gradient, v, tm, tr, inertia } = self;
        let answer = ramp(weight, PerMille(gradient), Kmh(v), times(tm, tr), inertia);
        let numbers = |Stop { distance: Millimetre(distance), moment: Millisecond(moment) }| (distance, moment);
        answer.map(numbers).map_err(Refusal::number)
    }

    /// The answer by the reference's own search, and its promise apart from that; zeros beside a refusal.
    pub fn check(self) -> u32 {
        let Run { weight, gradient, v, tm, tr, inertia } = self;
        let answer = self.answer();
        let expected = reference::ramp::ramp(weight, gradient, v, tm, tr, inertia_on_paper(inertia));
        assert_eq!(answer, expected.map(|stop| (stop.distance, stop.moment)), "{self:?}");
        let Err(refusal) = answer else {
            self.keeps_promise();
            return 0;
        };
        let zeros = raw::Stop { refusal, distance: 0, moment: 0 };
        assert_eq!(raw::ramp(weight, gradient, v, tm, tr, inertia.into()), zeros, "{self:?}");
        refusal
    }

    fn keeps_promise(self) {
        let Run { weight, gradient, v, tm, tr, inertia } = self;
        let (distance, moment) = self.answer().expect("accepted inputs");
        let kept = keeps_promise(weight, gradient, v, tm, tr, distance, moment, inertia_on_paper(inertia));
        assert!(kept, "the promise: {distance} mm at {moment} ms, {self:?}");
    }

    /// Document 02, Card 13: of two runs alike but for speed the faster goes farther. Each of the library's answers keeps the
    /// 2 mm, its numbers rise with the speed, as by the reference's bounds the stops do. Answers whether both are accepted.
    pub fn check_faster(self, faster: u32) -> bool {
        let Run { weight, gradient, v, tm, tr, inertia } = self;
        let fast = Run { v: faster, ..self };
        let farther = goes_farther(weight, gradient, v, faster, tm, tr, inertia_on_paper(inertia));
        match (self.answer(), fast.answer()) {
            (Ok((distance, moment)), Ok((farthest, latest))) => {
                assert!(distance < farthest && moment < latest, "{self:?} and {faster}");
                self.keeps_promise();
                fast.keeps_promise();
                assert_eq!(farther, Ok(true), "{self:?} and {faster}");
                true
            }
            (slow, fast) => {
                assert_eq!((slow.err(), fast.err()), (farther.err(), farther.err()), "{self:?} and {faster}");
                false
            }
        }
    }
}
