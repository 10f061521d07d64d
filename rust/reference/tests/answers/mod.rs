//! Answers without document 02's Card 4, for the tests of all that it leaves as it was.

use reference::approach::{Answer, Mark};
use reference::ceilings::ceilings;
use reference::train::TOP_SPAN;

/// Of a permitted speed past its span, which only a wrong answer has, the ceilings are those of the span's end.
#[allow(dead_code, reason = "each test file takes what it needs")]
pub fn answer(release: u32, permitted: u32, mark: Mark) -> Answer {
    let ceilings = ceilings(permitted.min(TOP_SPAN)).expect("a speed within its span");
    Answer { release, permitted, mark, ceilings, overlap_stretch: None, ahead_stretch: 0 }
}

/// The card's two numbers are all that it lets sheets differ in which agree.
pub fn without_stretches(answer: Answer) -> Answer {
    Answer { overlap_stretch: None, ahead_stretch: 0, ..answer }
}
