//! Which refusal a step has, and what stands beside it.
use approach::{raw, walk, Metre, Refusal};
use inputs::{lent, Random, Walked};

/// Steps within the walk, past it, and far past it.
const STEPS: [u32; 4] = [0, 1, 512, u32::MAX];

/// The answers are the reference's; 0 of an accepted walk, whose steps may have ended.
fn refusal(w: &Walked) -> u32 {
    let refused = reference::walk::walk(&w.sheet, w.signal, w.head, w.length).err();
    let Some(refusal) = refused else {
        w.check();
        return 0;
    };
    let zeros = raw::Back { refusal, end: 0, stretch: 0, gradient: 0, least: 0, least_stretch: 0 };
    lent(&w.sheet, |sheet| {
        for step in STEPS {
            assert_eq!(w.crossed_on(sheet, step), zeros, "step {step} of {w:?}");
            assert_eq!(w.step_on(sheet, step).map_err(Refusal::number), Err(refusal), "step {step} of {w:?}");
        }
        let walk = walk(sheet, w.signal, Metre(w.head), Metre(w.length));
        assert_eq!(walk.map_err(Refusal::number).err(), Some(refusal), "{w:?}");
    });
    refusal
}

type Edit = fn(&mut Walked);

/// Each breaks one rule, at its nearest end or far from it.
const FAULTS: [(u32, Edit); 12] = [
    (2, |w| w.length = 1001),
    (2, |w| w.length = u32::MAX),
    (7, |w| w.sheet.push(0)),
    (7, |w| w.sheet.truncate(w.line.length() - 1)),
    (7, |w| w.sheet.truncate(19)),
    (7, |w| w.sheet.clear()),
    (7, |w| w.sheet.iter_mut().take(1).for_each(|byte| *byte ^= 0xff)),
    (8, |w| w.signal = w.line.places.len() as u32),
    // It would be signal 0 again if its place in the bytes were cut to 32 bits.
    (8, |w| w.signal = 1 << 31),
    (8, |w| w.signal = u32::MAX),
    (9, |w| w.head = w.line.end),
    (9, |w| w.head = u32::MAX),
];

/// By number: these four are decided so.
#[test]
fn the_first_refusal_that_applies() {
    let mut random = Random(103);
    for _ in 0..20 {
        let w = random.walk();
        assert_eq!(refusal(&w), 0);
        for (one, fault) in FAULTS {
            let mut broken = w.clone();
            fault(&mut broken);
            assert_eq!(refusal(&broken), one, "{broken:?}");
            for (number, other) in FAULTS.into_iter().filter(|&(number, _)| number != one) {
                let mut both = broken.clone();
                other(&mut both);
                assert_eq!(refusal(&both), one.min(number), "{both:?}");
            }
        }
    }
}

/// The head on either side of the signal, the length on either side of its span, the number on either side of the last.
#[test]
fn the_ends_of_the_spans() {
    let mut random = Random(104);
    for _ in 0..300 {
        let w = random.walk();
        let ((place, _), signals) = (w.ends(), w.line.places.len() as u32);
        let heads = [place, place + 1].map(|head| refusal(&Walked { head, ..w.clone() }));
        let lengths = [1000, 1001].map(|length| refusal(&Walked { length, ..w.clone() }));
        let numbers = [signals - 1, signals].map(|signal| refusal(&Walked { signal, head: 0, ..w.clone() }));
        assert_eq!([heads, lengths, numbers], [[0, 9], [0, 2], [0, 8]], "{w:?}");
    }
}

/// Damaged and short sheets among them.
#[test]
fn refusals_at_random() {
    let mut random = Random(105);
    let mut seen = [0; 12];
    for _ in 0..12_000 {
        seen[refusal(&random.any_walk()) as usize] += 1;
    }
    assert!([0, 2, 7, 8, 9].iter().all(|&refusal| seen[refusal] > 200), "{seen:?}");
}
