//! How often each kind was found.
use approach::{Coefficients, Inertia, PerMille};
use inputs::Span;
use std::collections::BTreeMap;

#[derive(Debug, Default)]
pub struct Counts(BTreeMap<String, u32>);

impl Counts {
    pub fn note(&mut self, kind: &str, found: bool) {
        *self.0.entry(kind.to_owned()).or_default() += u32::from(found);
    }

    pub fn refusal(&mut self, number: u32) {
        self.note(&format!("answers with {number}"), true);
    }

    /// The ends of spans at which coefficients are.
    pub fn ends(&mut self, spans: &[Span], coefficients: &Coefficients) {
        for span in spans {
            for end in span.ends() {
                self.note(&format!("{} {end}", span.name), span.of(coefficients) == end);
            }
        }
    }

    /// The thresholds of a slope on either side, where the two sides have factors of their own.
    pub fn thresholds(&mut self, inertia: Inertia, gradient: i32) {
        let Inertia { ki1, ki2, ki3, i1: PerMille(i1), i2: PerMille(i2) } = inertia;
        self.note("i1 = i2 = 0", (i1, i2) == (0, 0));
        self.note("i at i1", gradient == i1 && ki1 != ki2);
        self.note("i just above i1", gradient == i1 + 1 && ki1 != ki2);
        self.note("i at i2", gradient == i2 && ki2 != ki3);
        self.note("i just above i2", gradient == i2 + 1 && ki2 != ki3);
    }

    /// So often at least that kind was found.
    pub fn hold(&self, kind: &str, least: u32) {
        let found = self.0.get(kind).copied().unwrap_or(0);
        assert!(found >= least, "{kind}: {found} of {least}, of {self:?}");
    }

    /// So often at least every kind was.
    pub fn hold_all(&self, least: u32) {
        assert!(self.0.values().all(|&found| found >= least), "{least} of {self:?}");
    }
}
