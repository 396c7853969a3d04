//! Would the comparison notice? Every mistake the model can make must be
//! found by the same generator and the same comparison as the library gets.

use crate::compare::{run, shrink_within, Found};
use crate::coverage::Coverage;
use crate::generate::{arrivals, sequence, Random};
use crate::implementation::Implementation;
use crate::model::{Mistake, Model, MISTAKES};

/// Every mistake must show within this many steps, or operations on a reader.
pub const WITHIN: u64 = 50_000;
/// Runs tried to shrink what shows a mistake: there are many of these, and nobody has to understand them.
const TRIES: usize = 1_000;

/// How a mistake was found.
pub struct Caught {
    pub mistake: Mistake,
    /// Steps run until then, or operations on a reader if the mistake is made
    /// there; `None` if it was not found within the limit.
    pub steps: Option<u64>,
    pub found: Option<Found>,
}

/// Runs the reference against one mutant.
pub fn hunt<I: Implementation>(reference: &I, mistake: Mistake, seed: u64) -> Caught {
    let wrong = Model::wrong(mistake);
    let mut random = Random::new(seed);
    let mut coverage = Coverage::default();
    let arrive = mistake.is_on_arrivals();
    let next = if arrive { arrivals } else { sequence };
    let done = |met: &Coverage| if arrive { met.operations() } else { met.steps };
    while done(&coverage) < WITHIN {
        let events = next(&mut random);
        if run(reference, &wrong, &events, &mut coverage).is_some() {
            // The one that shows the difference is not counted by coverage.
            let steps = Some(done(&coverage) + 1);
            let found = shrink_within(reference, &wrong, events, TRIES);
            return Caught { mistake, steps, found: Some(found) };
        }
    }
    Caught { mistake, steps: None, found: None }
}

/// Every mutant, in the order of their declaration.
pub fn hunt_all<I: Implementation>(reference: &I, seed: u64) -> Vec<Caught> {
    MISTAKES.iter().map(|mistake| hunt(reference, *mistake, seed)).collect()
}

impl std::fmt::Display for Caught {
    fn fmt(&self, f: &mut std::fmt::Formatter) -> std::fmt::Result {
        let name = format!("{:?}", self.mistake);
        match (self.steps, &self.found) {
            (Some(steps), Some(found)) => {
                let (left, what) = (found.events.len(), &found.difference.what);
                let unit = if self.mistake.is_on_arrivals() { "operations" } else { "steps" };
                write!(f, "{name:<24} after {steps:>6} {unit}, shrunk to {left:>2} events: {what}")
            }
            _ => write!(f, "{name:<24} NOT FOUND within {WITHIN} steps"),
        }
    }
}
