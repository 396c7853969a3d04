//! Two implementations side by side on one sequence of events.

mod arrivals;
mod divisions;
mod images;
mod joined;
mod padded;
mod pair;
mod promises;
mod reader;
mod refused;
mod shrink;
mod touched;
mod tree;

pub use divisions::{all_alike, divide};
pub use pair::{Difference, Pair};
pub use shrink::{shrink, shrink_within, Found};

use crate::coverage::Coverage;
use crate::generate::{arrivals, edges, long_divisions, sequence, systematic, Event, Random};
use crate::implementation::Implementation;

/// Sequences of operations in any order for each stream that is divided.
const PER_STREAM: usize = 4;

/// Runs a sequence on fresh sessions of both; says where they first differ.
pub fn run<A: Implementation, B: Implementation>(
    a: &A,
    b: &B,
    events: &[Event],
    coverage: &mut Coverage,
) -> Option<Difference> {
    let mut pair = Pair::fresh(a, b);
    for (at, event) in events.iter().enumerate() {
        if let Err(difference) = pair.event(event, coverage) {
            return Some(Difference { at, ..difference });
        }
    }
    None
}

/// Runs the systematic sequences; a difference comes back shrunk.
pub fn sweep<A: Implementation, B: Implementation>(a: &A, b: &B, coverage: &mut Coverage) -> Option<Found> {
    first_differing(a, b, systematic(), coverage)
}

/// Divides the sample streams in every way, then runs the sequences on full
/// stores and on starting over.
pub fn sweep_arrivals<A: Implementation, B: Implementation>(
    a: &A,
    b: &B,
    coverage: &mut Coverage,
) -> Option<Found> {
    divide(a, b, coverage).or_else(|| first_differing(a, b, edges(), coverage))
}

fn first_differing<A: Implementation, B: Implementation>(
    a: &A,
    b: &B,
    sequences: Vec<Vec<Event>>,
    coverage: &mut Coverage,
) -> Option<Found> {
    let sequences = sequences.into_iter();
    let mut differing = sequences.filter(|events| run(a, b, events, coverage).is_some());
    differing.next().map(|events| shrink(a, b, events))
}

/// Runs random sequences until `steps` steps are done or a difference shows;
/// that one comes back with its shortest sequence.
pub fn search<A: Implementation, B: Implementation>(
    a: &A,
    b: &B,
    seed: u64,
    steps: u64,
    coverage: &mut Coverage,
) -> Option<Found> {
    let mut random = Random::new(seed);
    while coverage.steps < steps {
        let events = sequence(&mut random);
        if run(a, b, &events, coverage).is_some() {
            return Some(shrink(a, b, events));
        }
    }
    None
}

/// Divides random streams, and reads others in any order, until `operations`
/// operations are done or a difference shows.
pub fn search_arrivals<A: Implementation, B: Implementation>(
    a: &A,
    b: &B,
    seed: u64,
    operations: u64,
    coverage: &mut Coverage,
) -> Option<Found> {
    let mut random = Random::new(seed);
    while coverage.operations() < operations {
        let found = all_alike(a, b, long_divisions(&mut random), coverage).or_else(|| {
            let several = (0..PER_STREAM).map(|_| arrivals(&mut random)).collect();
            first_differing(a, b, several, coverage)
        });
        if found.is_some() {
            return found;
        }
    }
    None
}
