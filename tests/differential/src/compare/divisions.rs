//! However a stream is divided into arrivals, the same comes of it: frames,
//! the steps taken on them, and what is left.

use super::arrivals::Came;
use super::pair::{hex, same, Difference, Outcome, Pair};
use super::shrink::{shrink, Found};
use crate::coverage::Coverage;
use crate::generate::{divisions, samples, Event};
use crate::implementation::Implementation;

/// What comes of a stream in the end.
struct End {
    came: Vec<Came>,
    left: Vec<u8>,
}

/// Every division of every sample stream: the two sides are compared behind
/// each operation, and each division with the stream that arrived whole.
pub fn divide<A: Implementation, B: Implementation>(a: &A, b: &B, coverage: &mut Coverage) -> Option<Found> {
    samples().iter().find_map(|stream| all_alike(a, b, divisions(stream), coverage))
}

/// Runs divisions of one stream and compares each with the first.
pub fn all_alike<A: Implementation, B: Implementation>(
    a: &A,
    b: &B,
    divisions: impl IntoIterator<Item = Vec<Event>>,
    coverage: &mut Coverage,
) -> Option<Found> {
    let mut first: Option<End> = None;
    for events in divisions {
        let Ok(divided) = end(a, b, &events, coverage) else {
            return Some(shrink(a, b, events));
        };
        let Some(first) = &first else {
            first = Some(divided);
            continue;
        };
        if let Err(difference) = alike(first, &divided) {
            return Some(Found::unshrunk(a, b, events, difference));
        }
    }
    None
}

/// Runs a division on fresh readers and sessions.
fn end<A: Implementation, B: Implementation>(
    a: &A,
    b: &B,
    events: &[Event],
    coverage: &mut Coverage,
) -> Result<End, Difference> {
    let mut pair = Pair::fresh(a, b);
    events.iter().try_for_each(|event| pair.event(event, coverage))?;
    let readers = pair.readers();
    Ok(End { left: readers.held().to_vec(), came: std::mem::take(&mut readers.came) })
}

fn alike(first: &End, other: &End) -> Outcome {
    same("frames of another division", first.came.len(), other.came.len())?;
    for (first, other) in first.came.iter().zip(&other.came) {
        same("frame of another division", hex(&first.frame), hex(&other.frame))?;
        same("answer in another division", first.answer, other.answer)?;
        same("reply in another division", hex(&first.reply), hex(&other.reply))?;
        same("session in another division", &first.tables, &other.tables)?;
    }
    same("bytes left of another division", hex(&first.left), hex(&other.left))
}
