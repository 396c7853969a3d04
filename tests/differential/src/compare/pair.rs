//! One event on both sides, and everything that must be equal behind it.

use super::arrivals::Readers;
use super::promises::{self, Side, Stepped};
use super::reader::Told;
use crate::coverage::Coverage;
use crate::generate::{Event, Step, StretchProbe, WriteProbe};
use crate::implementation::*;
use std::fmt::Debug;
use std::panic::{catch_unwind, AssertUnwindSafe};

/// All arguments are asked for by index where a frame has no more than this.
const FEW: u64 = 48;
/// Of thousands only these at either end: each question reads the frame anew.
const ENDS: u64 = 3;

/// Where and in what the two sides differ, or one breaks a promise.
#[derive(Clone, Debug)]
pub struct Difference {
    /// The event's place in its sequence.
    pub at: usize,
    pub what: String,
    pub left: String,
    pub right: String,
}

pub type Outcome = Result<(), Difference>;

/// Demands that both sides gave the same.
pub fn same<T: PartialEq + Debug>(what: &str, left: T, right: T) -> Outcome {
    if left == right {
        return Ok(());
    }
    let (left, right) = (format!("{left:?}"), format!("{right:?}"));
    Err(Difference { at: 0, what: what.into(), left, right })
}

/// A difference from what is promised of every implementation.
pub fn broken(who: &str, what: String) -> Difference {
    Difference { at: 0, what: format!("promise broken by {who}"), left: what, right: String::new() }
}

/// Bytes to lend out, none like its neighbours, so that any change shows.
pub fn pattern(len: usize) -> Vec<u8> {
    (0..len).map(|i| (i as u8).wrapping_mul(7) ^ 0xa5).collect()
}

pub struct Pair<'i, A: Implementation, B: Implementation> {
    pub(super) left: Side<'i, A>,
    pub(super) right: Side<'i, B>,
    /// Made at the first arrival: most sequences have none, and stores are large.
    readers: Option<Readers<'i, A, B>>,
}

impl<'i, A: Implementation, B: Implementation> Pair<'i, A, B> {
    pub fn fresh(left: &'i A, right: &'i B) -> Pair<'i, A, B> {
        Pair { left: Side::fresh(left), right: Side::fresh(right), readers: None }
    }

    pub(super) fn readers(&mut self) -> &mut Readers<'i, A, B> {
        let (left, right) = (self.left.who, self.right.who);
        self.readers.get_or_insert_with(|| Readers::fresh(left, right))
    }

    /// One event; a panic on either side is a difference too.
    pub fn event(&mut self, event: &Event, coverage: &mut Coverage) -> Outcome {
        let done = catch_unwind(AssertUnwindSafe(|| match event {
            Event::Step(step) => self.step(step, coverage).map(drop),
            Event::Reader(operation) => self.operation(operation, coverage),
            Event::Write(probe) => self.write(probe, coverage),
            Event::Stretch(probe) => self.stretch(probe, coverage),
            Event::Image(imaging) => self.imaging(imaging, coverage),
        }));
        done.unwrap_or_else(|_| Err(broken("one of them", "panicked".into())))
    }

    pub(super) fn step(&mut self, step: &Step, coverage: &mut Coverage) -> Result<Stepped, Difference> {
        // Both take the step before anything is compared, so that the print
        // of a mismatch has both answers.
        let (left, right) = (self.left.step(step), self.right.step(step));
        let messages = self.reading(&step.frame)?;
        self.left.check(step, &left, &messages.0)?;
        self.right.check(step, &right, &messages.1)?;
        same("look", left.look, right.look)?;
        same("inspection", left.inspection, right.inspection)?;
        same("answer", left.answer, right.answer)?;
        same("reply buffer", hex(&left.buffer), hex(&right.buffer))?;
        same_tables(&left.tables, &right.tables)?;
        if left.answer.reason == 0 {
            coverage.images.reached += 1;
            self.same_images()?;
        }
        let reply = &left.buffer[..left.answer.reply];
        coverage.step(&step.frame, &messages.0, &left.answer, reply);
        Ok(left)
    }

    /// The frame by itself: message, body and arguments. Gives either side's
    /// message.
    fn reading(&self, frame: &[u8]) -> Result<(Message, Message), Difference> {
        let (a, b) = (self.left.who, self.right.who);
        let (message, other) = (a.read(frame), b.read(frame));
        same("message", message.clone().comparable(), other.clone().comparable())?;
        same("chosen body", hex(a.body(frame)), hex(b.body(frame)))?;
        same("body of message", hex(message.body.of(frame)), hex(a.body(frame)))?;
        let pass = a.pass(frame);
        same("arguments in one pass", &pass, &b.pass(frame))?;
        let count = message.args.len() as u64;
        let (front, back) = if count <= FEW { (0, 0) } else { (ENDS, count - ENDS) };
        let far = [1 << 32, u64::MAX];
        for index in (0..front).chain(back..count + 2).chain(far) {
            let left = a.argument(frame, index);
            same("argument by index", left, b.argument(frame, index))?;
            let passed = pass.get(index as usize).copied().unwrap_or(pass[pass.len() - 1]);
            same("argument by index and in the pass", left, passed)?;
        }
        Ok((message, other))
    }

    fn write(&self, probe: &WriteProbe, coverage: &mut Coverage) -> Outcome {
        let (left, left_bytes) = promises::written(self.left.who, probe)?;
        let (right, right_bytes) = promises::written(self.right.who, probe)?;
        same("written", left, right)?;
        same("written frame", hex(&left_bytes), hex(&right_bytes))?;
        coverage.draft(left);
        Ok(())
    }

    fn stretch(&self, probe: &StretchProbe, coverage: &mut Coverage) -> Outcome {
        let (left, left_bytes) = promises::stretched(self.left.who, probe)?;
        let (right, right_bytes) = promises::stretched(self.right.who, probe)?;
        same("stretch answers", &left, &right)?;
        same("stretch", hex(&left_bytes), hex(&right_bytes))?;
        left.into_iter().for_each(|written| coverage.stretch(written));
        Ok(())
    }

    /// What either side last answered, for the print of a mismatch.
    pub fn answers(&self) -> (Option<Answer>, Option<Answer>) {
        (self.left.last, self.right.last)
    }

    /// What either side's reader last told.
    pub fn told(&self) -> Option<(Told, Told)> {
        self.readers.as_ref().map(Readers::told)
    }

    pub fn names(&self) -> (String, String) {
        (self.left.who.name(), self.right.who.name())
    }
}

/// Place by place, so that a difference is named and not drowned.
pub fn same_tables(left: &Tables, right: &Tables) -> Outcome {
    same("closed", left.closed, right.closed)?;
    for (place, (a, b)) in left.statements.iter().zip(&right.statements).enumerate() {
        same("statement place", (place, a), (place, b))?;
    }
    for (place, (a, b)) in left.cursors.iter().zip(&right.cursors).enumerate() {
        same("cursor place", (place, a), (place, b))?;
    }
    Ok(())
}

/// Bytes that are compared as bytes and printed as hex.
#[derive(PartialEq, Eq)]
pub struct Hex<'b>(pub &'b [u8]);

pub fn hex(bytes: &[u8]) -> Hex<'_> {
    Hex(bytes)
}

impl Debug for Hex<'_> {
    fn fmt(&self, f: &mut std::fmt::Formatter) -> std::fmt::Result {
        const MOST: usize = 400;
        self.0.iter().take(MOST).try_for_each(|byte| write!(f, "{byte:02x}"))?;
        if self.0.len() > MOST {
            write!(f, "... ({} bytes)", self.0.len())?;
        }
        Ok(())
    }
}
