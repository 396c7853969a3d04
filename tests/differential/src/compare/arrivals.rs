//! One operation of a reader on both sides, and everything that must be equal
//! behind it. A frame that is handed out is stepped on at once.

use super::pair::{broken, hex, same, Outcome, Pair};
use super::reader::{stands_first, ReaderSide, Told};
use crate::coverage::Coverage;
use crate::generate::{step_on, Operation};
use crate::implementation::*;

/// Both readers of a pair, and what came of the frames they handed out.
pub struct Readers<'i, A: Implementation, B: Implementation> {
    left: ReaderSide<'i, A>,
    right: ReaderSide<'i, B>,
    pub came: Vec<Came>,
}

/// A frame handed out, and what the step on it gave.
#[derive(Clone, Debug, PartialEq, Eq)]
pub struct Came {
    pub frame: Vec<u8>,
    pub answer: Answer,
    pub reply: Vec<u8>,
    pub tables: Tables,
}

impl<'i, A: Implementation, B: Implementation> Readers<'i, A, B> {
    pub fn fresh(a: &'i A, b: &'i B) -> Readers<'i, A, B> {
        Readers { left: ReaderSide::fresh(a), right: ReaderSide::fresh(b), came: Vec::new() }
    }

    /// Bytes held, equal on both sides.
    pub fn held(&self) -> &[u8] {
        &self.left.held
    }

    /// What either side last told, for the print of a mismatch.
    pub fn told(&self) -> (Told, Told) {
        (self.left.last, self.right.last)
    }

    fn push(&mut self, bytes: &[u8], coverage: &mut Coverage) -> Outcome {
        let (left, right) = (self.left.push(bytes), self.right.push(bytes));
        let (left, right) = (left?, right?);
        same("pushed", left, right)?;
        coverage.push(left, bytes.len());
        self.same_held()
    }

    fn next_frame(&mut self, coverage: &mut Coverage) -> Result<NextFrame, super::Difference> {
        let (left, right) = (self.left.next_frame(), self.right.next_frame());
        let (left, right) = (left?, right?);
        same("next frame's reason and type", (left.reason, left.kind), (right.reason, right.kind))?;
        same("frame handed out", hex(&left.frame), hex(&right.frame))?;
        coverage.next_frame(&left);
        self.same_held()?;
        Ok(left)
    }

    fn start_over(&mut self, coverage: &mut Coverage) -> Outcome {
        coverage.start_over((!self.held().is_empty()).then(|| stands_first(self.held())));
        let (left, right) = (self.left.start_over(), self.right.start_over());
        left.and(right)?;
        self.same_held()
    }

    fn same_held(&self) -> Outcome {
        same("bytes held", hex(&self.left.held), hex(&self.right.held))
    }
}

impl<A: Implementation, B: Implementation> Pair<'_, A, B> {
    pub(super) fn operation(&mut self, operation: &Operation, coverage: &mut Coverage) -> Outcome {
        let readers = self.readers();
        match operation {
            Operation::Push(bytes) => readers.push(bytes, coverage),
            Operation::StartOver => readers.start_over(coverage),
            Operation::NextFrame { room } => {
                let next = readers.next_frame(coverage)?;
                if next.reason == WHOLE_FRAME {
                    self.step_on_frame(next.frame, *room, coverage)?;
                }
                Ok(())
            }
        }
    }

    /// The step on a frame handed out: never refused 1 or 2, and it uses all
    /// of the frame unless it is refused 3.
    fn step_on_frame(&mut self, frame: Vec<u8>, room: usize, coverage: &mut Coverage) -> Outcome {
        let step = step_on(frame, room);
        let stepped = self.step(&step, coverage)?;
        let answer = stepped.answer;
        let used = if answer.reason == 3 { 0 } else { step.frame.len() };
        if matches!(answer.reason, PART | BAD_LENGTH) || answer.used != used {
            return Err(broken("both of them", format!("a frame handed out gets {answer:?}")));
        }
        let reply = stepped.buffer[..answer.reply].to_vec();
        let came = Came { frame: step.frame, answer, reply, tables: stepped.tables };
        self.readers().came.push(came);
        Ok(())
    }
}
