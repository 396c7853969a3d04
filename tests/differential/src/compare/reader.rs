//! What is promised of a reader by itself, checked on each side: the words of
//! document 02, item 1, over the bytes taken and the frames handed out.

use super::pair::{broken, Difference};
use crate::implementation::*;

/// One implementation with its reader and what went in and out of it.
pub struct ReaderSide<'i, I: Implementation> {
    who: &'i I,
    reader: I::Reader,
    /// Bytes taken since the last start over; the beginning counts as one.
    taken: Vec<u8>,
    /// How many of these were handed out in frames.
    handed: usize,
    /// Bytes held behind the last operation.
    pub held: Vec<u8>,
    /// Whether 2 was answered since the last start over.
    refused: bool,
    pub last: Told,
}

/// What an operation told, in short: `count` bytes taken or handed out.
#[derive(Clone, Copy, Debug, Default)]
pub struct Told {
    pub reason: u8,
    pub count: usize,
}

/// What some held bytes begin with: a whole frame, a bad length, or neither.
pub fn stands_first(held: &[u8]) -> u8 {
    match held.first_chunk().map(|head| u32::from_le_bytes(*head) as usize) {
        Some(length) if !(1..=LONGEST).contains(&length) => BAD_LENGTH,
        Some(length) if HEAD + length <= held.len() => WHOLE_FRAME,
        _ => PART,
    }
}

impl<'i, I: Implementation> ReaderSide<'i, I> {
    pub fn fresh(who: &'i I) -> ReaderSide<'i, I> {
        let (taken, held, last) = (Vec::new(), Vec::new(), Told::default());
        ReaderSide { who, reader: who.reader(), taken, handed: 0, held, refused: false, last }
    }

    pub fn push(&mut self, bytes: &[u8]) -> Result<Pushed, Difference> {
        let bad = stands_first(&self.held) == BAD_LENGTH;
        let room = if bad { 0 } else { STORE - self.held.len() };
        let pushed = self.who.push(&mut self.reader, bytes);
        let Pushed { reason, count } = pushed;
        self.last = Told { reason, count };
        if count != room.min(bytes.len()) {
            let len = bytes.len();
            return self.broken(format!("{count} of {len} bytes taken with room for {room}"));
        }
        self.taken.extend(&bytes[..count]);
        self.settled()?;
        if reason != stands_first(&self.held) {
            return self.broken(format!("a push answers {reason}"));
        }
        if reason == PART && self.held.len() >= STORE {
            return self.broken("told to wait without room".into());
        }
        self.stays_refused(reason, count)?;
        Ok(pushed)
    }

    pub fn next_frame(&mut self) -> Result<NextFrame, Difference> {
        let reason = stands_first(&self.held);
        let next = self.who.next_frame(&mut self.reader);
        self.last = Told { reason: next.reason, count: next.frame.len() };
        if next.reason != reason {
            return self.broken(format!("{} where {reason} stands first", next.reason));
        }
        let kind = next.frame.get(HEAD).copied().unwrap_or(0);
        if next.kind != kind || (reason != WHOLE_FRAME && !next.frame.is_empty()) {
            return self.broken(format!("type {} of a frame with {kind}", next.kind));
        }
        if reason == WHOLE_FRAME && !is_one_frame(&next.frame) {
            return self.broken("what is handed out is no whole frame".into());
        }
        if !self.taken[self.handed..].starts_with(&next.frame) {
            return self.broken("the frame handed out is not the next of the bytes taken".into());
        }
        self.handed += next.frame.len();
        self.settled()?;
        self.stays_refused(reason, next.frame.len())?;
        Ok(next)
    }

    pub fn start_over(&mut self) -> Result<(), Difference> {
        self.who.start_over(&mut self.reader);
        self.last = Told::default();
        (self.taken, self.handed, self.refused) = (Vec::new(), 0, false);
        self.settled()
    }

    /// Frames handed out, then bytes held, are the bytes taken; but of a bad
    /// length that stands first only its four bytes are held.
    fn settled(&mut self) -> Result<(), Difference> {
        self.held = self.who.held(&self.reader);
        let mut left = &self.taken[self.handed..];
        if stands_first(left) == BAD_LENGTH {
            left = &left[..HEAD];
        }
        if self.held == left {
            return Ok(());
        }
        let (held, left) = (self.held.len(), left.len());
        self.broken(format!("{held} bytes held that are not the {left} left of those taken"))
    }

    /// After the first 2 there is nothing but 2 until a start over.
    fn stays_refused(&mut self, reason: u8, count: usize) -> Result<(), Difference> {
        if self.refused && (reason, count) != (BAD_LENGTH, 0) {
            return self.broken(format!("{reason} and {count} bytes after a bad length"));
        }
        self.refused = reason == BAD_LENGTH;
        Ok(())
    }

    fn broken<T>(&self, what: String) -> Result<T, Difference> {
        Err(broken(&self.who.name(), what))
    }
}

/// Whether a frame is as long as its own four bytes say.
fn is_one_frame(frame: &[u8]) -> bool {
    stands_first(frame) == WHOLE_FRAME && stands_first(&frame[..frame.len() - 1]) == PART
}
