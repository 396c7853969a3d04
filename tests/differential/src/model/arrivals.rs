//! Frames as they arrive: item 1 of document 02.
//!
//! Bytes are sorted one by one as they come in: whole frames stand in a queue,
//! and what is behind the last of them lies in `rest`. Nothing ever moves, and
//! of the store only its size counts.

use super::{Mistake, Model};
use crate::implementation::*;
use std::collections::VecDeque;

/// What has been taken and not handed out.
#[derive(Clone, Debug, Default)]
pub struct Reader {
    frames: VecDeque<Vec<u8>>,
    /// No whole frame begins here: a part of one, or a bad length and what follows it.
    rest: Vec<u8>,
    /// Bytes handed out since nothing was held. Only a mistake asks for it.
    gone: usize,
}

impl Reader {
    pub fn held(&self) -> Vec<u8> {
        self.frames.iter().chain([&self.rest]).map(Vec::as_slice).collect::<Vec<_>>().concat()
    }

    fn len(&self) -> usize {
        self.frames.iter().map(Vec::len).sum::<usize>() + self.rest.len()
    }
}

impl Model {
    pub(super) fn empty(&self, reader: &mut Reader) {
        let part = self.reason_of(&reader.rest) == PART;
        let kept = part && self.makes(Mistake::StartOverKeepsPart);
        let rest = if kept { reader.rest.clone() } else { Vec::new() };
        *reader = Reader { rest, ..Reader::default() };
    }

    pub(super) fn take_arrival(&self, reader: &mut Reader, bytes: &[u8]) -> Pushed {
        let before = reader.len();
        let mut count = bytes.len().min(self.room(reader));
        if count < bytes.len() && self.makes(Mistake::TakesAllOrNothing) {
            count = 0;
        }
        bytes[..count].iter().for_each(|byte| self.sort(reader, *byte));
        self.settle(reader);
        let reason = match self.stands_first(reader) {
            WHOLE_FRAME if count == 0 && self.makes(Mistake::NothingTakenWaits) => PART,
            reason => reason,
        };
        if self.makes(Mistake::DroppedNotCounted) {
            count = reader.len().saturating_sub(before);
        }
        Pushed { reason, count }
    }

    pub(super) fn hand_out(&self, reader: &mut Reader) -> NextFrame {
        let mut handed = reader.frames.pop_front();
        while self.makes(Mistake::SkipsUnknownTypes) && unknown(&handed) {
            handed = reader.frames.pop_front();
        }
        let Some(frame) = handed else {
            self.settle(reader);
            let reason = self.stands_first(reader);
            return NextFrame { reason, ..NextFrame::default() };
        };
        reader.gone = if reader.len() == 0 { 0 } else { reader.gone + frame.len() };
        if !self.makes(Mistake::DropsLate) {
            self.settle(reader);
        }
        NextFrame { reason: WHOLE_FRAME, kind: type_of(&frame), frame }
    }

    /// How many bytes there is room for beside those held.
    fn room(&self, reader: &Reader) -> usize {
        if self.is_bad_first(reader) && !self.makes(Mistake::TakesBehindBadLength) {
            return 0;
        }
        let behind = self.makes(Mistake::TakesNoMoreThanBehind);
        let unused = usize::from(self.makes(Mistake::StoreOneByteShort));
        let unused = unused + if behind { reader.gone } else { 0 };
        (STORE - reader.len()).saturating_sub(unused)
    }

    /// One byte more behind all others: it may make a frame whole.
    fn sort(&self, reader: &mut Reader, byte: u8) {
        reader.rest.push(byte);
        if self.reason_of(&reader.rest) == WHOLE_FRAME {
            reader.frames.push_back(std::mem::take(&mut reader.rest));
        }
    }

    /// Drops what is behind a bad length as soon as that stands first.
    fn settle(&self, reader: &mut Reader) {
        let bad = self.reason_of(&reader.rest) == BAD_LENGTH;
        if bad && self.makes(Mistake::DropsFramesAhead) {
            reader.frames.clear();
        }
        if self.is_bad_first(reader) && !self.makes(Mistake::KeepsBehindBadLength) {
            reader.rest.truncate(if self.makes(Mistake::DropsBadLength) { 0 } else { HEAD });
        }
    }

    fn is_bad_first(&self, reader: &Reader) -> bool {
        reader.frames.is_empty() && self.reason_of(&reader.rest) == BAD_LENGTH
    }

    fn stands_first(&self, reader: &Reader) -> u8 {
        if !reader.frames.is_empty() {
            return WHOLE_FRAME;
        }
        match self.reason_of(&reader.rest) {
            BAD_LENGTH if self.makes(Mistake::WaitsAtBadLength) => PART,
            reason => reason,
        }
    }

    /// What some bytes begin with.
    fn reason_of(&self, bytes: &[u8]) -> u8 {
        let Some(head) = bytes.first_chunk::<HEAD>() else {
            return PART;
        };
        let length = u32::from_le_bytes(*head) as usize;
        let longest = if self.makes(Mistake::LengthLimitAtStore) { STORE } else { LONGEST };
        let missing = usize::from(self.makes(Mistake::HandsOutOneByteShort));
        match length {
            0 => BAD_LENGTH,
            _ if length > longest => BAD_LENGTH,
            _ if bytes.len() + missing < HEAD + length => PART,
            _ => WHOLE_FRAME,
        }
    }
}

/// The type byte, which only a mistake leaves out.
fn type_of(frame: &[u8]) -> u8 {
    frame.get(HEAD).copied().unwrap_or(0)
}

fn unknown(frame: &Option<Vec<u8>>) -> bool {
    frame.as_ref().is_some_and(|frame| !KINDS.contains(&type_of(frame)))
}
