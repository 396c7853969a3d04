//! Framing and the eight client messages, read by themselves.

use super::parts::Layer;
use super::wire::{Fields, VARINT};
use super::{Mistake, Model};
use crate::implementation::*;

/// Prepare's types and the fields that hold their bodies; there is no 3.
pub const BODIES: [(u32, u32); 5] = [(0, 2), (1, 3), (2, 4), (4, 5), (5, 6)];
/// The refusal of a chosen body that occurs more than once.
pub const TWICE: u8 = 17;
/// The Prepare type whose body is a StmtExecute.
pub const STMT_EXECUTE: u32 = 5;

/// Length of the whole frame, or 1 or 2.
pub fn frame_length(frame: &[u8]) -> Result<usize, u8> {
    let Some(head) = frame.first_chunk::<4>() else {
        return Err(1);
    };
    let length = u32::from_le_bytes(*head) as usize;
    if length == 0 || length > LONGEST {
        return Err(2);
    }
    if frame.len() < 4 + length {
        return Err(1);
    }
    Ok(4 + length)
}

impl Model {
    pub(super) fn read_frame(&self, frame: &[u8]) -> Message {
        let message = self.read_values(frame);
        Message { padded: self.padded_in(frame, &message), ..message }
    }

    /// A message as it is told: of a refused one nothing but its reason, its
    /// length and whether a varint was padded.
    pub(super) fn told(&self, message: Message) -> Message {
        if message.reason != TWICE {
            return message;
        }
        let padded = message.padded && !self.makes(Mistake::TwiceMessageSaysNo);
        let keeps = self.makes(Mistake::TwiceKeepsBody);
        let body = if keeps { message.body } else { Place::default() };
        Message { padded, body, ..Message::refused(TWICE, message.used) }
    }

    /// Arguments of a refused frame are refused alike.
    pub(super) fn argument_reason(&self, reason: u8) -> u8 {
        if reason == TWICE && self.makes(Mistake::TwiceArgumentNine) {
            9
        } else {
            reason
        }
    }

    /// Everything but whether varints were padded. A message refused 17 has
    /// all that was read still in it.
    pub fn read_values(&self, frame: &[u8]) -> Message {
        let whole = match frame_length(frame) {
            Err(reason) => return Message::refused(reason, 0),
            Ok(whole) => whole,
        };
        let used = if self.makes(Mistake::AllBytesUsed) { frame.len() } else { whole };
        let kind = frame[4];
        if !KINDS.contains(&kind) {
            return Message::refused(5, used);
        }
        match self.payload(kind, frame, Place { start: 5, len: whole - 5 }) {
            Some(message) => Message { used, kind, ..message },
            None if self.makes(Mistake::BadUsesNothing) => Message::refused(6, 0),
            None => Message::refused(6, used),
        }
    }

    /// Everything but frame length and kind; `None` for a bad payload.
    fn payload(&self, kind: u8, frame: &[u8], part: Place) -> Option<Message> {
        if kind == SESS_RESET && self.makes(Mistake::ResetUnread) {
            return Some(Message::default());
        }
        let fields = self.fields(frame, part)?;
        let mut message = Message::default();
        match kind {
            PREPARE => {
                message = self.prepared(frame, &fields.parts(2)?)?;
                message.stmt = fields.uint32(1)?;
            }
            EXECUTE => message = self.execute(frame, &[part])?,
            DEALLOCATE => message.stmt = fields.uint32(1)?,
            CURSOR_OPEN => {
                message = self.opened(frame, &fields.parts(4)?)?;
                message.cursor = fields.uint32(1)?;
                message.fetch_rows = fields.number(5, VARINT);
            }
            CURSOR_FETCH => {
                message.cursor = fields.uint32(1)?;
                message.fetch_rows = fields.number(2, VARINT);
            }
            CURSOR_CLOSE => message.cursor = fields.uint32(1)?,
            // Reset and Session close have no fields of their own.
            _ => {}
        }
        Some(message)
    }

    /// Prepare's stmt: its type and the body that type chooses, over all parts.
    fn prepared(&self, frame: &[u8], parts: &[Place]) -> Option<Message> {
        let fields = self.merged(Layer::PrepareStmt, frame, parts)?;
        let mut bodies = BODIES.to_vec();
        if self.makes(Mistake::PrepareType3) {
            bodies.push((3, 5));
        }
        let listed: Vec<u32> = bodies.iter().map(|(operation, _)| *operation).collect();
        let operation = fields.listed(1, &listed)?;
        let (_, number) = bodies.into_iter().find(|(listed, _)| *listed == operation)?;
        let bodies = fields.parts(number)?;
        let body = *bodies.last()?;
        if body.len == 0 && self.makes(Mistake::EmptyBodyMissing) {
            return None;
        }
        if self.makes(Mistake::UnchosenBodyRead) {
            (2..=6).try_for_each(|other| self.all_good(frame, fields.repeated(other)))?;
        }
        let reason = if self.is_twice(Layer::PrepareStmt, &fields, number) { TWICE } else { 0 };
        let args = match reason {
            TWICE if self.makes(Mistake::TwiceBeforeBad) => Vec::new(),
            _ => self.prepare_body(operation, frame, &bodies)?,
        };
        let args_place = if operation == STMT_EXECUTE { body } else { Place::default() };
        Some(Message { reason, operation, body, args_place, args, ..Message::default() })
    }

    /// Whether each is a good field list by itself.
    pub(super) fn all_good(&self, bytes: &[u8], parts: Vec<Place>) -> Option<()> {
        parts.into_iter().try_for_each(|part| self.fields(bytes, part).map(drop))
    }

    /// A Prepare body's arguments; `None` if the body is bad. Of several ones
    /// each must be good, and what is required is asked of all together.
    pub(super) fn prepare_body(&self, operation: u32, bytes: &[u8], parts: &[Place]) -> Option<Vec<Value>> {
        let layer = if operation == STMT_EXECUTE { Layer::StmtExecute } else { Layer::OtherBody };
        let fields = self.merged(layer, bytes, parts)?;
        if operation != STMT_EXECUTE {
            return Some(Vec::new());
        }
        let text = fields.bytes(1);
        if text.is_none() && !self.makes(Mistake::TextOptional) {
            return None;
        }
        let args = self.arguments(bytes, &fields)?;
        let objects = self.makes(Mistake::PrepareObjectBad) && args.contains(&Value::Object);
        (!objects).then_some(args)
    }

    /// The arguments in field 2: repeated, so each is an Any of its own.
    pub(super) fn arguments(&self, bytes: &[u8], fields: &Fields) -> Option<Vec<Value>> {
        let all = fields.repeated(2);
        if self.makes(Mistake::ArgumentsMerged) && !all.is_empty() {
            return Some(vec![self.any(bytes, &all)?]);
        }
        all.into_iter().map(|part| self.any(bytes, &[part])).collect()
    }

    /// An Execute, by itself or inside an Open.
    fn execute(&self, frame: &[u8], parts: &[Place]) -> Option<Message> {
        let fields = self.merged(Layer::Execute, frame, parts)?;
        Some(Message {
            stmt: fields.uint32(1)?,
            compact_metadata: fields.boolean(3),
            args_place: *parts.last()?,
            args: self.arguments(frame, &fields)?,
            ..Message::default()
        })
    }

    /// Open's stmt: type 0 only, and its Execute.
    fn opened(&self, frame: &[u8], parts: &[Place]) -> Option<Message> {
        let fields = self.merged(Layer::OpenStmt, frame, parts)?;
        fields.listed(1, &[0])?;
        let bodies = fields.parts(2)?;
        let reason = if self.is_twice(Layer::OpenStmt, &fields, 2) { TWICE } else { 0 };
        if reason == TWICE && self.makes(Mistake::TwiceBeforeBad) {
            return Some(Message { reason, ..Message::default() });
        }
        Some(Message { reason, body: *bodies.last()?, ..self.execute(frame, &bodies)? })
    }
}
