//! The writer of the eight client messages.

use super::scalar::{nested, plain};
use super::{Mistake, Model};
use crate::implementation::*;

impl Model {
    pub(super) fn write_message(&self, draft: &Draft, body: &[u8], args: &[u8], out: &mut [u8]) -> Written {
        let Some(payload) = self.encode(draft, body, args) else {
            return Written { reason: 6, length: 0 };
        };
        let length = 1 + payload.len();
        let most = if self.makes(Mistake::LimitRefused) { LONGEST - 1 } else { LONGEST };
        let small = out.len() < 4 + length;
        if small && self.makes(Mistake::RoomBeforeLimit) {
            return Written { reason: 3, length: 0 };
        }
        if length > most {
            return Written { reason: 2, length: 0 };
        }
        if small {
            return Written { reason: 3, length: 0 };
        }
        out[..4].copy_from_slice(&(length as u32).to_le_bytes());
        out[4] = draft.kind;
        out[5..4 + length].copy_from_slice(&payload);
        Written { reason: 0, length: 4 + length }
    }

    /// The payload, or `None` for what is refused 6.
    fn encode(&self, draft: &Draft, body: &[u8], args: &[u8]) -> Option<Vec<u8>> {
        let mut payload = Vec::new();
        match draft.kind {
            SESS_RESET | SESS_CLOSE => {}
            PREPARE => {
                self.put_id(draft.stmt, &mut payload);
                nested(2, &self.encode_prepared(draft, body)?, &mut payload);
            }
            EXECUTE => payload = self.encode_execute(draft, args)?,
            DEALLOCATE => self.put_id(draft.stmt, &mut payload),
            CURSOR_OPEN => {
                self.put_id(draft.cursor, &mut payload);
                let mut stmt = vec![0x08, 0];
                nested(2, &self.encode_execute(draft, args)?, &mut stmt);
                nested(4, &stmt, &mut payload);
                rows(5, draft, &mut payload);
            }
            CURSOR_FETCH => {
                self.put_id(draft.cursor, &mut payload);
                rows(2, draft, &mut payload);
            }
            CURSOR_CLOSE => self.put_id(draft.cursor, &mut payload),
            _ => return None,
        }
        Some(payload)
    }

    /// Field 1, an id, in every message that has one.
    fn put_id(&self, id: u32, out: &mut Vec<u8>) {
        let signed = self.makes(Mistake::IdWrittenSigned);
        plain(1, if signed { id as i32 as u64 } else { u64::from(id) }, out);
    }

    /// Prepare's stmt around a body handed in encoded.
    fn encode_prepared(&self, draft: &Draft, body: &[u8]) -> Option<Vec<u8>> {
        let number = match draft.operation {
            0..=2 => u64::from(draft.operation) + 2,
            4 | 5 => u64::from(draft.operation) + 1,
            _ => return None,
        };
        self.prepare_body(draft.operation, body, &[Place { start: 0, len: body.len() }])?;
        let mut stmt = Vec::new();
        plain(1, u64::from(draft.operation), &mut stmt);
        nested(number, body, &mut stmt);
        Some(stmt)
    }

    fn encode_execute(&self, draft: &Draft, args: &[u8]) -> Option<Vec<u8>> {
        self.check_stretch(args)?;
        let mut out = Vec::new();
        self.put_id(draft.stmt, &mut out);
        out.extend(args);
        if draft.has_compact || self.makes(Mistake::WritesAbsent) {
            plain(3, u64::from(draft.has_compact && draft.compact), &mut out);
        }
        Some(out)
    }

    /// A stretch is args fields with good contents and nothing else.
    fn check_stretch(&self, args: &[u8]) -> Option<()> {
        let fields = self.fields(args, Place { start: 0, len: args.len() })?;
        if !fields.only(2) && !self.makes(Mistake::LooseStretch) {
            return None;
        }
        self.arguments(args, &fields).map(drop)
    }
}

/// fetch_rows, left out if absent.
fn rows(number: u64, draft: &Draft, out: &mut Vec<u8>) {
    if draft.has_rows {
        plain(number, draft.rows, out);
    }
}
