//! Item 2 of document 02: which varints of a frame were padded, and who is told.

use super::parts::Layer;
use super::read::{frame_length, BODIES, STMT_EXECUTE, TWICE};
use super::scalar::{BOOL, OCTETS, SINT, STRING, UINT};
use super::wire::{writers_bytes, Field, Fields, BYTES, START, VARINT};
use super::{Mistake, Model};
use crate::implementation::*;

impl Model {
    /// A varint is padded if its bytes are not those the writer has for it.
    pub(super) fn is_padded(&self, bytes: &[u8], value: u64) -> bool {
        match self.mistake {
            Some(Mistake::PaddedByLength) => bytes.len() > writers_bytes(value).count(),
            Some(Mistake::PaddedByLastByte) => bytes.len() > 1 && bytes.ends_with(&[0]),
            _ => writers_bytes(value).ne(bytes.iter().copied()),
        }
    }

    /// Tags count, a group's start among them.
    pub(super) fn counts_tag(&self, wire: u8, padded: bool) -> bool {
        padded
            && match self.mistake {
                Some(Mistake::TagsNotCounted) => false,
                Some(Mistake::GroupStartNotCounted) => wire != START,
                _ => true,
            }
    }

    /// A number is padded or not as the 64 bits that were sent, whatever is
    /// kept of them. Field 1 is an id or an enum where it is a number, and a
    /// Scalar's field 8 a bool.
    pub(super) fn counts_number(&self, number: u32, value: u64, padded: bool) -> bool {
        match self.mistake {
            Some(Mistake::NumbersNotCounted) => false,
            Some(Mistake::WideIsPadded) => padded || number == 1 && value >> 32 != 0,
            Some(Mistake::BoolTwoIsPadded) => padded || number == 8 && value > 1,
            _ => padded,
        }
    }

    /// Whether a varint that counts was padded; a refused frame has none.
    pub(super) fn padded_in(&self, frame: &[u8], message: &Message) -> bool {
        let Ok(whole) = frame_length(frame) else {
            return false;
        };
        let payload = Place { start: 5, len: whole - 5 };
        match message.reason {
            TWICE if self.makes(Mistake::TwiceSaysNo) => false,
            0 | TWICE => {
                let mut read = Read::of(*self, frame);
                // In a good frame each list that is read is good.
                let _ = read.message(payload, message.kind);
                read.padded
            }
            6 => self.makes(Mistake::BadPayloadSaysYes) && self.first_padded(frame, payload),
            _ => false,
        }
    }

    /// Which of `Layer::IN_PARTS` are in several parts, as far as the frame is
    /// good, Prepare bodies included.
    pub fn layers_in_parts(&self, frame: &[u8]) -> [bool; Layer::IN_PARTS.len()] {
        let mut read = Read { into_bodies: true, ..Read::of(*self, frame) };
        if let Ok(whole) = frame_length(frame) {
            let payload = Place { start: 5, len: whole - 5 };
            // A bad frame is gone through up to the first bad list.
            let _ = read.message(payload, frame[4]);
        }
        read.in_parts
    }

    /// What a look or a step says: no where it refuses 1 to 6.
    pub(super) fn says_padded(&self, reason: u8, message: &Message) -> bool {
        let says_no = match self.mistake {
            Some(Mistake::ClosedSaysYes) => matches!(reason, 1..=3 | 5..=6),
            Some(Mistake::BadPayloadSaysYes) => matches!(reason, 1..=5),
            Some(Mistake::RefusedSaysNo) => reason != 0,
            Some(Mistake::ReportRefusedSaysNo) => matches!(reason, 1..=6 | 15 | 16),
            _ => matches!(reason, 1..=6),
        };
        message.padded && !says_no
    }
}

impl Fields {
    /// Whether a field was padded.
    fn padded(&self, layer: Layer) -> bool {
        self.list.iter().enumerate().any(|(at, field)| field.padded && self.counts(layer, at))
    }

    /// Every field counts, known or not, in every part, and each time that it
    /// occurs.
    fn counts(&self, layer: Layer, at: usize) -> bool {
        let Field { number, wire, part, .. } = self.list[at];
        let last = self.list.last().is_some_and(|f| f.part == part);
        match self.model.mistake {
            Some(Mistake::EarlierPartNotCounted) if !layer.is_body() => last,
            // No layout has a number above 9.
            Some(Mistake::UnknownNotCounted) => number <= 9,
            // Field 2 may be a repeated one, arguments, of which none is earlier.
            Some(Mistake::EarlierNotCounted) if (number, wire) != (2, BYTES) => {
                self.list[at + 1..].iter().all(|later| (later.number, later.wire) != (number, wire))
            }
            _ => true,
        }
    }

    /// Whether a Scalar's field was padded, but for the numbers that its type
    /// does not choose.
    fn padded_and_chosen(&self, kind: u8) -> bool {
        let chosen = |f: &Field| match (f.wire, f.number) {
            (VARINT, 2) => kind == SINT,
            (VARINT, 3) => kind == UINT,
            (VARINT, 8) => kind == BOOL,
            _ => true,
        };
        self.list.iter().any(|field| field.padded && chosen(field))
    }
}

/// The field lists of a frame that are read, one after the other. The fields
/// of each count, and nothing else does.
struct Read<'a> {
    model: Model,
    frame: &'a [u8],
    padded: bool,
    /// Whether Prepare bodies are gone into, which count for nothing here.
    into_bodies: bool,
    in_parts: [bool; Layer::IN_PARTS.len()],
}

impl Read<'_> {
    fn of(model: Model, frame: &[u8]) -> Read<'_> {
        let in_parts = [false; Layer::IN_PARTS.len()];
        Read { model, frame, padded: false, into_bodies: false, in_parts }
    }

    /// The fields of all parts of a message.
    fn list(&mut self, layer: Layer, parts: &[Place]) -> Option<Fields> {
        if let Some(at) = Layer::IN_PARTS.iter().position(|one| *one == layer) {
            self.in_parts[at] |= parts.len() > 1;
        }
        let fields = self.model.merged(layer, self.frame, parts)?;
        self.padded |= fields.padded(layer);
        Some(fields)
    }

    /// A list whose own fields the mistake forgets.
    fn list_unless(&mut self, forgotten: Mistake, layer: Layer, parts: &[Place]) -> Option<Fields> {
        let before = self.padded;
        let fields = self.list(layer, parts)?;
        if self.model.makes(forgotten) {
            self.padded = before;
        }
        Some(fields)
    }

    /// Parts whose inside does not count; the mistake counts it. They need not
    /// be field lists.
    fn skipped(&mut self, counted: Mistake, parts: Vec<Place>) {
        if self.model.makes(counted) {
            parts.into_iter().for_each(|part| drop(self.list(Layer::Whole, &[part])));
        }
    }

    fn message(&mut self, payload: Place, kind: u8) -> Option<()> {
        let fields = self.list(Layer::Whole, &[payload])?;
        match kind {
            PREPARE => self.prepare(&fields),
            EXECUTE => self.arguments(&fields),
            CURSOR_OPEN => {
                let parts = fields.parts(4)?;
                let stmt = self.list_unless(Mistake::StatementNotCounted, Layer::OpenStmt, &parts)?;
                let mut parts = stmt.parts(2)?;
                if self.model.makes(Mistake::FirstExecuteNotCounted) {
                    parts.drain(..parts.len() - 1);
                }
                let execute = self.list_unless(Mistake::OpenExecuteNotCounted, Layer::Execute, &parts)?;
                self.arguments(&execute)
            }
            _ => Some(()),
        }
    }

    /// The statement's fields, and nothing inside its bodies.
    fn prepare(&mut self, fields: &Fields) -> Option<()> {
        let parts = fields.parts(2)?;
        let stmt = self.list_unless(Mistake::StatementNotCounted, Layer::PrepareStmt, &parts)?;
        let operation = stmt.listed(1, &BODIES.map(|(operation, _)| operation))?;
        for (chooses, number) in BODIES {
            let bodies = stmt.repeated(number);
            let counted = match bodies.len() {
                _ if chooses != operation => Mistake::UnchosenBodyCounted,
                2.. if self.model.makes(Mistake::TwiceBodiesCounted) => Mistake::TwiceBodiesCounted,
                _ => Mistake::BodyInsideCounted,
            };
            if chooses == operation {
                self.body(operation, &bodies);
            }
            self.skipped(counted, bodies);
        }
        Some(())
    }

    /// The chosen body, whose inside counts by mistake only.
    fn body(&mut self, operation: u32, parts: &[Place]) -> Option<()> {
        let counts = self.model.makes(Mistake::BodyArgumentsCounted);
        let before = self.padded;
        if self.into_bodies || counts {
            let execute = operation == STMT_EXECUTE;
            let layer = if execute { Layer::StmtExecute } else { Layer::OtherBody };
            let list = self.list(layer, parts)?;
            self.padded = before;
            if execute {
                self.arguments(&list)?;
            }
        }
        self.padded = before || self.padded && counts;
        Some(())
    }

    fn arguments(&mut self, holder: &Fields) -> Option<()> {
        if self.model.makes(Mistake::ArgumentsNotCounted) {
            return Some(());
        }
        holder.repeated(2).into_iter().try_for_each(|part| self.any(part))
    }

    fn any(&mut self, part: Place) -> Option<()> {
        let any = self.list(Layer::Whole, &[part])?;
        if any.listed(1, &[1, 2, 3])? == 1 {
            return self.scalar(&any.parts(2)?);
        }
        self.skipped(Mistake::UnchosenValueCounted, any.repeated(2));
        Some(())
    }

    fn scalar(&mut self, parts: &[Place]) -> Option<()> {
        let before = self.padded;
        let scalar = self.list_unless(Mistake::ScalarNotCounted, Layer::Scalar, parts)?;
        let kind = scalar.listed(1, &[1, 2, 3, 4, 5, 6, 7, 8])? as u8;
        if self.model.makes(Mistake::UnchosenNumberNotCounted) {
            self.padded = before || scalar.padded_and_chosen(kind);
        }
        for (chooses, number, layer) in [(OCTETS, 5, Layer::Octets), (STRING, 9, Layer::Text)] {
            if kind == chooses {
                let parts = scalar.parts_over_all(number)?;
                self.list_unless(Mistake::OctetsNotCounted, layer, &parts)?;
            } else {
                self.skipped(Mistake::UnchosenValueCounted, scalar.repeated(number));
            }
        }
        Some(())
    }
}
