//! Item 3 of document 02: an embedded message that occurs several times is
//! merged, and a body that does is refused 17.

use super::wire::{Fields, BYTES, VARINT};
use super::{Mistake, Model};
use crate::implementation::Place;

/// What a field list is, so that one layer can be told from another.
#[derive(Clone, Copy, Debug, PartialEq, Eq)]
pub enum Layer {
    /// A payload, or an argument: never in parts.
    Whole,
    PrepareStmt,
    OpenStmt,
    Scalar,
    Octets,
    Text,
    /// The bodies: more than one is refused 17, once all are read.
    StmtExecute,
    Execute,
    OtherBody,
}

use Layer::*;

impl Layer {
    /// Those that can be in parts, in the order of their declaration.
    pub const IN_PARTS: [Layer; 8] =
        [PrepareStmt, OpenStmt, Scalar, Octets, Text, StmtExecute, Execute, OtherBody];

    pub fn is_body(self) -> bool {
        matches!(self, StmtExecute | Execute | OtherBody)
    }

    /// The wire type of field 1 where that is required.
    pub fn required(self) -> Option<u8> {
        match self {
            PrepareStmt | OpenStmt | Scalar | Execute => Some(VARINT),
            Octets | Text | StmtExecute => Some(BYTES),
            Whole | OtherBody => None,
        }
    }
}

impl Model {
    /// The fields of all parts in their order, as those of one message; `None`
    /// if a part is not a good field list by itself.
    pub(super) fn merged(&self, layer: Layer, bytes: &[u8], parts: &[Place]) -> Option<Fields> {
        let parts = self.parts_read(layer, parts);
        let mut merged = Fields { model: *self, list: Vec::new() };
        for (part, place) in parts.iter().enumerate() {
            let Some(fields) = self.fields(bytes, *place) else {
                let earlier = part + 1 < parts.len() && !layer.is_body();
                match self.mistake {
                    Some(Mistake::BadEarlierPart) if earlier => continue,
                    Some(Mistake::PartsJoined) => return self.joined(bytes, parts),
                    _ => return None,
                }
            };
            if self.requires_of_each(layer) && !fields.has_required(layer) {
                return None;
            }
            merged.take_part(part, fields);
        }
        Some(merged)
    }

    /// All parts are read; the mistakes leave some out.
    fn parts_read<'p>(&self, layer: Layer, parts: &'p [Place]) -> &'p [Place] {
        let last = &parts[parts.len().saturating_sub(1)..];
        match (self.mistake, layer) {
            (Some(Mistake::FirstPartAlone), _) if !layer.is_body() => &parts[..1],
            (Some(Mistake::LastStatementPart), PrepareStmt | OpenStmt) => last,
            (Some(Mistake::LastScalarPart), Scalar) => last,
            (Some(Mistake::LastBytesPart), Octets | Text) => last,
            (Some(Mistake::TwiceAccepted | Mistake::TwiceLastJudged), _) if layer.is_body() => last,
            _ => parts,
        }
    }

    /// What is required is asked of the whole; the mistakes ask each part.
    fn requires_of_each(&self, layer: Layer) -> bool {
        match self.mistake {
            Some(Mistake::RequiredOfEachPart) => !layer.is_body(),
            Some(Mistake::TwiceRequiredOfEach) => layer.is_body(),
            _ => false,
        }
    }

    /// The mistake that reads the bytes of all parts as those of one.
    fn joined(&self, bytes: &[u8], parts: &[Place]) -> Option<Fields> {
        let all = parts.iter().flat_map(|part| part.of(bytes)).copied().collect::<Vec<u8>>();
        let mut fields = self.fields(&all, Place { start: 0, len: all.len() })?;
        for place in fields.list.iter_mut().map(|field| &mut field.place) {
            let mut parts = parts.iter();
            while let Some(part) = parts.next() {
                if place.start <= part.len || parts.len() == 0 {
                    place.start += part.start;
                    break;
                }
                place.start -= part.len;
            }
        }
        Some(fields)
    }

    /// Whether the chosen body stands more than once in a statement, wherever
    /// its parts are.
    pub(super) fn is_twice(&self, layer: Layer, stmt: &Fields, chosen: u32) -> bool {
        let last_body = if layer == PrepareStmt { 6 } else { 2 };
        let counted = |wire: u8, number: u32| match self.mistake {
            Some(Mistake::TwiceOfAnyBody) => wire == BYTES && (2..=last_body).contains(&number),
            Some(Mistake::TwiceOfAnyWire) => number == chosen,
            _ => wire == BYTES && number == chosen,
        };
        let found: Vec<_> = stmt.list.iter().filter(|f| counted(f.wire, f.number)).collect();
        let last = stmt.list.last().map_or(0, |f| f.part);
        match self.mistake {
            Some(Mistake::TwiceAccepted | Mistake::TwiceMerged) => false,
            Some(Mistake::TwiceInLastPart) => found.iter().filter(|f| f.part == last).count() > 1,
            Some(Mistake::TwiceInOnePart) => found.windows(2).any(|pair| pair[0].part == pair[1].part),
            Some(Mistake::TwiceWithBytes) => found.iter().filter(|f| f.place.len > 0).count() > 1,
            _ => found.len() > 1,
        }
    }
}
