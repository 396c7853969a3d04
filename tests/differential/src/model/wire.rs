//! Payload rules: varints, tags, lengths and groups.

use super::parts::Layer;
use super::{Mistake, Model};
use crate::implementation::Place;

pub const VARINT: u8 = 0;
pub const FIXED64: u8 = 1;
pub const BYTES: u8 = 2;
pub const START: u8 = 3;
const END: u8 = 4;
pub const FIXED32: u8 = 5;

const GROUP_DEPTH: u32 = 32;
const LONGEST_VARINT: usize = 10;

/// One field as it stands in a message. Numbers lie in `value`, whatever
/// their width; `place` is where the bytes of a length-delimited one lie.
#[derive(Clone, Copy, Debug)]
pub struct Field {
    pub number: u32,
    pub wire: u8,
    pub value: u64,
    pub place: Place,
    /// Whether its tag, its length or its number was padded; of a group its
    /// start tag alone.
    pub padded: bool,
    /// Which part of its message it stands in, from 0.
    pub part: usize,
}

/// A message split into its fields, in their order.
pub struct Fields {
    pub(super) model: Model,
    pub(super) list: Vec<Field>,
}

impl Model {
    /// Splits a message; `None` if it is not a good field list.
    pub(super) fn fields(&self, bytes: &[u8], part: Place) -> Option<Fields> {
        let mut scan = Scan { model: *self, bytes, at: part.start, end: part.end() };
        let mut list = Vec::new();
        while scan.at < scan.end {
            list.push(scan.field()?);
        }
        Some(Fields { model: *self, list })
    }

    /// Whether the first field of a message was padded, whatever follows it.
    pub(super) fn first_padded(&self, bytes: &[u8], part: Place) -> bool {
        let mut scan = Scan { model: *self, bytes, at: part.start, end: part.end() };
        scan.field().is_some_and(|field| field.padded)
    }
}

/// A number, and whether it was padded.
struct Varint {
    value: u64,
    padded: bool,
}

struct Tag {
    number: u32,
    wire: u8,
    padded: bool,
}

/// A place in a message that moves forward as its parts are read.
struct Scan<'a> {
    model: Model,
    bytes: &'a [u8],
    at: usize,
    end: usize,
}

impl Scan<'_> {
    fn varint(&mut self) -> Option<Varint> {
        let more = usize::from(self.model.makes(Mistake::ElevenByteVarint));
        let (start, mut value) = (self.at, 0);
        for group in 0..LONGEST_VARINT + more {
            let byte = *self.bytes[..self.end].get(self.at)?;
            self.at += 1;
            // In the tenth byte all bits but one fall off the upper end.
            value |= if group < LONGEST_VARINT { u64::from(byte & 0x7f) << (7 * group) } else { 0 };
            if byte < 0x80 {
                let padded = self.model.is_padded(&self.bytes[start..self.at], value);
                return Some(Varint { value, padded });
            }
        }
        None
    }

    fn tag(&mut self) -> Option<Tag> {
        let Varint { value: mut tag, padded } = self.varint()?;
        if self.model.makes(Mistake::WideTag) {
            tag &= 0xffff_ffff;
        }
        let tag = u32::try_from(tag).ok()?;
        let (number, wire) = (tag >> 3, (tag & 7) as u8);
        (number >= 1).then_some(Tag { number, wire, padded })
    }

    fn skip(&mut self, len: u64) -> Option<Place> {
        if len > (self.end - self.at) as u64 {
            return None;
        }
        let place = Place { start: self.at, len: len as usize };
        self.at = place.end();
        Some(place)
    }

    fn field(&mut self) -> Option<Field> {
        let tag = self.tag()?;
        self.value(tag, GROUP_DEPTH)
    }

    /// The value behind a tag; `depth` groups may still be opened.
    fn value(&mut self, tag: Tag, depth: u32) -> Option<Field> {
        let Tag { number, wire, padded } = tag;
        let padded = self.model.counts_tag(wire, padded);
        let mut field = Field { number, wire, value: 0, place: Place::default(), padded, part: 0 };
        match wire {
            VARINT => {
                let Varint { value, padded } = self.varint()?;
                field.padded |= self.model.counts_number(number, value, padded);
                field.value = value;
            }
            FIXED64 => field.value = self.fixed(8)?,
            FIXED32 => field.value = self.fixed(4)?,
            BYTES => {
                let Varint { value: len, padded } = self.varint()?;
                field.padded |= padded && !self.model.makes(Mistake::LengthsNotCounted);
                let wraps = self.model.makes(Mistake::LengthWraps);
                field.place = self.skip(if wraps { len & 0xffff_ffff } else { len })?;
            }
            START => field.padded |= self.group(number, depth)?,
            END if self.model.makes(Mistake::LoneEnd) => {}
            // A lone end, and wire types 6 and 7.
            _ => return None,
        }
        Some(field)
    }

    fn fixed(&mut self, len: u64) -> Option<u64> {
        let place = self.skip(len)?;
        let bytes = place.of(self.bytes);
        Some(bytes.iter().rev().fold(0, |value, byte| value << 8 | u64::from(*byte)))
    }

    /// Skips a group up to the end that carries its number; says whether
    /// something in it counts as padded, which nothing does.
    fn group(&mut self, number: u32, depth: u32) -> Option<bool> {
        let last = match self.model.mistake {
            Some(Mistake::Depth31) => 1,
            Some(Mistake::Depth33) => u32::MAX,
            _ => 0,
        };
        if depth == last {
            return None;
        }
        let mut counts = false;
        loop {
            let tag = self.tag()?;
            if tag.wire == END {
                counts |= tag.padded && self.model.makes(Mistake::GroupEndCounted);
                let same = tag.number == number || self.model.makes(Mistake::AnyGroupEnd);
                return same.then_some(counts);
            }
            // Depth 33 counts on below 0, which only that mistake reaches.
            let inner = self.value(tag, depth.wrapping_sub(1))?;
            counts |= inner.padded && self.model.makes(Mistake::GroupInsideCounted);
        }
    }
}

impl Fields {
    /// Takes the fields of one more part behind those it has.
    pub fn take_part(&mut self, part: usize, fields: Fields) {
        self.list.extend(fields.list.into_iter().map(|field| Field { part, ..field }));
    }

    pub fn of(&self, number: u32, wire: u8) -> impl DoubleEndedIterator<Item = &Field> {
        self.list.iter().filter(move |f| f.number == number && f.wire == wire)
    }

    fn last(&self, number: u32, wire: u8) -> Option<&Field> {
        if self.model.makes(Mistake::OtherWireBad) {
            let other = self.list.iter().any(|f| f.number == number && f.wire != wire);
            return if other { None } else { self.of(number, wire).next_back() };
        }
        if self.model.makes(Mistake::FirstValue) {
            return self.of(number, wire).next();
        }
        self.of(number, wire).next_back()
    }

    /// The last plain number of a field: wire type 0, 1 or 5.
    pub fn number(&self, number: u32, wire: u8) -> Option<u64> {
        self.last(number, wire).map(|f| f.value)
    }

    pub fn uint32(&self, number: u32) -> Option<u32> {
        let value = self.number(number, VARINT)?;
        if self.model.makes(Mistake::WideIdBad) && value >> 32 != 0 {
            return None;
        }
        Some(value as u32)
    }

    pub fn boolean(&self, number: u32) -> Option<bool> {
        let two_false = self.model.makes(Mistake::BoolTwoFalse);
        self.number(number, VARINT).map(|v| if two_false { v == 1 } else { v != 0 })
    }

    /// The last listed value of an enum; others count as unknown fields.
    pub fn listed(&self, number: u32, values: &[u32]) -> Option<u32> {
        let wide = self.model.makes(Mistake::WideEnum);
        let good = |v: u64| values.contains(&(v as u32)) && (!wide || v >> 32 == 0);
        if self.model.makes(Mistake::UnlistedOverwrites) {
            return self.number(number, VARINT).filter(|v| good(*v)).map(|v| v as u32);
        }
        let mut found: Vec<&Field> = self.of(number, VARINT).filter(|f| good(f.value)).collect();
        if self.model.makes(Mistake::FirstPartsType) {
            found.retain({
                let first = found.first().map(|f| f.part);
                move |f| Some(f.part) == first
            });
        }
        found.last().map(|f| f.value as u32)
    }

    /// The last occurrence of a bytes field.
    pub fn bytes(&self, number: u32) -> Option<Place> {
        self.last(number, BYTES).map(|f| f.place)
    }

    /// Every occurrence of a repeated embedded message.
    pub fn repeated(&self, number: u32) -> Vec<Place> {
        self.of(number, BYTES).map(|f| f.place).collect()
    }

    /// The parts of an embedded message, in their order, if there is one.
    pub fn parts(&self, number: u32) -> Option<Vec<Place>> {
        Some(self.repeated(number)).filter(|parts| !parts.is_empty())
    }

    /// The parts of a Scalar's octets or string, over all parts of the Scalar.
    pub fn parts_over_all(&self, number: u32) -> Option<Vec<Place>> {
        if self.model.makes(Mistake::BytesOfLastScalar) {
            let last = self.of(number, BYTES).next_back()?.part;
            return Some(self.of(number, BYTES).filter(|f| f.part == last).map(|f| f.place).collect());
        }
        self.parts(number)
    }

    /// Whether the required field 1 of a layer is there.
    pub fn has_required(&self, layer: Layer) -> bool {
        layer.required().is_none_or(|wire| self.of(1, wire).next().is_some())
    }

    /// Whether every field is this number with bytes.
    pub fn only(&self, number: u32) -> bool {
        self.list.iter().all(|f| f.number == number && f.wire == BYTES)
    }
}

/// The bytes of a number as the shortest varint, as the writer has them.
pub fn writers_bytes(value: u64) -> impl Iterator<Item = u8> {
    let rests = std::iter::successors(Some(value), |rest| (*rest >= 0x80).then_some(rest >> 7));
    rests.map(|rest| if rest >= 0x80 { rest as u8 | 0x80 } else { rest as u8 })
}

/// Writes a number as the shortest varint.
pub fn shortest(value: u64, out: &mut Vec<u8>) {
    out.extend(writers_bytes(value));
}
