//! Arguments: Any, Scalar, octets and strings, read and written.

use super::parts::Layer;
use super::wire::{shortest, FIXED32, FIXED64, VARINT};
use super::{Mistake, Model};
use crate::implementation::{Place, Scalar, Value, Written};

pub const SINT: u8 = 1;
pub const UINT: u8 = 2;
pub const NULL: u8 = 3;
pub const OCTETS: u8 = 4;
pub const DOUBLE: u8 = 5;
pub const FLOAT: u8 = 6;
pub const BOOL: u8 = 7;
pub const STRING: u8 = 8;

impl Model {
    /// One Any.
    pub(super) fn any(&self, bytes: &[u8], parts: &[Place]) -> Option<Value> {
        let any = self.merged(Layer::Whole, bytes, parts)?;
        let kind = any.listed(1, &[1, 2, 3])?;
        if self.makes(Mistake::UnchosenScalarRead) {
            any.parts(2).map_or(Some(Value::Null), |parts| self.scalar(bytes, &parts))?;
        }
        match kind {
            1 => self.scalar(bytes, &any.parts(2)?),
            2 => Some(Value::Object),
            _ => Some(Value::Array),
        }
    }

    fn scalar(&self, bytes: &[u8], parts: &[Place]) -> Option<Value> {
        let scalar = self.merged(Layer::Scalar, bytes, parts)?;
        let kind = scalar.listed(1, &[1, 2, 3, 4, 5, 6, 7, 8])? as u8;
        if self.makes(Mistake::UnchosenBytesRead) {
            [5, 9].into_iter().try_for_each(|number| self.all_good(bytes, scalar.repeated(number)))?;
        }
        match kind {
            SINT => scalar.number(2, VARINT).map(|v| Value::Sint(self.unzigzag(v))),
            UINT => scalar.number(3, VARINT).map(Value::Uint),
            NULL => Some(Value::Null),
            OCTETS => self.held(Layer::Octets, bytes, &scalar.parts_over_all(5)?).map(Value::Octets),
            DOUBLE => scalar.number(6, FIXED64).map(Value::Double),
            FLOAT => scalar.number(7, FIXED32).map(|v| Value::Float(self.float(v as u32))),
            BOOL => scalar.boolean(8).map(Value::Bool),
            _ => self.held(Layer::Text, bytes, &scalar.parts_over_all(9)?).map(Value::Text),
        }
    }

    /// The required bytes an octets or string message holds in field 1: the
    /// last one over all parts.
    fn held(&self, layer: Layer, bytes: &[u8], parts: &[Place]) -> Option<Place> {
        let mut place = self.merged(layer, bytes, parts)?.bytes(1);
        if self.makes(Mistake::OctetsOptional) {
            place = place.or(parts.last().map(|part| Place { len: 0, ..*part }));
        }
        if self.makes(Mistake::PlaceInPayload) {
            place = place.map(|p| Place { start: p.start.saturating_sub(5), ..p });
        }
        place
    }

    fn unzigzag(&self, v: u64) -> i64 {
        if self.makes(Mistake::ZigzagDivides) {
            let half = (v as i64).wrapping_add((v & 1) as i64) / 2;
            return if v & 1 == 0 { half } else { -half };
        }
        // An odd number 2n - 1 stands for -n, and `!` of n - 1 is -n.
        let half = (v >> 1) as i64;
        if v & 1 == 0 {
            half
        } else {
            !half
        }
    }

    fn float(&self, bits: u32) -> u32 {
        let nan = f32::from_bits(bits).is_nan();
        if nan && self.makes(Mistake::NanQuieted) {
            bits | 0x0040_0000
        } else {
            bits
        }
    }

    /// Writes one args field behind the first `at` bytes of the buffer.
    pub(super) fn append_scalar(&self, buffer: &mut [u8], at: usize, scalar: &Scalar) -> Written {
        let Some(field) = args_field(scalar) else {
            return Written { reason: 6, length: 0 };
        };
        let refuse_full = self.makes(Mistake::FullStretchRefused);
        // `at` may lie past the end, or so high that adding would wrap.
        let room = buffer.len().checked_sub(at);
        if !room.is_some_and(|r| field.len() < r || field.len() == r && !refuse_full) {
            return Written { reason: 3, length: 0 };
        }
        buffer[at..at + field.len()].copy_from_slice(&field);
        Written { reason: 0, length: at + field.len() }
    }
}

/// Field 2 holding an Any of type 1 with the scalar; `None` for an unknown
/// scalar type.
fn args_field(scalar: &Scalar) -> Option<Vec<u8>> {
    let inner = scalar_bytes(scalar)?;
    let mut any = vec![0x08, 1];
    nested(2, &inner, &mut any);
    let mut field = Vec::new();
    nested(2, &any, &mut field);
    Some(field)
}

fn scalar_bytes(scalar: &Scalar) -> Option<Vec<u8>> {
    let mut out = vec![0x08, scalar.kind];
    match scalar.kind {
        SINT => plain(2, zigzag(scalar.bits as i64), &mut out),
        UINT => plain(3, scalar.bits, &mut out),
        NULL => {}
        OCTETS => nested(5, &holding(&scalar.bytes), &mut out),
        DOUBLE => {
            out.push(6 << 3 | FIXED64);
            out.extend(scalar.bits.to_le_bytes());
        }
        FLOAT => {
            out.push(7 << 3 | FIXED32);
            out.extend((scalar.bits as u32).to_le_bytes());
        }
        BOOL => plain(8, u64::from(scalar.bits != 0), &mut out),
        STRING => nested(9, &holding(&scalar.bytes), &mut out),
        _ => return None,
    }
    Some(out)
}

fn zigzag(n: i64) -> u64 {
    if n < 0 {
        !((n as u64) << 1)
    } else {
        (n as u64) << 1
    }
}

fn holding(bytes: &[u8]) -> Vec<u8> {
    let mut out = Vec::new();
    nested(1, bytes, &mut out);
    out
}

/// A varint field.
pub fn plain(number: u64, value: u64, out: &mut Vec<u8>) {
    shortest(number << 3, out);
    shortest(value, out);
}

/// A length-delimited field.
pub fn nested(number: u64, bytes: &[u8], out: &mut Vec<u8>) {
    shortest(number << 3 | 2, out);
    shortest(bytes.len() as u64, out);
    out.extend(bytes);
}
