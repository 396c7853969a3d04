//! Arguments: read from a frame, and written into a stretch of args fields.

use crate::ffi;
use crate::refusal::{accepted, Refusal};

/// One argument. Octets and strings are bytes of the frame; strings are not checked as text.
///
/// A double and a float keep every bit, those of a NaN too: `to_bits` gives them.
#[derive(Debug, Clone, Copy, PartialEq)]
pub enum Argument<'f> {
    /// A signed number.
    Signed(i64),
    /// An unsigned number.
    Unsigned(u64),
    /// Null.
    Null,
    /// Octets.
    Octets(&'f [u8]),
    /// A double.
    Double(f64),
    /// A float.
    Float(f32),
    /// A bool.
    Bool(bool),
    /// A string.
    String(&'f [u8]),
}

impl<'f> Argument<'f> {
    pub(crate) fn from_raw(frame: &'f [u8], v: ffi::Value) -> Result<Argument<'f>, Refusal> {
        accepted(v.reason)?;
        let bytes = || &frame[v.start..][..v.len];
        Ok(match v.kind {
            1 => Argument::Signed(v.value as i64),
            2 => Argument::Unsigned(v.value),
            3 => Argument::Null,
            4 => Argument::Octets(bytes()),
            5 => Argument::Double(f64::from_bits(v.value)),
            6 => Argument::Float(f32::from_bits(v.value as u32)),
            7 => Argument::Bool(v.value != 0),
            8 => Argument::String(bytes()),
            other => unreachable!("the library's scalar types are 1 to 8, not {other}"),
        })
    }

    fn raw(self) -> (ffi::Scalar, &'f [u8]) {
        let (kind, value, bytes): (u64, u64, &[u8]) = match self {
            Argument::Signed(v) => (1, v as u64, &[]),
            Argument::Unsigned(v) => (2, v, &[]),
            Argument::Null => (3, 0, &[]),
            Argument::Octets(b) => (4, 0, b),
            Argument::Double(v) => (5, v.to_bits(), &[]),
            Argument::Float(v) => (6, u64::from(v.to_bits()), &[]),
            Argument::Bool(v) => (7, u64::from(v), &[]),
            Argument::String(b) => (8, 0, b),
        };
        (ffi::Scalar { kind, value }, bytes)
    }
}

/// The arguments of a message, one after the other.
#[derive(Debug, Clone)]
pub struct Arguments<'f> {
    bytes: &'f [u8],
    at: usize,
}

impl<'f> Arguments<'f> {
    /// `bytes` end with the message that holds the arguments, which starts at `at`.
    pub(crate) fn new(bytes: &'f [u8], at: usize) -> Arguments<'f> {
        Arguments { bytes, at }
    }
}

impl<'f> Iterator for Arguments<'f> {
    type Item = Result<Argument<'f>, Refusal>;

    fn next(&mut self) -> Option<Self::Item> {
        if self.at >= self.bytes.len() {
            return None;
        }
        // SAFETY: the pointer and the length are those of a slice.
        let v = unsafe { ffi::karramotx_next_argument(self.bytes.as_ptr(), self.bytes.len(), self.at) };
        if v.reason == Refusal::FewArguments.number() {
            self.at = self.bytes.len();
            return None;
        }
        self.at = v.next;
        Some(Argument::from_raw(self.bytes, v))
    }
}

/// The args fields of an Execute or an Open, built argument by argument.
///
/// ```
/// use karramotx::{Argument, Args};
///
/// let mut args = Args::new();
/// args.push(Argument::Signed(-1)).push(Argument::String(b"LFBO"));
/// assert_eq!(args.as_bytes()[..2], [0x12, 0x08]);
/// ```
#[derive(Debug, Clone, Default, PartialEq, Eq)]
pub struct Args(Vec<u8>);

/// An args field is longer than its value's bytes by no more than this: seven tags, two types, five
/// lengths of up to ten bytes.
const AROUND: usize = 64;

impl Args {
    /// No arguments.
    pub fn new() -> Args {
        Args::default()
    }

    /// One argument more.
    pub fn push(&mut self, argument: Argument<'_>) -> &mut Args {
        let (scalar, bytes) = argument.raw();
        let at = self.0.len();
        self.0.resize(at + bytes.len() + AROUND, 0);
        // SAFETY: pointers and lengths are those of slices, and the buffer is borrowed uniquely.
        let sent = unsafe {
            ffi::karramotx_append(scalar, bytes.as_ptr(), bytes.len(), self.0.as_mut_ptr(), self.0.len(), at)
        };
        accepted(sent.reason).expect("a scalar with room enough is written");
        self.0.truncate(sent.len);
        self
    }

    /// The encoded fields.
    pub fn as_bytes(&self) -> &[u8] {
        &self.0
    }
}

impl<'a> FromIterator<Argument<'a>> for Args {
    fn from_iter<I: IntoIterator<Item = Argument<'a>>>(arguments: I) -> Args {
        let mut args = Args::new();
        for argument in arguments {
            args.push(argument);
        }
        args
    }
}
