//! Where a message in parts can stand, each with a small frame around it.

use super::frames::framed;
use crate::implementation::*;

/// What stands ahead of the parts in their message, the tag of each, and the
/// frame around that message.
#[derive(Clone, Copy)]
pub struct Around {
    ahead: &'static [u8],
    tag: u8,
    frame: fn(Vec<u8>) -> Vec<u8>,
}

impl Around {
    const fn new(ahead: &'static [u8], tag: u8, frame: fn(Vec<u8>) -> Vec<u8>) -> Around {
        Around { ahead, tag, frame }
    }

    /// The frame with these parts.
    pub fn of<P: AsRef<[u8]>>(&self, parts: &[P]) -> Vec<u8> {
        let ahead = self.ahead.to_vec();
        (self.frame)(parts.iter().fold(ahead, |fields, part| within(&fields, self.tag, part.as_ref())))
    }
}

pub const PREPARE_STMT: Around = Around::new(&[8, 1], 0x12, prepare);
pub const OPEN_STMT: Around = Around::new(&[8, 1], 0x22, open);
/// The Scalar of an Execute's one argument, which is a scalar.
pub const SCALAR: Around = Around::new(&[8, 1], 0x12, execute_of);
/// Octets in an Open, a string in the body of a Prepare, octets beside a null.
pub const OCTETS: Around = Around::new(&[8, 4], 0x2a, open_with);
pub const STRING: Around = Around::new(&[8, 8], 0x4a, prepare_with);
pub const BESIDE_NULL: Around = Around::new(&[8, 3], 0x2a, open_with);
/// The bodies of a Prepare of type 5 and of type 0, and an Open's Execute.
pub const STMT_EXECUTE: Around = Around::new(&[8, 5], 0x32, prepare_of);
pub const FIND: Around = Around::new(&[8, 0], 0x12, prepare_of);
pub const OPEN_EXECUTE: Around = Around::new(&[8, 0], 0x12, open_of);

/// One length byte does: all stays below 128 bytes.
fn within(ahead: &[u8], tag: u8, inner: &[u8]) -> Vec<u8> {
    [ahead, &[tag, inner.len() as u8], inner].concat()
}

pub fn prepare(payload: Vec<u8>) -> Vec<u8> {
    framed(PREPARE, &payload)
}

fn prepare_of(stmt: Vec<u8>) -> Vec<u8> {
    prepare(within(&[8, 1], 0x12, &stmt))
}

pub fn open(payload: Vec<u8>) -> Vec<u8> {
    framed(CURSOR_OPEN, &payload)
}

fn open_of(stmt: Vec<u8>) -> Vec<u8> {
    open(within(&[8, 1], 0x22, &stmt))
}

fn execute_of(any: Vec<u8>) -> Vec<u8> {
    framed(EXECUTE, &within(&[8, 1], 0x12, &any))
}

/// A Scalar as the argument of an Open.
fn open_with(scalar: Vec<u8>) -> Vec<u8> {
    let execute = within(&[8, 1], 0x12, &within(&[8, 1], 0x12, &scalar));
    open_of(within(&[8, 0], 0x12, &execute))
}

/// A Scalar as an argument in the body of a Prepare.
fn prepare_with(scalar: Vec<u8>) -> Vec<u8> {
    let body = within(&[10, 1, 83], 0x12, &within(&[8, 1], 0x12, &scalar));
    prepare_of(within(&[8, 5], 0x32, &body))
}
