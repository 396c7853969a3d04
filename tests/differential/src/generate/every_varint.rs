//! A frame of each kind with all that is read and all that is skipped, and of
//! it every varint padded in turn, in every form.

use super::encode::{Encoder, Noise};
use super::frames::framed;
use super::padding::{Form, Padding, FORMS};
use super::random::Random;
use crate::implementation::*;

/// An id of 1 that takes ten bytes: its upper bits are dropped.
const WIDE_ID: u64 = u64::MAX << 32 | 1;

pub fn every_varint() -> Vec<Vec<u8>> {
    let accepted = KINDS.into_iter().flat_map(|kind| of_kind(kind, false));
    accepted.chain([PREPARE, CURSOR_OPEN].into_iter().flat_map(|kind| of_kind(kind, true))).collect()
}

/// The frames of a kind, the plain one first; `twice` for those with two bodies.
fn of_kind(kind: u8, twice: bool) -> Vec<Vec<u8>> {
    let (plain, varints) = written(kind, twice, usize::MAX, FORMS[0]);
    let padded = FORMS.into_iter().flat_map(|form| (0..varints).map(move |nth| (nth, form)));
    [plain].into_iter().chain(padded.map(|(nth, form)| written(kind, twice, nth, form).0)).collect()
}

/// A frame with its `nth` varint in this form, and how many it has.
fn written(kind: u8, twice: bool, nth: usize, form: Form) -> (Vec<u8>, usize) {
    // Nothing is left to chance here: any seed will do.
    let mut random = Random::new(0);
    let noise = Noise { pad: Padding::Nth(nth, form), ..Noise::default() };
    let mut encoder = Encoder::new(&mut random, noise);
    let payload = payload(&mut encoder, kind, twice);
    (framed(kind, &payload), encoder.varints)
}

fn payload(e: &mut Encoder, kind: u8, twice: bool) -> Vec<u8> {
    match kind {
        PREPARE => prepare(e, twice),
        EXECUTE => {
            let args = [octets(e), unsigned(e), boolean(e)];
            execute(e, &args)
        }
        CURSOR_OPEN => open(e, twice),
        SESS_RESET | SESS_CLOSE => list(e, Vec::new()),
        _ => {
            let fields = vec![e.number(1, WIDE_ID), e.number(1, 1), e.number(2, 1)];
            list(e, fields)
        }
    }
}

/// Fields with unknown ones behind them: a number, bytes, a group.
fn list(e: &mut Encoder, mut fields: Vec<Vec<u8>>) -> Vec<u8> {
    fields.extend([e.number(20, u64::MAX), e.bytes(21, &[0xff]), e.fixed(22, 5, &[1; 4])]);
    let mut group = Vec::new();
    e.tag(23, 3, &mut group);
    group.extend(e.number(1, 5));
    group.extend(e.bytes(2, &[7]));
    e.tag(23, 4, &mut group);
    fields.push(group);
    fields.concat()
}

/// An embedded message that is not chosen, and skipped unread.
fn skipped(e: &mut Encoder, number: u32) -> Vec<u8> {
    let inside = e.number(1, 1);
    e.bytes(number, &inside)
}

/// An earlier part, read like the last one: it has a type, or what no type is,
/// and the last one's counts.
fn earlier(e: &mut Encoder, number: u32) -> Vec<u8> {
    skipped(e, number)
}

fn octets(e: &mut Encoder) -> Vec<u8> {
    let held = vec![e.bytes(1, b"x")];
    let held = list(e, held);
    let scalar = vec![e.number(1, 4), skipped(e, 9), earlier(e, 5), e.bytes(5, &held)];
    any(e, scalar)
}

fn string(e: &mut Encoder) -> Vec<u8> {
    let held = vec![e.bytes(1, b"")];
    let held = list(e, held);
    let scalar = vec![e.number(1, 8), skipped(e, 5), e.bytes(9, &held)];
    any(e, scalar)
}

fn unsigned(e: &mut Encoder) -> Vec<u8> {
    let scalar = vec![e.number(1, 2), e.number(2, 7), e.number(3, 1 << 63)];
    any(e, scalar)
}

fn boolean(e: &mut Encoder) -> Vec<u8> {
    let scalar = vec![e.number(1, 7), e.fixed(6, 1, &[1; 8]), e.number(8, 2)];
    any(e, scalar)
}

/// An Any around a scalar's fields.
fn any(e: &mut Encoder, scalar: Vec<Vec<u8>>) -> Vec<u8> {
    let scalar = list(e, scalar);
    let fields = vec![e.number(1, 1 << 32 | 1), earlier(e, 2), e.bytes(2, &scalar)];
    list(e, fields)
}

fn object(e: &mut Encoder) -> Vec<u8> {
    let fields = vec![e.number(1, 2), skipped(e, 2), skipped(e, 3)];
    list(e, fields)
}

fn execute(e: &mut Encoder, args: &[Vec<u8>]) -> Vec<u8> {
    let mut fields = vec![e.number(1, WIDE_ID), e.number(1, 1), e.number(3, 2)];
    fields.extend(args.iter().map(|any| e.bytes(2, any)));
    list(e, fields)
}

fn open(e: &mut Encoder, twice: bool) -> Vec<u8> {
    let args = [string(e), object(e)];
    let execute = execute(e, &args);
    let mut stmt = vec![e.number(1, 1 << 32), e.bytes(2, &execute)];
    if twice {
        let arg = boolean(e);
        let other = e.bytes(2, &arg);
        stmt.push(e.bytes(2, &other));
    }
    let stmt = list(e, stmt);
    let fields = vec![e.number(1, WIDE_ID), earlier(e, 4), e.bytes(4, &stmt), e.number(5, 2)];
    list(e, fields)
}

fn prepare(e: &mut Encoder, twice: bool) -> Vec<u8> {
    let arg = unsigned(e);
    let body = vec![e.bytes(1, b"S"), e.bytes(2, &arg), e.number(4, 1)];
    let body = list(e, body);
    let mut stmt = vec![e.number(1, 1 << 32 | 5), skipped(e, 3), skipped(e, 3), e.bytes(6, &body)];
    if twice {
        let arg = boolean(e);
        let other = e.bytes(2, &arg);
        stmt.push(e.bytes(6, &other));
    }
    let stmt = list(e, stmt);
    let fields = vec![e.number(1, 1), earlier(e, 2), e.bytes(2, &stmt)];
    list(e, fields)
}

#[cfg(test)]
mod tests {
    use super::*;
    use crate::model::Model;

    /// None is bad, and each kind says both: something in it counts, and
    /// something does not.
    #[test]
    fn all_are_good_and_say_both() {
        let once = KINDS.map(|kind| (kind, false));
        for (kind, twice) in once.into_iter().chain([(PREPARE, true), (CURSOR_OPEN, true)]) {
            let frames = of_kind(kind, twice).into_iter();
            let messages: Vec<Message> = frames.map(|frame| Model::reference().read(&frame)).collect();
            let reason = if twice { 17 } else { 0 };
            assert!(messages.iter().all(|message| message.reason == reason), "{kind}");
            assert!(!messages[0].padded, "{kind}");
            assert!(
                [true, false].iter().all(|says| messages[1..].iter().any(|m| m.padded == *says)),
                "{kind}"
            );
        }
    }
}
