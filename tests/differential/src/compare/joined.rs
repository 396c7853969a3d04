//! What is promised of messages in parts: they say what one message of all
//! their fields says.

use crate::implementation::*;
use crate::model::shortest;
use std::cell::Cell;

/// What happens to the inside of a field.
type Change<'c> = dyn Fn(&[u8]) -> Option<Vec<u8>> + 'c;

/// A field as it stands, with what it holds if that has a length.
struct Field<'b> {
    number: u64,
    whole: &'b [u8],
    inside: Option<&'b [u8]>,
}

/// A frame says what the same frame with the parts of each message joined says,
/// but for places and padding. Where a part is no field list it may be bad, and
/// joined good.
pub fn says_the_same<I: Implementation>(who: &I, frame: &[u8], message: &Message) -> Result<(), String> {
    if !matches!(message.reason, 0 | 6 | 17) {
        return Ok(());
    }
    let payload = &frame[HEAD + 1..HEAD + length(frame)];
    let good = Cell::new(true);
    let joined = Joins { good: &good }.payload(payload, frame[HEAD]);
    let Some(joined) = joined.filter(|joined| joined != payload) else {
        return Ok(());
    };
    if message.reason == 6 && !good.get() {
        return Ok(());
    }
    let joined = crate::generate::framed(frame[HEAD], &joined);
    let other = who.read(&joined);
    let (split, whole) = (content(who, message, frame), content(who, &other, &joined));
    let print = || format!("in parts {split:?}, but joined {whole:?} by {joined:02x?}");
    (split == whole).then_some(()).ok_or_else(print)
}

fn length(frame: &[u8]) -> usize {
    frame.first_chunk::<4>().map_or(0, |head| u32::from_le_bytes(*head) as usize)
}

/// Numbers and bytes without their places; of a Prepare the bytes of its body,
/// which stays as it is, and of the others the arguments.
type Content = (Message, Vec<u8>, Vec<(u8, Vec<u8>)>);

fn content<I: Implementation>(who: &I, message: &Message, frame: &[u8]) -> Content {
    let bytes = |value: &Value| match value {
        Value::Octets(place) => (4, place.of(frame).to_vec()),
        Value::Text(place) => (8, place.of(frame).to_vec()),
        other => (0, format!("{other:?}").into_bytes()),
    };
    let args = message.args.iter().map(bytes).collect();
    let body = if frame[HEAD] == PREPARE { who.body(frame).to_vec() } else { Vec::new() };
    let (nowhere, none) = (Place::default(), Vec::new());
    let numbers =
        Message { used: 0, padded: false, body: nowhere, args_place: nowhere, args: none, ..*message };
    (numbers, body, args)
}

/// Joins the parts of messages, and notes whether all were field lists.
struct Joins<'g> {
    good: &'g Cell<bool>,
}

impl Joins<'_> {
    /// A payload with each message in one part; nothing of a kind that has none.
    fn payload(&self, payload: &[u8], kind: u8) -> Option<Vec<u8>> {
        match kind {
            PREPARE => self.join(payload, 2, &|stmt| Some(stmt.to_vec())),
            EXECUTE => each(payload, 2, &|any| self.any(any)),
            CURSOR_OPEN => {
                let execute = |execute: &[u8]| each(execute, 2, &|any| self.any(any));
                self.join(payload, 4, &|stmt| each(stmt, 2, &execute))
            }
            _ => None,
        }
    }

    fn any(&self, any: &[u8]) -> Option<Vec<u8>> {
        self.join(any, 2, &|scalar| {
            let octets = self.join(scalar, 5, &|octets| Some(octets.to_vec()))?;
            self.join(&octets, 9, &|string| Some(string.to_vec()))
        })
    }

    /// The message with all fields of a number joined to one, and that changed;
    /// what cannot be changed is unread, or bad anyhow, and stays.
    fn join(&self, message: &[u8], number: u64, change: &Change) -> Option<Vec<u8>> {
        let (mut inside, mut out, mut found) = (Vec::new(), Vec::new(), false);
        for field in fields(message)? {
            match field.inside.filter(|_| field.number == number) {
                Some(part) => {
                    self.good.set(self.good.get() && fields(part).is_some());
                    inside.extend(part);
                    found = true;
                }
                None => out.extend(field.whole),
            }
        }
        if found {
            put(number, &change(&inside).unwrap_or(inside), &mut out);
        }
        Some(out)
    }
}

/// The message with each field of a number changed by itself.
fn each(message: &[u8], number: u64, change: &Change) -> Option<Vec<u8>> {
    let mut out = Vec::new();
    for field in fields(message)? {
        match field.inside.filter(|_| field.number == number).and_then(change) {
            Some(changed) => put(number, &changed, &mut out),
            None => out.extend(field.whole),
        }
    }
    Some(out)
}

fn put(number: u64, inside: &[u8], out: &mut Vec<u8>) {
    shortest(number << 3 | 2, out);
    shortest(inside.len() as u64, out);
    out.extend(inside);
}

/// The fields of a message; a group is one, and holds nothing.
fn fields(message: &[u8]) -> Option<Vec<Field<'_>>> {
    let (mut rest, mut open, mut start) = (message, 0, message);
    let mut all = Vec::new();
    while !rest.is_empty() {
        if open == 0 {
            start = rest;
        }
        let tag = varint(&mut rest)?;
        let mut inside = None;
        match tag & 7 {
            0 => drop(varint(&mut rest)?),
            1 => drop(take(&mut rest, 8)?),
            2 => {
                let len = varint(&mut rest)?;
                inside = take(&mut rest, usize::try_from(len).ok()?);
                inside?;
            }
            3 => open += 1,
            4 if open > 0 => open -= 1,
            5 => drop(take(&mut rest, 4)?),
            _ => return None,
        }
        if open == 0 {
            let whole = &start[..start.len() - rest.len()];
            let number = if tag & 7 == 4 { 0 } else { tag >> 3 };
            all.push(Field { number, whole, inside });
        }
    }
    (open == 0).then_some(all)
}

fn take<'b>(rest: &mut &'b [u8], len: usize) -> Option<&'b [u8]> {
    let (front, behind) = rest.split_at_checked(len)?;
    *rest = behind;
    Some(front)
}

fn varint(rest: &mut &[u8]) -> Option<u64> {
    let len = rest.iter().take(10).position(|byte| byte & 0x80 == 0)? + 1;
    let bytes = take(rest, len)?;
    Some(bytes.iter().rev().fold(0, |value, byte| value << 7 | u64::from(byte & 0x7f)))
}
