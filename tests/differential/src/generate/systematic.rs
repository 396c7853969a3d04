//! Sequences that leave nothing to chance: every cut and every bit of a good
//! frame of each kind, every length of a varint, every varint padded alone,
//! every depth of a group, every cut of an embedded message and every order of
//! its fields; every kind of damage to an image.

use super::every_cut::every_cut;
use super::every_image::every_image;
use super::every_order::every_order;
use super::every_varint::every_varint;
use super::frames::framed;
use super::{Event, Step};
use crate::implementation::*;

/// Frames on one session.
const TOGETHER: usize = 50;

/// A Prepare of statement 1 and an Open of cursor 1 with rows left: every
/// kind of frame then has something to do.
fn setup() -> [Step; 2] {
    let frames = bases();
    [step(frames[0].clone()), step(frames[1].clone())]
}

/// A good frame of every kind, with every type of argument.
fn bases() -> Vec<Vec<u8>> {
    let mut args = Vec::new();
    let numbers: [&[u8]; 4] = [&[8, 1, 16, 1], &[8, 2, 24, 255, 1], &[8, 3], &[8, 7, 64, 1]];
    let bytes: [&[u8]; 2] = [&[8, 4, 42, 3, 10, 1, 7], &[8, 8, 74, 4, 10, 2, 104, 105]];
    let fixed: [&[u8]; 2] = [&[8, 5, 49, 1, 2, 3, 4, 5, 6, 7, 8], &[8, 6, 61, 1, 2, 3, 4]];
    for scalar in numbers.into_iter().chain(bytes).chain(fixed) {
        let any = [&[8, 1, 18, scalar.len() as u8], scalar].concat();
        args.extend([&[18, any.len() as u8], &any[..]].concat());
    }
    let execute = [&[8, 1], &args[..], &[24, 1]].concat();
    // Everything stays below 128 bytes, so one length byte does.
    let len = execute.len() as u8;
    let open = [&[8, 1, 34, len + 4, 8, 0, 18, len], &execute[..], &[40, 1]].concat();
    vec![
        framed(PREPARE, &[8, 1, 18, 13, 8, 5, 50, 9, 10, 1, 83, 18, 4, 8, 2, 16, 0]),
        framed(CURSOR_OPEN, &open),
        framed(EXECUTE, &execute),
        framed(PREPARE, &[8, 1, 18, 4, 8, 0, 18, 0]),
        framed(PREPARE, &[8, 2, 18, 6, 8, 4, 42, 2, 8, 1]),
        framed(DEALLOCATE, &[8, 1]),
        framed(CURSOR_FETCH, &[8, 1, 16, 2]),
        framed(CURSOR_CLOSE, &[8, 1]),
        framed(SESS_RESET, &[]),
        framed(SESS_CLOSE, &[]),
    ]
}

fn step(frame: Vec<u8>) -> Step {
    step_on(frame, SMALLEST_REPLY)
}

/// The step a frame's kind is meant for.
pub fn step_on(frame: Vec<u8>, room: usize) -> Step {
    let report = match frame.get(4).copied() {
        Some(PREPARE) => Report::prepared(1),
        Some(CURSOR_FETCH) => Report::DONE,
        _ => Report::result(1, 5),
    };
    Step { frame, report, room }
}

/// Every sequence: the setup, one odd frame, and a Fetch to see what is left.
pub fn all() -> Vec<Vec<Event>> {
    let mut odd = Vec::new();
    for base in bases() {
        cuts(&base, &mut odd);
        changes(&base, &mut odd);
        depths(&base, &mut odd);
    }
    varints(&mut odd);
    odd.extend(every_varint());
    odd.extend(every_cut());
    let orders = every_order();
    let frames = odd.into_iter().map(around).chain(orders.chunks(TOGETHER).map(behind_setup));
    frames.chain(every_image()).collect()
}

/// Many frames on one session: there are too many for a setup for each.
fn behind_setup(frames: &[Vec<u8>]) -> Vec<Event> {
    let steps = frames.iter().map(|frame| step(frame.clone()));
    setup().into_iter().chain(steps).map(Event::Step).collect()
}

fn around(frame: Vec<u8>) -> Vec<Event> {
    let fetch = framed(CURSOR_FETCH, &[8, 1]);
    let steps = setup().into_iter().chain([step(frame), step(fetch)]);
    steps.map(Event::Step).collect()
}

fn cuts(base: &[u8], odd: &mut Vec<Vec<u8>>) {
    for end in 0..=base.len() {
        odd.push(base[..end].to_vec());
        if end >= 5 {
            // The same cut by a sender that counts its bytes.
            odd.push(framed(base[4], &base[5..end]));
        }
    }
}

fn changes(base: &[u8], odd: &mut Vec<Vec<u8>>) {
    for at in 0..base.len() {
        let bits = (0..8).map(|bit| base[at] ^ 1 << bit);
        for byte in bits.chain([0, 0x7f, 0x80, 0xff]) {
            let mut frame = base.to_vec();
            frame[at] = byte;
            odd.push(frame);
        }
    }
}

/// A group of each depth behind the good fields.
fn depths(base: &[u8], odd: &mut Vec<Vec<u8>>) {
    for depth in 1..=36 {
        let group = [[0x7b].repeat(depth), [0x7c].repeat(depth)].concat();
        odd.push(framed(base[4], &[&base[5..], &group].concat()));
    }
}

/// Tag and id of a Close in every number of bytes, with every tenth byte.
fn varints(odd: &mut Vec<Vec<u8>>) {
    let padded = |value: u8, len: usize, last: u8| {
        let mut out = vec![value | 0x80];
        out.resize(len - 1, 0x80);
        out.push(last);
        out
    };
    for len in 2..=12 {
        odd.push(framed(CURSOR_CLOSE, &[vec![8], padded(1, len, 0)].concat()));
        odd.push(framed(CURSOR_CLOSE, &[padded(8, len, 0), vec![1]].concat()));
    }
    for last in 0..=255 {
        odd.push(framed(CURSOR_CLOSE, &[vec![8], padded(1, 10, last)].concat()));
        odd.push(framed(CURSOR_CLOSE, &[padded(8, 10, last), vec![1]].concat()));
        odd.push(framed(CURSOR_CLOSE, &[padded(8, 5, last), vec![1]].concat()));
    }
}

#[cfg(test)]
mod tests {
    use super::*;
    use crate::model::{Model, Session};

    /// A base that was refused would make its whole family idle.
    #[test]
    fn every_base_is_accepted() {
        for base in bases() {
            let mut session = Session::fresh();
            for step in setup().into_iter().chain([step(base)]) {
                let answer;
                (session, answer) = Model::reference().step(session, &step.frame, step.report, &mut [0; 128]);
                assert_eq!(answer.reason, 0, "{step:?}");
            }
        }
    }
}
