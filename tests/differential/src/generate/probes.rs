//! Drafts for the writer and scalars for stretches of arguments.

use super::encode::{Encoder, Noise};
use super::padding::Padding;
use super::random::Random;
use super::values::{edge_id, number, scalar_of};
use crate::implementation::*;
use crate::model::Model;

/// A draft to write into a buffer of `room` bytes.
#[derive(Clone, Debug)]
pub struct WriteProbe {
    pub draft: Draft,
    pub body: Vec<u8>,
    pub args: Vec<u8>,
    pub room: usize,
}

/// Scalars appended one behind the other to a buffer of `room` bytes, the
/// first one behind its first `at` bytes.
#[derive(Clone, Debug)]
pub struct StretchProbe {
    pub at: usize,
    pub scalars: Vec<Scalar>,
    pub room: usize,
}

pub fn write_probe(random: &mut Random) -> WriteProbe {
    let draft = draft(random);
    let bad = if random.permille(150) { 400 } else { 0 };
    let often = if random.permille(300) { 100 } else { 0 };
    let split = random.pick(&[0, 0, 300]);
    let astray = if random.permille(100) { 300 } else { 0 };
    let noise =
        Noise { bad, pad: Padding::Often(often), extra: 30, again: 30, split, astray, ..Noise::default() };
    let mut encoder = Encoder::new(random, noise);
    let body = encoder.prepare_body(draft.operation);
    let mut body = encoder.message(body);
    let count = encoder.random.below(4);
    let mut args = encoder.args(count, true).concat();
    if encoder.random.permille(bad) {
        args.extend(encoder.unknown());
    }
    if random.permille(15) {
        fill_up(random, &draft, &mut body, &mut args);
    }
    let room = room(random, &draft, &body, &args);
    WriteProbe { draft, body, args, room }
}

/// Lengthens body and arguments so that the frame just keeps or just passes
/// the limit.
fn fill_up(random: &mut Random, draft: &Draft, body: &mut Vec<u8>, args: &mut Vec<u8>) {
    const GUESS: usize = 65_000;
    let filled = |body: &[u8], args: &[u8], size: usize| {
        let scalar = Scalar { kind: 8, bits: 0, bytes: vec![b'x'; size] };
        let mut stretch = args.to_vec();
        stretch.resize(args.len() + size + 40, 0);
        let end = Model::reference().append(&mut stretch, args.len(), &scalar).length;
        // Field 2 of a StmtExecute is an argument, and of the others anything.
        ([body, &stretch[args.len()..end]].concat(), stretch[..end].to_vec())
    };
    let (long_body, long_args) = filled(body, args, GUESS);
    let mut large = vec![0; 70_000];
    let length = Model::reference().write(draft, &long_body, &long_args, &mut large).length;
    let target = 4 + random.range(LONGEST - 1, LONGEST + 1);
    // A refused draft has length 0, and one without room for both stays short.
    let size = if length > GUESS { (GUESS + target).saturating_sub(length) } else { GUESS };
    (*body, *args) = filled(body, args, size);
}

fn draft(random: &mut Random) -> Draft {
    let mut draft = Draft {
        kind: random.pick(&KINDS),
        stmt: edge_id(random),
        cursor: edge_id(random),
        has_rows: random.permille(500),
        rows: number(random),
        has_compact: random.permille(500),
        compact: random.permille(500),
        operation: random.pick(&[0, 1, 2, 4, 5, 5]),
    };
    if random.permille(30) {
        draft.kind = random.pick(&[0, 5, 8, 39, 46, 255]);
    }
    if random.permille(40) {
        draft.operation = random.pick(&[3, 6, u32::MAX]);
    }
    draft
}

/// A buffer that just holds the frame, just does not, or is much too small or
/// large.
fn room(random: &mut Random, draft: &Draft, body: &[u8], args: &[u8]) -> usize {
    let mut large = vec![0; 66_000];
    let needed = Model::reference().write(draft, body, args, &mut large).length;
    match random.below(8) {
        0 => needed.saturating_sub(1),
        1 => random.below(needed + 1),
        2 => 0,
        3 | 4 => needed,
        5 => needed + 1,
        _ => needed + 40,
    }
}

pub fn stretch_probe(random: &mut Random) -> StretchProbe {
    let scalars: Vec<Scalar> = (0..random.range(1, 4)).map(|_| scalar(random)).collect();
    let at = if random.permille(200) { random.below(40) } else { 0 };
    let mut large = vec![0; 2000];
    let mut end = at;
    for scalar in &scalars {
        end = Model::reference().append(&mut large, end, scalar).length.max(end);
    }
    let room = match random.below(6) {
        0 => end.saturating_sub(1),
        1 => random.below(end + 1),
        2 | 3 => end,
        _ => end + random.below(20),
    };
    let at = if random.permille(20) { room + random.range(1, 3) } else { at };
    let at = if random.permille(5) { usize::MAX } else { at };
    StretchProbe { at, scalars, room }
}

fn scalar(random: &mut Random) -> Scalar {
    let mut kind = random.range(1, 8) as u8;
    if random.permille(40) {
        kind = random.pick(&[0, 9, 255]);
    }
    scalar_of(random, kind)
}
