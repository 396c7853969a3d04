//! Random streams, cut at random and read in random order.

use super::arrivals::Host;
use super::frames::{framed, grown};
use super::intent::Mode;
use super::random::Random;
use super::{Event, Guide};
use crate::implementation::*;
use crate::model::Session;

/// Divisions of one stream that are compared with one another.
const WAYS: usize = 3;
/// Arrivals may reach this part of a stream, so that a long one is through in time.
const PART_OF_STREAM: usize = 50;
/// How many large frames there are among a thousand parts of a stream, and how many parts at most.
const STREAMS: [(usize, usize); 3] = [(0, 60), (20, 60), (300, 10)];

/// A stream and the places where its parts begin.
struct Stream {
    bytes: Vec<u8>,
    starts: Vec<usize>,
}

/// The longest arrivals of a sequence: from single bytes to more than there is ever room for.
const LONGEST_ARRIVALS: [usize; 9] = [1, 8, 60, 60, 300, 1_460, 20_000, STORE, STORE + 9];

/// A sequence on one reader and one fresh session.
pub fn arrivals(random: &mut Random) -> Vec<Event> {
    let stream = stream(random);
    let longest = random.pick(&LONGEST_ARRIVALS);
    let pushes = random.range(100, 600);
    let mut host = Host::default();
    let (mut at, mut first) = (0, PART);
    for _ in 0..random.range(10, 250) {
        // Behind a bad length there is little to see: a few refusals are enough.
        let starts_over = if first == BAD_LENGTH { 400 } else { 4 };
        if random.permille(starts_over) {
            host.start_over();
            (at, first) = (resumed(random, &stream, at), PART);
        } else if random.permille(if first == PART { 850 } else { pushes }) {
            let end = stream.bytes.len().min(at + random.range(0, longest));
            let pushed = host.push(&stream.bytes[at..end]);
            at += pushed.count;
            first = pushed.reason;
        } else {
            first = host.next_frame(room(random)).reason;
        }
        if at == stream.bytes.len() && first == PART && random.permille(300) {
            break;
        }
    }
    if random.permille(500) {
        host.drain(room(random));
    }
    host.events
}

/// A long stream divided in a few ways, each drained in the end.
pub fn long_divisions(random: &mut Random) -> Vec<Vec<Event>> {
    let stream = stream(random).bytes;
    (0..WAYS).map(|_| divided(random, &stream)).collect()
}

fn divided(random: &mut Random, stream: &[u8]) -> Vec<Event> {
    let longest = random.pick(&LONGEST_ARRIVALS).max(stream.len() / PART_OF_STREAM);
    let room = random.pick(&[SMALLEST_REPLY, SMALLEST_REPLY + 1, 300]);
    let mut host = Host::default();
    let mut at = 0;
    while at < stream.len() {
        let end = stream.len().min(at + random.range(1, longest));
        let pushed = host.push(&stream[at..end]);
        at += pushed.count;
        if pushed.reason == BAD_LENGTH {
            break;
        }
        // A full store must hand out before it takes more.
        if pushed.count == 0 || random.permille(300) {
            (0..random.range(1, 4)).for_each(|_| drop(host.next_frame(room)));
        }
    }
    host.drain(room);
    host.events
}

/// Where a host goes on after it started over: mostly where a frame begins.
fn resumed(random: &mut Random, stream: &Stream, at: usize) -> usize {
    if random.permille(100) {
        return at;
    }
    let next = stream.starts.iter().find(|start| **start >= at);
    next.copied().unwrap_or(0)
}

fn room(random: &mut Random) -> usize {
    if random.permille(900) {
        200
    } else {
        random.pick(&[0, SMALLEST_REPLY - 1, SMALLEST_REPLY, 4096])
    }
}

fn stream(random: &mut Random) -> Stream {
    let (large, most) = random.pick(&STREAMS);
    let mut guide = Guide { session: Session::fresh(), mode: Mode::Few };
    let mut stream = Stream { bytes: Vec::new(), starts: Vec::new() };
    for _ in 0..random.range(1, most) {
        stream.starts.push(stream.bytes.len());
        let part = if random.permille(large) { large_frame(random) } else { part(random, &mut guide) };
        stream.bytes.extend(part);
    }
    stream
}

/// Mostly a good frame; at times one of any type, a bad length, or a frame damaged on the way.
fn part(random: &mut Random, guide: &mut Guide) -> Vec<u8> {
    match random.below(100) {
        0..4 => {
            let above = random.word() as u32 | 1 << 16;
            let lengths = [0, LONGEST as u32 + 1, STORE as u32, u32::MAX, above];
            random.pick(&lengths).to_le_bytes().to_vec()
        }
        4..8 => guide.step(random).frame,
        8..20 => {
            let len = random.below(30);
            framed(random.word() as u8, &random.bytes(len))
        }
        _ => guide.good_frame(random),
    }
}

/// A frame of any type that fills the store, or nearly, or a good part of it.
fn large_frame(random: &mut Random) -> Vec<u8> {
    let middling = random.range(1_000, LONGEST);
    let length = random.pick(&[LONGEST, LONGEST, LONGEST - 1, middling, middling]);
    let kind = if random.permille(500) { random.pick(&KINDS) } else { random.word() as u8 };
    let short = framed(kind, &[8, 1]);
    grown(&short, length)
}
