//! The store filled to its last byte, and starting over in every state.

use super::arrivals::Host;
use super::frames::framed;
use super::Event;
use crate::implementation::*;

const ROOM: usize = 200;
/// The type of long frames, none of the eight: a step has little to do with them.
const UNKNOWN: u8 = 99;
/// What a network brings at a time.
const SEGMENT: usize = 1_460;
/// The bytes of a short frame.
const SHORT: usize = 9;

/// A frame of `len` bytes in all.
fn frame_of(len: usize) -> Vec<u8> {
    let payload: Vec<u8> = (HEAD + 1..len).map(|at| at as u8).collect();
    framed(UNKNOWN, &payload)
}

pub fn edges() -> Vec<Vec<Event>> {
    let mut all = vec![many_small()];
    all.extend([STORE - 1, STORE, STORE + 1, 2 * STORE, SEGMENT].map(back_to_back));
    all.extend((0..=HEAD + 1).map(bad_at_the_end));
    all.extend(start_overs());
    all.push(byte_by_byte());
    all
}

/// The longest frame in arrivals of one byte, and one more that has no room.
fn byte_by_byte() -> Vec<Event> {
    let mut host = Host::default();
    host.push_in_pieces(&frame_of(STORE), 1, ROOM);
    for part in frame_of(STORE).chunks(STORE - 1) {
        host.push(part);
    }
    host.push(&[1]);
    host.push(&[]);
    host.drain(ROOM);
    host.events
}

/// The longest frames one behind the other, and a short one at the end.
fn back_to_back(piece: usize) -> Vec<Event> {
    let mut host = Host::default();
    let stream = [frame_of(STORE), frame_of(STORE), frame_of(STORE - 1), frame_of(SHORT)].concat();
    host.push_in_pieces(&stream, piece, ROOM);
    host.events
}

/// A store full of the shortest frames: each one handed out makes room for its own length.
fn many_small() -> Vec<Event> {
    let small = framed(SESS_RESET, &[]);
    let stream = small.repeat(STORE / small.len() + 1);
    let mut host = Host::default();
    let mut at = host.push(&stream).count;
    for handed in 1..=8 {
        for _ in 0..handed {
            host.next_frame(ROOM);
        }
        at += host.push(&stream.repeat(2)[at..]).count;
        at %= stream.len();
    }
    host.start_over();
    host.drain(ROOM);
    host.events
}

/// A long frame that leaves room for so many bytes of the bad length behind it.
fn bad_at_the_end(room: usize) -> Vec<Event> {
    let mut host = Host::default();
    let stream = [&frame_of(STORE - room)[..], &[0; HEAD], &frame_of(SHORT)].concat();
    let taken = host.push(&stream).count;
    host.push(&stream[taken..]);
    host.next_frame(ROOM);
    host.push(&stream[taken..]);
    host.drain(ROOM);
    host.push(&stream);
    host.events
}

/// Starting over where nothing is held, a part, a frame, more than one, a bad
/// length, one behind a frame, and one that was just uncovered.
fn start_overs() -> Vec<Vec<Event>> {
    let frame = frame_of(SHORT);
    let bad = [&[0; HEAD][..], &frame].concat();
    let states = [
        vec![],
        frame[..1].to_vec(),
        frame[..HEAD].to_vec(),
        frame[..SHORT - 1].to_vec(),
        frame.clone(),
        [&frame[..], &frame[..HEAD - 1]].concat(),
        bad.clone(),
        [&frame[..], &bad].concat(),
        frame_of(STORE),
    ];
    let hand_outs = [0, 1, 2];
    let mut all = Vec::new();
    for (state, handed) in states.iter().flat_map(|state| hand_outs.map(|n| (state, n))) {
        let mut host = Host::default();
        host.push(state);
        (0..handed).for_each(|_| drop(host.next_frame(ROOM)));
        host.start_over();
        host.push(&[]);
        host.drain(ROOM);
        host.push_in_pieces(&[&frame[..], &bad].concat(), 5, ROOM);
        host.start_over();
        host.start_over();
        host.push_in_pieces(&frame, STORE, ROOM);
        all.push(host.events);
    }
    all
}
