//! Short streams, and every way to cut them a few times.

use super::arrivals::Host;
use super::frames::framed;
use super::Event;
use crate::implementation::*;

/// Streams up to this length are cut three times, longer ones twice.
const SHORTEST: usize = 12;
/// Reply buffers of many sizes, none too small: the answers must not depend on them.
const ROOMS: [usize; 4] = [SMALLEST_REPLY, SMALLEST_REPLY + 1, 160, 300];
/// Lengths that no frame has: one below, one above, and the largest there is.
const BAD_LENGTHS: [u32; 3] = [0, LONGEST as u32 + 1, u32::MAX];
/// A type that is none of the eight.
const UNKNOWN: u8 = 99;

/// When a host asks for the frames.
#[derive(Clone, Copy)]
enum Drain {
    AfterEach,
    OneAfterEach,
    AtTheEnd,
}

const DRAINS: [Drain; 3] = [Drain::AfterEach, Drain::OneAfterEach, Drain::AtTheEnd];

fn prepare() -> Vec<u8> {
    framed(PREPARE, &[8, 1, 18, 7, 8, 5, 50, 3, 10, 1, 83])
}

fn reset() -> Vec<u8> {
    framed(SESS_RESET, &[])
}

fn unknown() -> Vec<u8> {
    framed(UNKNOWN, &[0xaa])
}

fn deallocate() -> Vec<u8> {
    framed(DEALLOCATE, &[8, 1])
}

/// Whole frames, unknown types and frames behind a Session close among them;
/// parts of frames at the end; bad lengths at each place.
pub fn samples() -> Vec<Vec<u8>> {
    let open = framed(CURSOR_OPEN, &[8, 1, 34, 8, 8, 0, 18, 4, 8, 1, 18, 0, 40, 1]);
    let fetch = framed(CURSOR_FETCH, &[8, 1, 16, 2]);
    let close = framed(SESS_CLOSE, &[]);
    let mut streams = vec![
        vec![],
        [prepare(), open, fetch.clone(), fetch].concat(),
        [prepare(), unknown(), deallocate(), framed(0, &[])].concat(),
        [reset(), close, reset()].concat(),
        [unknown(), reset()].concat(),
    ];
    parts(&mut streams);
    bad_lengths(&mut streams);
    streams
}

fn parts(streams: &mut Vec<Vec<u8>>) {
    let whole = prepare();
    for len in [1, HEAD - 1, HEAD, HEAD + 1, whole.len() - 1] {
        streams.push([unknown(), reset(), whole[..len].to_vec()].concat());
    }
    let longest = (LONGEST as u32).to_le_bytes();
    streams.push([reset(), longest.to_vec(), vec![PREPARE]].concat());
}

fn bad_lengths(streams: &mut Vec<Vec<u8>>) {
    for bad in BAD_LENGTHS.map(|length| length.to_le_bytes().to_vec()) {
        let frames = [reset(), unknown(), deallocate()];
        for place in 0..=frames.len() {
            let (ahead, behind) = frames.split_at(place);
            streams.push([&ahead.concat(), &bad[..], &behind.concat()].concat());
        }
        streams.push([reset(), bad.clone(), vec![0xaa, 0xbb]].concat());
        streams.push([bad.clone(), bad.clone()].concat());
        streams.push([bad, vec![0xaa, 0xbb]].concat());
    }
}

/// The undivided stream, then every other division of it.
pub fn divisions(stream: &[u8]) -> impl Iterator<Item = Vec<Event>> + '_ {
    let most = if stream.len() <= SHORTEST { 3 } else { 2 };
    let mut cuts = vec![Vec::new()];
    choose(stream.len(), most, &mut Vec::new(), &mut cuts);
    cuts.into_iter()
        .enumerate()
        .flat_map(move |(n, cuts)| DRAINS.map(|drain| divided(stream, &cuts, drain, ROOMS[n % ROOMS.len()])))
}

/// Every choice of one to `most` cuts behind those chosen.
fn choose(len: usize, most: usize, chosen: &mut Vec<usize>, all: &mut Vec<Vec<usize>>) {
    if most == 0 {
        return;
    }
    for cut in chosen.last().map_or(1, |last| last + 1)..len {
        chosen.push(cut);
        all.push(chosen.clone());
        choose(len, most - 1, chosen, all);
        chosen.pop();
    }
}

fn divided(stream: &[u8], cuts: &[usize], drain: Drain, room: usize) -> Vec<Event> {
    let mut host = Host::default();
    let mut start = 0;
    for end in cuts.iter().copied().chain([stream.len()]) {
        // At a bad length nothing more is taken, and what comes is refused.
        host.push(&stream[start..end]);
        start = end;
        match drain {
            Drain::AfterEach => host.drain(room),
            Drain::OneAfterEach => drop(host.next_frame(room)),
            Drain::AtTheEnd => {}
        }
    }
    host.drain(room);
    host.push(&[]);
    host.events
}
