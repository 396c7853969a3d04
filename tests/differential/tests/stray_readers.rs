//! A reader is two numbers. Those that the library did not make and that are
//! no part of a store hold nothing.
#![cfg(feature = "library")]

use differential::generate::framed;
use differential::implementation::*;
use karramotx::ffi;

const STRAYS: [(usize, usize); 14] = [
    (1, 0),
    (5, 4),
    (STORE, 0),
    (STORE, STORE - 1),
    (0, STORE + 1),
    (STORE, STORE + 1),
    (STORE + 1, STORE),
    (STORE + 1, STORE + 1),
    (STORE + 1, STORE + 6),
    (0, usize::MAX),
    (usize::MAX, 0),
    (usize::MAX, STORE),
    (usize::MAX - 4, usize::MAX),
    (usize::MAX, usize::MAX),
];
/// These are parts of a store with nothing in them, wherever they stand.
const EMPTY: [(usize, usize); 3] = [(0, 0), (7, 7), (STORE, STORE)];

/// A store full of whole frames that no reader has taken.
fn garbage() -> Vec<u8> {
    let mut store = framed(SESS_RESET, &[]).repeat(STORE);
    store.truncate(STORE);
    store
}

fn readers() -> impl Iterator<Item = ffi::Reader> {
    STRAYS.into_iter().chain(EMPTY).map(|(start, end)| ffi::Reader { start, end })
}

fn push(reader: ffi::Reader, bytes: &[u8], store: &mut [u8]) -> ffi::Pushed {
    assert_eq!(store.len(), STORE);
    // SAFETY: the pointer and the length are those of a slice, and the store has its size.
    unsafe { ffi::karramotx_push(reader, bytes.as_ptr(), bytes.len(), store.as_mut_ptr()) }
}

fn next_frame(reader: ffi::Reader, store: &[u8]) -> ffi::NextFrame {
    assert_eq!(store.len(), STORE);
    // SAFETY: the store has its size.
    unsafe { ffi::karramotx_next_frame(reader, store.as_ptr()) }
}

#[test]
fn hand_out_nothing() {
    for reader in readers() {
        let mut store = garbage();
        let next = next_frame(reader, &store);
        let none = ffi::NextFrame { reader: next.reader, reason: 1, ..Default::default() };
        assert_eq!(next, none, "{reader:?}");
        // What comes back holds nothing either.
        assert_eq!(next_frame(next.reader, &store).reason, 1, "{reader:?}");
        assert_eq!(push(next.reader, &[], &mut store).reason, 1, "{reader:?}");
    }
}

#[test]
fn take_as_an_empty_one_does() {
    let frame = framed(CURSOR_FETCH, &[8, 1]);
    let longest = framed(PREPARE, &vec![9; LONGEST - 1]);
    let too_long = [&longest[..], &[1]].concat();
    for reader in readers() {
        let arrivals = [(&[][..], 1, 0), (&frame[..3], 1, 3), (&frame, 0, frame.len())];
        for (arrival, reason, count) in arrivals.into_iter().chain([(&too_long[..], 0, STORE)]) {
            let mut store = garbage();
            let pushed = push(reader, arrival, &mut store);
            assert_eq!((pushed.reason, pushed.count), (reason, count), "{reader:?}");
            let held = &store[pushed.reader.start..pushed.reader.end];
            assert!(held == &arrival[..count], "{reader:?}");
        }
    }
}
