//! The library's reader with the store lent to it, and what the store shows of each operation.

use super::narrow;
use crate::implementation::*;
use karramotx::ffi;

/// Bytes on either side of the store that nobody may write.
const GUARD: usize = 64;
const GUARD_BYTE: u8 = 0xe7;
/// What the store holds at the start: whole frames, which would show if they were taken for arrivals.
const GARBAGE: [u8; 5] = [1, 0, 0, 0, SESS_RESET];

pub struct Reader {
    reader: ffi::Reader,
    /// The store between its guards.
    memory: Vec<u8>,
    /// The store as the last push left it. Nothing but a push may change it, so frames that were handed out
    /// stay until then.
    pushed: Option<Vec<u8>>,
}

impl Reader {
    /// The beginning, as a start over.
    pub fn fresh() -> Reader {
        // SAFETY: it takes nothing.
        Reader::of(unsafe { ffi::karramotx_start_over() })
    }

    /// Two numbers, whether or not the library made them, beside a store of garbage.
    pub fn of(reader: ffi::Reader) -> Reader {
        let garbage = GARBAGE.repeat(STORE.div_ceil(GARBAGE.len()));
        let guard = [GUARD_BYTE; GUARD];
        let memory = [&guard, &garbage[..STORE], &guard].concat();
        Reader { reader, memory, pushed: None }
    }

    fn store(&self) -> &[u8] {
        &self.memory[GUARD..GUARD + STORE]
    }

    pub fn start_over(&mut self) {
        // SAFETY: it takes nothing.
        self.reader = unsafe { ffi::karramotx_start_over() };
        self.check();
        assert_eq!(self.reader.start, self.reader.end, "start over empties the reader");
    }

    pub fn push(&mut self, bytes: &[u8]) -> Pushed {
        self.pushed = None;
        // Where the length is 0 the pointer may be null.
        let arrival = if bytes.is_empty() { std::ptr::null() } else { bytes.as_ptr() };
        let store = self.memory[GUARD..GUARD + STORE].as_mut_ptr();
        // SAFETY: the pointer and the length are those of a slice, and the store is borrowed uniquely.
        let pushed = unsafe { ffi::karramotx_push(self.reader, arrival, bytes.len(), store) };
        self.reader = pushed.reader;
        self.check();
        Pushed { reason: narrow(pushed.reason), count: pushed.count }
    }

    pub fn next_frame(&mut self) -> NextFrame {
        let held = self.reader;
        if self.pushed.is_none() {
            self.pushed = Some(self.store().to_vec());
        }
        // SAFETY: the store has its size.
        let next = unsafe { ffi::karramotx_next_frame(self.reader, self.store().as_ptr()) };
        self.reader = next.reader;
        self.check();
        if next.reason != 0 {
            let none = ffi::NextFrame { reader: next.reader, reason: next.reason, ..Default::default() };
            assert_eq!(next, none, "where there is no frame there is no place");
        } else {
            assert_eq!(next.start, held.start, "the frame that stands first is handed out");
        }
        let frame = self.store()[next.start..][..next.len].to_vec();
        NextFrame { reason: narrow(next.reason), kind: narrow(next.kind), frame }
    }

    pub fn held(&self) -> Vec<u8> {
        self.store()[self.reader.start..self.reader.end].to_vec()
    }

    /// What must hold behind every operation: two numbers in order and in the store, guards untouched, and no
    /// byte of the store changed since the last push.
    fn check(&self) {
        let ffi::Reader { start, end } = self.reader;
        assert!(start <= end && end <= STORE, "the reader holds {start} to {end}");
        let (front, back) = (&self.memory[..GUARD], &self.memory[GUARD + STORE..]);
        assert!(front.iter().chain(back).all(|byte| *byte == GUARD_BYTE), "written past the store");
        if let Some(pushed) = &self.pushed {
            assert!(pushed == self.store(), "the store changed without a push");
        }
    }
}
