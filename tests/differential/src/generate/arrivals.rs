//! What a host does with a reader, told as events.

use super::Event;
use crate::implementation::*;
use crate::model::{Model, Reader};

/// One operation on a reader.
#[derive(Clone, Debug)]
pub enum Operation {
    /// An arrival.
    Push(Vec<u8>),
    /// Hands out a frame, and takes a step on it with a reply buffer of `room` bytes.
    NextFrame {
        room: usize,
    },
    StartOver,
}

/// A host at work. It takes the reference's reader along, to know how far
/// an arrival was taken and what there is to hand out.
#[derive(Default)]
pub struct Host {
    reader: Reader,
    pub events: Vec<Event>,
}

impl Host {
    pub fn push(&mut self, bytes: &[u8]) -> Pushed {
        self.events.push(Event::Reader(Operation::Push(bytes.to_vec())));
        Model::reference().push(&mut self.reader, bytes)
    }

    pub fn next_frame(&mut self, room: usize) -> NextFrame {
        self.events.push(Event::Reader(Operation::NextFrame { room }));
        Model::reference().next_frame(&mut self.reader)
    }

    pub fn start_over(&mut self) {
        self.events.push(Event::Reader(Operation::StartOver));
        Model::reference().start_over(&mut self.reader);
    }

    /// Hands out all whole frames, and once more: that says why there is no other.
    pub fn drain(&mut self, room: usize) {
        while self.next_frame(room).reason == WHOLE_FRAME {}
    }

    /// Arrivals of `piece` bytes; what was not taken comes again behind a drain.
    pub fn push_in_pieces(&mut self, bytes: &[u8], piece: usize, room: usize) {
        let mut at = 0;
        while at < bytes.len() {
            let pushed = self.push(&bytes[at..bytes.len().min(at + piece)]);
            at += pushed.count;
            if pushed.count == 0 {
                self.drain(room);
            }
            if pushed.reason == BAD_LENGTH {
                return;
            }
        }
        self.drain(room);
    }
}
