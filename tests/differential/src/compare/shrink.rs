//! From a sequence with a difference to the shortest one found.

use super::pair::{hex, Difference, Pair};
use super::run;
use super::tree::Tree;
use crate::coverage::Coverage;
use crate::generate::{framed, Event, Image, Imaging, Operation};
use crate::implementation::Implementation;
use std::fmt::Write;

/// Runs tried before the shortest so far is taken.
const TRIES: usize = 4000;
/// This many bytes in arrivals count for one try more, and make a frame large.
const LARGE: usize = 2_000;

/// A shrunk sequence, where it differs, and its print.
pub struct Found {
    pub events: Vec<Event>,
    pub difference: Difference,
    pub print: String,
}

impl Found {
    /// A sequence as it is.
    pub fn unshrunk<A: Implementation, B: Implementation>(
        a: &A,
        b: &B,
        events: Vec<Event>,
        difference: Difference,
    ) -> Found {
        let print = print(a, b, &events, &difference);
        Found { events, difference, print }
    }
}

struct Shrinker<'i, A: Implementation, B: Implementation> {
    a: &'i A,
    b: &'i B,
    events: Vec<Event>,
    difference: Difference,
    tries: usize,
}

/// Joins arrivals, drops events, large ones first, then shortens frames, as
/// long as some difference remains.
pub fn shrink<A: Implementation, B: Implementation>(a: &A, b: &B, events: Vec<Event>) -> Found {
    shrink_within(a, b, events, TRIES)
}

/// The same with another number of tries.
pub fn shrink_within<A: Implementation, B: Implementation>(
    a: &A,
    b: &B,
    events: Vec<Event>,
    tries: usize,
) -> Found {
    let difference = run(a, b, &events, &mut Coverage::default());
    let difference = difference.expect("the sequence differed a moment ago");
    let mut shrinker = Shrinker { a, b, events, difference, tries };
    loop {
        let before = (shrinker.events.len(), shrinker.bytes());
        shrinker.join_arrivals();
        shrinker.drop_large_frames();
        shrinker.drop_events();
        shrinker.shorten_frames();
        if before == (shrinker.events.len(), shrinker.bytes()) || shrinker.tries == 0 {
            break;
        }
    }
    Found::unshrunk(a, b, shrinker.events, shrinker.difference)
}

impl<A: Implementation, B: Implementation> Shrinker<'_, A, B> {
    /// Bytes in frames, images and arrivals.
    fn bytes(&self) -> usize {
        let in_event = |event: &Event| match event {
            Event::Step(step) => step.frame.len(),
            Event::Image(Imaging::Restore(image)) => image.len(),
            _ => 0,
        };
        self.events.iter().map(in_event).sum::<usize>() + self.arriving()
    }

    fn arriving(&self) -> usize {
        let arrival = |event: &Event| match event {
            Event::Reader(Operation::Push(arrival)) => arrival.len(),
            _ => 0,
        };
        self.events.iter().map(arrival).sum()
    }

    /// Takes the candidate if it differs too; events behind the difference go.
    fn take(&mut self, mut candidate: Vec<Event>) -> bool {
        if self.tries == 0 {
            return false;
        }
        self.tries = self.tries.saturating_sub(1 + self.arriving() / LARGE);
        let Some(found) = run(self.a, self.b, &candidate, &mut Coverage::default()) else {
            return false;
        };
        candidate.truncate(found.at + 1);
        (self.events, self.difference) = (candidate, found);
        true
    }

    /// Makes one arrival of all that follow each other.
    fn join_arrivals(&mut self) {
        let mut joined: Vec<Event> = Vec::new();
        for event in &self.events {
            match (joined.last_mut(), event) {
                (Some(Event::Reader(Operation::Push(last))), Event::Reader(Operation::Push(arrival))) => {
                    last.extend(arrival)
                }
                _ => joined.push(event.clone()),
            }
        }
        if joined.len() < self.events.len() {
            self.take(joined);
        }
    }

    /// A large frame makes every run slow.
    fn drop_large_frames(&mut self) {
        let large = |event: &Event| matches!(event, Event::Step(step) if step.frame.len() > LARGE);
        let mut at = 0;
        while let Some(found) = self.events.iter().skip(at).position(large) {
            at += found;
            let mut candidate = self.events.clone();
            candidate.remove(at);
            at += usize::from(!self.take(candidate));
        }
    }

    fn drop_events(&mut self) {
        self.events.truncate(self.difference.at + 1);
        let mut size = self.events.len().div_ceil(2);
        while size >= 1 && self.tries > 0 {
            let mut at = 0;
            while at < self.events.len() && self.tries > 0 {
                let mut candidate = self.events.clone();
                candidate.drain(at..(at + size).min(candidate.len()));
                if !self.take(candidate) {
                    at += size;
                }
            }
            size /= 2;
        }
    }

    fn shorten_frames(&mut self) {
        for index in 0..self.events.len() {
            self.drop_fields(index);
            self.drop_entries(index);
            self.drop_bytes(index);
        }
    }

    /// What of an event can be cut, if it is there still: a step's payload, an arrival, an image.
    fn cuttable(&self, index: usize) -> Option<Vec<u8>> {
        match self.events.get(index) {
            Some(Event::Step(step)) if step.frame.len() >= 5 => Some(step.frame[5..].to_vec()),
            Some(Event::Reader(Operation::Push(arrival))) => Some(arrival.clone()),
            Some(Event::Image(Imaging::Restore(image))) => Some(image.clone()),
            _ => None,
        }
    }

    /// Tries other bytes in an event; true if they were taken.
    fn try_bytes(&mut self, index: usize, bytes: &[u8]) -> bool {
        let mut candidate = self.events.clone();
        match candidate.get_mut(index) {
            Some(Event::Step(step)) => step.frame = framed(step.frame[4], bytes),
            Some(Event::Reader(Operation::Push(arrival))) => *arrival = bytes.to_vec(),
            Some(Event::Image(Imaging::Restore(image))) => *image = bytes.to_vec(),
            _ => return false,
        }
        self.take(candidate)
    }

    /// Takes fields out of a frame, outer messages first.
    fn drop_fields(&mut self, index: usize) {
        let Some(Event::Step(_)) = self.events.get(index) else {
            return;
        };
        let Some(mut tree) = self.cuttable(index).and_then(|payload| Tree::parse(&payload)) else {
            return;
        };
        let mut message = 0;
        while let Some(count) = tree.fields(message) {
            let mut size = count;
            while size >= 1 && self.tries > 0 {
                let mut at = 0;
                while at < tree.fields(message).unwrap_or(0) && self.tries > 0 {
                    let smaller = tree.without(message, at, at + size);
                    if self.try_bytes(index, &smaller.bytes()) {
                        tree = smaller;
                    } else {
                        at += size;
                    }
                }
                size /= 2;
            }
            message += 1;
        }
    }

    /// Takes entries out of an image, cursors first.
    fn drop_entries(&mut self, index: usize) {
        let Some(Event::Image(Imaging::Restore(bytes))) = self.events.get(index) else {
            return;
        };
        let Some(mut image) = Image::said(bytes) else {
            return;
        };
        for at in (0..image.entries()).rev() {
            let smaller = image.without(at);
            if self.try_bytes(index, &smaller.bytes()) {
                image = smaller;
            }
        }
    }

    /// Cuts parts out of a payload, an arrival or an image, whatever they are.
    fn drop_bytes(&mut self, index: usize) {
        let Some(mut bytes) = self.cuttable(index) else {
            return;
        };
        let mut size = bytes.len();
        while size >= 1 && self.tries > 0 {
            let mut at = 0;
            while at < bytes.len() && self.tries > 0 {
                let mut shorter = bytes.clone();
                shorter.drain(at..(at + size).min(bytes.len()));
                if self.try_bytes(index, &shorter) {
                    bytes = shorter;
                } else {
                    at += size;
                }
            }
            size /= 2;
        }
    }
}

/// The sequence with both sides' answers, and the difference at its end.
fn print<A: Implementation, B: Implementation>(
    a: &A,
    b: &B,
    events: &[Event],
    difference: &Difference,
) -> String {
    let mut out = String::new();
    let mut pair = Pair::fresh(a, b);
    let (left, right) = pair.names();
    for (n, event) in events.iter().enumerate() {
        let _ = pair.event(event, &mut Coverage::default());
        let _ = writeln!(out, "{} {}", n + 1, describe(event));
        if let (Event::Reader(_), Some((a, b))) = (event, pair.told()) {
            let _ = writeln!(out, "    {left}: {a:?}\n    {right}: {b:?}");
        }
        if let Event::Step(_) = event {
            let (a, b) = pair.answers();
            let _ = writeln!(out, "    {left}: {a:?}\n    {right}: {b:?}");
        }
    }
    let Difference { what, left: a, right: b, .. } = difference;
    let _ = writeln!(out, "differs in: {what}\n    {left}: {a}\n    {right}: {b}");
    out
}

fn describe(event: &Event) -> String {
    match event {
        Event::Step(s) => {
            let (report, room) = (s.report, s.room);
            format!("frame {:?} {report:?} reply buffer {room}", hex(&s.frame))
        }
        Event::Write(w) => {
            let (body, args) = (hex(&w.body), hex(&w.args));
            format!("write {:?} body {body:?} args {args:?} room {}", w.draft, w.room)
        }
        Event::Reader(Operation::Push(arrival)) => {
            format!("push {} bytes: {:?}", arrival.len(), hex(arrival))
        }
        Event::Reader(Operation::NextFrame { room }) => {
            format!("next frame, reply buffer {room}")
        }
        Event::Reader(Operation::StartOver) => "start over".into(),
        Event::Image(Imaging::HandOver) => "hand over".into(),
        Event::Image(Imaging::Restore(image)) => format!("restore {:?}", hex(image)),
        Event::Image(Imaging::HostMade(words)) => format!("host's own {words:?}"),
        Event::Stretch(s) => format!("stretch at {} of {:?} room {}", s.at, s.scalars, s.room),
    }
}
