//! Item 1 of document 02, run on the model and on what is under test.

mod common;
use common::*;
use differential::compare::all_alike;
use differential::coverage::Coverage;
use differential::generate::{divisions, framed};
use differential::implementation::*;
use differential::model::Model;
use differential::under_test;

/// A reader to speak to in hex.
struct Arriving<I: Implementation> {
    who: I,
    reader: I::Reader,
}

impl<I: Implementation> Arriving<I> {
    fn fresh(who: I) -> Arriving<I> {
        Arriving { reader: who.reader(), who }
    }

    /// Reason and count.
    fn push(&mut self, hex: &str) -> (u8, usize) {
        self.push_bytes(&unhex(hex))
    }

    fn push_bytes(&mut self, bytes: &[u8]) -> (u8, usize) {
        let pushed = self.who.push(&mut self.reader, bytes);
        (pushed.reason, pushed.count)
    }

    fn next(&mut self) -> Result<Vec<u8>, u8> {
        let next = self.who.next_frame(&mut self.reader);
        if next.reason == WHOLE_FRAME {
            Ok(next.frame)
        } else {
            Err(next.reason)
        }
    }

    fn held(&self) -> Vec<u8> {
        self.who.held(&self.reader)
    }

    fn start_over(&mut self) {
        self.who.start_over(&mut self.reader);
        assert_eq!(self.held(), []);
    }
}

const RESET: &str = "01000000 06";

fn bad_length<I: Implementation>(who: I) {
    let mut arriving = Arriving::fresh(who);
    assert_eq!(arriving.push(&format!("{RESET} 00000000 AABB {RESET}")), (0, 16));
    assert_eq!(arriving.held().len(), 16);
    assert_eq!(arriving.next(), Ok(unhex(RESET)));
    assert_eq!(arriving.held(), [0; 4]);
    assert_eq!((arriving.next(), arriving.push(RESET), arriving.push("")), (Err(2), (2, 0), (2, 0)));
    assert_eq!(arriving.held(), [0; 4]);
    arriving.start_over();
    assert_eq!((arriving.next(), arriving.push(RESET)), (Err(1), (0, 5)));
}

#[test]
fn frames_before_a_bad_length_go_first() {
    bad_length(Model::reference());
    bad_length(under_test());
}

/// What is behind a bad length counts as taken if it came with it.
fn dropped<I: Implementation>(who: I) {
    let mut arriving = Arriving::fresh(who);
    assert_eq!((arriving.push("00000000 AABB"), arriving.held()), ((2, 6), vec![0; 4]));
    arriving.start_over();
    assert_eq!((arriving.push("00000000"), arriving.push("AABB")), ((2, 4), (2, 0)));
    arriving.start_over();
    assert_eq!((arriving.push("0000"), arriving.push("0000 AABB")), ((1, 2), (2, 4)));
}

#[test]
fn bytes_behind_a_bad_length_are_dropped() {
    dropped(Model::reference());
    dropped(under_test());
}

/// Both sides of the limits, and an arrival of no bytes in each state.
fn lengths<I: Implementation>(who: I) {
    let mut arriving = Arriving::fresh(who);
    let samples = [("", 1), ("FFFFFF", 1), ("FCFF0000", 1), ("FDFF0000", 2), ("FFFFFFFF", 2)];
    for (bytes, reason) in samples.into_iter().chain([("01000000", 1), (RESET, 0)]) {
        assert_eq!(arriving.push(bytes), (reason, unhex(bytes).len()), "{bytes}");
        assert_eq!(arriving.push(""), (reason, 0), "{bytes}");
        arriving.start_over();
    }
}

#[test]
fn lengths_on_both_sides_of_a_limit() {
    lengths(Model::reference());
    lengths(under_test());
}

fn full<I: Implementation>(who: I) {
    let longest = framed(99, &vec![7; LONGEST - 1]);
    assert_eq!(longest.len(), STORE);
    let stream = longest.repeat(2);
    let mut arriving = Arriving::fresh(who);
    assert_eq!(arriving.push_bytes(&stream[..STORE - 1]), (1, STORE - 1));
    assert_eq!(arriving.push_bytes(&stream[STORE - 1..]), (0, 1));
    assert_eq!(arriving.push_bytes(&stream[STORE..]), (0, 0));
    assert_eq!(arriving.next(), Ok(longest.clone()));
    assert_eq!(arriving.push_bytes(&stream[STORE..]), (0, STORE));
    assert_eq!((arriving.next(), arriving.next()), (Ok(longest), Err(1)));
}

#[test]
fn a_store_full_to_the_last_byte() {
    full(Model::reference());
    full(under_test());
}

/// Divisions of two streams that end differently are not alike.
#[test]
fn divisions_are_compared() {
    let (one, other) = ([prepare(1), prepare(2)].concat(), [prepare(1), prepare(3)].concat());
    let mixed = divisions(&one).take(40).chain(divisions(&other).take(1));
    let found = all_alike(&Model::reference(), &under_test(), mixed, &mut Coverage::default());
    assert!(found.is_some_and(|found| found.difference.what == "frame of another division"));
    let cut_off = divisions(&one).take(1).chain(divisions(&one[..one.len() - 1]).take(1));
    let found = all_alike(&Model::reference(), &under_test(), cut_off, &mut Coverage::default());
    assert!(found.is_some_and(|found| found.difference.what == "frames of another division"));
}
