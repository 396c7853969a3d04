//! Item 4 of document 02, run on the model and on what is under test.

mod common;
use common::*;
use differential::generate::{accepted, alone, framed, largest, longest, step_on, Image};
use differential::implementation::*;
use differential::model::{Model, Session};
use differential::tally::Tally;
use differential::under_test;

const EMPTY: &str = "01 00 00 00";
const CLOSED: &str = "01 01 00 00";
/// Statement 200 at place 1 and 3 at place 2, with 300 placeholders; cursor 5 on 200, of 1,000 rows one sent.
const BY_HAND: &str = "01 00 02 01C80100 0203AC02 01 00 05 C801 E807 01";
/// The longest image of a session that keeps the rules.
const LONGEST_KEPT: usize = 916;

/// A session of one implementation to speak to.
struct Keeper<I: Implementation> {
    who: I,
    session: I::Session,
}

impl<I: Implementation> Keeper<I> {
    fn fresh(who: I) -> Keeper<I> {
        Keeper { session: who.fresh(), who }
    }

    fn step(&mut self, frame: &[u8], report: Report) -> Answer {
        let (session, answer) = self.who.step(self.session.clone(), frame, report, &mut [0; SMALLEST_REPLY]);
        self.session = session;
        answer
    }

    fn restore(&mut self, image: &[u8]) -> u8 {
        let (session, reason) = self.who.restore(self.session.clone(), image);
        self.session = session;
        reason
    }

    fn image(&self) -> Vec<u8> {
        let mut image = vec![0; MAX_IMAGE];
        let written = self.who.image(&self.session, &mut image);
        assert_eq!(written.reason, 0);
        image.truncate(written.length);
        image
    }

    fn tables(&self) -> Tables {
        self.who.tables(&self.session)
    }
}

fn fetch(cursor: u8, rows: &str) -> Vec<u8> {
    frame(CURSOR_FETCH, &format!("08{cursor:02x} {rows}"))
}

fn written_by_hand<I: Implementation>(who: I) {
    let mut keeper = Keeper::fresh(who);
    assert_eq!(keeper.image(), unhex(EMPTY));
    keeper.step(&prepare(1), PREPARED);
    keeper.step(&frame(PREPARE, "08C801 1207 0805 3203 0A0153"), PREPARED);
    keeper.step(&prepare(3), Report::prepared(300));
    keeper.step(&frame(DEALLOCATE, "0801"), NONE);
    let open = frame(CURSOR_OPEN, "0805 2207 0800 1203 08C801 2801");
    assert_eq!(keeper.step(&open, result(1, 1_000)).count, 1);
    assert_eq!(keeper.image(), unhex(BY_HAND));
    keeper.step(&framed(SESS_CLOSE, &[]), NONE);
    assert_eq!(keeper.image(), unhex(CLOSED));
}

#[test]
fn images_by_hand_are_written() {
    written_by_hand(Model::reference());
    written_by_hand(under_test());
}

fn read_by_hand<I: Implementation>(who: I) {
    let mut keeper = Keeper::fresh(who);
    assert_eq!(keeper.restore(&unhex(BY_HAND)), 0);
    let fetched = |answer: Answer| (answer.reason, answer.first, answer.count);
    assert_eq!(fetched(keeper.step(&fetch(5, "1002"), DONE)), (0, 1, 2));
    assert_eq!(fetched(keeper.step(&fetch(5, ""), DONE)), (0, 3, 997));
    assert_eq!(fetched(keeper.step(&fetch(5, ""), DONE)), (11, 0, 0));
    keeper.step(&prepare(9), PREPARED);
    assert_eq!(keeper.tables().statements[0], Statement { live: true, id: 9, placeholders: 0 });
    assert_eq!(keeper.restore(&unhex(CLOSED)), 0);
    assert_eq!(keeper.step(&prepare(9), PREPARED).reason, 4);
    assert_eq!(keeper.restore(&unhex(EMPTY)), 0);
    assert!(keeper.session == keeper.who.fresh());
}

#[test]
fn images_by_hand_go_on() {
    read_by_hand(Model::reference());
    read_by_hand(under_test());
}

/// Over a fresh session, and over one full of other words.
fn judged<I: Implementation + Copy>(who: I, image: &[u8], reason: u8) {
    for over in [who.fresh(), who.made(&largest())] {
        let mut keeper = Keeper { session: over.clone(), who };
        assert_eq!(keeper.restore(image), reason, "{image:02x?}");
        match reason {
            0 => assert_eq!(keeper.image(), image),
            _ => assert!(keeper.session == over, "{image:02x?}"),
        }
    }
}

#[test]
fn the_good_side_of_each_line_is_accepted() {
    for image in accepted() {
        assert_eq!(Model::reference().faults(&image), [], "{image:02x?}");
        judged(Model::reference(), &image, 0);
        judged(under_test(), &image, 0);
    }
}

/// Each of these breaks the rule that it names and no other.
#[test]
fn each_rule_alone_refuses() {
    for (fault, image) in alone() {
        assert_eq!(Model::reference().faults(&image), [fault], "{image:02x?}");
        judged(Model::reference(), &image, BAD_IMAGE);
        judged(under_test(), &image, BAD_IMAGE);
    }
}

/// Every size of buffer, with the bytes past the image.
fn rooms<I: Implementation>(who: &I, session: &I::Session, length: usize) {
    const FILL: u8 = 0x5a;
    let mut image = vec![FILL; MAX_IMAGE];
    assert_eq!(who.image(session, &mut image), Written { reason: 0, length });
    for room in 0..=MAX_IMAGE + 1 {
        let mut buffer = vec![FILL; room];
        let written = who.image(session, &mut buffer);
        let (reason, end) = if room < length { (TOO_SMALL, 0) } else { (0, length) };
        assert_eq!(written, Written { reason, length: end }, "room for {room}");
        assert!(buffer[..end] == image[..end] && buffer[end..].iter().all(|byte| *byte == FILL));
    }
}

fn lengths<I: Implementation>(who: I) {
    rooms(&who, &who.fresh(), unhex(EMPTY).len());
    let (kept, reason) = who.restore(who.fresh(), &longest().bytes());
    assert_eq!(reason, 0);
    rooms(&who, &kept, LONGEST_KEPT);
    rooms(&who, &who.made(&largest()), MAX_IMAGE);
}

#[test]
fn buffers_of_every_size() {
    lengths(Model::reference());
    lengths(under_test());
}

/// Statement 4 at place 3 and cursor 6 on it at place 2, of 9 rows 2 sent.
fn small(yes: u32) -> Words {
    let mut words = Words { closed: 0, statements: [[0; 3]; STATEMENTS], cursors: [[0; 5]; CURSORS] };
    words.statements[3] = [yes, 4, 1];
    words.cursors[2] = [yes, 6, 4, 9, 2];
    words
}

/// What a session of a host's own has as its image, and the reason that it gets.
fn image_and_reason<I: Implementation>(who: I, words: &Words) -> (Vec<u8>, u8) {
    let keeper = Keeper { session: who.made(words), who };
    let image = keeper.image();
    let reason = keeper.who.restore(keeper.who.fresh(), &image).1;
    (image, reason)
}

fn any_flag<I: Implementation + Copy>(who: I) {
    let expected = unhex("01 00 01 030401 01 02 06 04 09 02");
    for yes in [1, 2, 256, 1 << 31, u32::MAX] {
        let mut words = small(yes);
        // What stands in free places is not listed.
        words.statements[0] = [0, 4, 7];
        words.cursors[15] = [0, 6, 4, 1, 2];
        assert_eq!(image_and_reason(who, &words), (expected.clone(), 0));
        let (read, reason) = who.restore(who.made(&words), &expected);
        assert!(reason == 0 && read == who.made(&small(1)), "a flag of {yes}");
    }
    for closed in [1, 2, u32::MAX] {
        let words = Words { closed, statements: [[0; 3]; STATEMENTS], cursors: [[0; 5]; CURSORS] };
        assert_eq!(image_and_reason(who, &words), (unhex(CLOSED), 0));
    }
}

#[test]
fn of_a_flag_any_number_but_0_is_yes() {
    any_flag(Model::reference());
    any_flag(under_test());
}

type Change = fn(&mut Words);

/// A host's own session that breaks a rule has an image, which is refused.
fn unruly<I: Implementation + Copy>(who: I) {
    let changes: [(Change, &str); 7] = [
        (|w| w.closed = 7, "01 01 01 030401 01 0206040902"),
        (|w| w.statements[5] = [1, 4, 0], "01 00 02 030401 050400 01 0206040902"),
        (|w| w.statements[3][2] = 65_536, "01 00 01 0304808004 01 0206040902"),
        (|w| w.statements[3][0] = 0, "01 00 00 01 0206040902"),
        (|w| w.cursors[15] = [1, 6, 4, 0, 0], "01 00 01 030401 02 0206040902 0F06040000"),
        (|w| w.cursors[15] = [1, 7, 4, 0, 0], "01 00 01 030401 02 0206040902 0F07040000"),
        (|w| w.cursors[2][4] = 10, "01 00 01 030401 01 020604090A"),
    ];
    for (change, image) in changes {
        let mut words = small(1);
        change(&mut words);
        assert_eq!(image_and_reason(who, &words), (unhex(image), BAD_IMAGE), "{image}");
    }
}

#[test]
fn an_unruly_session_has_an_image() {
    unruly(Model::reference());
    unruly(under_test());
}

/// The history from an image: rows 1 to 999 of one opening.
#[test]
fn the_tally_starts_at_the_image() {
    let image = unhex(BY_HAND);
    let session = Model::reference().restore(Session::fresh(), &image).0;
    let start = Tally::from_image(&image).unwrap();
    start.check(&session.tables).unwrap();
    let suspended = unhex("010000000F 0100000011");
    let fed = |first: u64, count: u64| {
        let answer = Answer { first, count, ..Answer::default() };
        start.clone().feed(&fetch(5, ""), DONE, &answer, &suspended)
    };
    assert_eq!(fed(1, 2), Ok(()));
    assert_eq!(fed(1, 998), Ok(()));
    assert_eq!(fed(0, 2), Err("row 0 sent where 1 is next".into()));
    assert_eq!(fed(1, 1_000), Err("1000 rows sent past the end".into()));
    assert_eq!(fed(1, 999), Err("FetchDone false with 999 of 999 rows sent".into()));
    assert!(Tally::from_image(&image[1..]).is_err());
    assert!(Tally::default().check(&session.tables).is_err());
}

/// What an ending gives up of a restored cursor are the rows then left.
#[test]
fn an_ending_gives_up_the_rows_left() {
    let image = unhex(BY_HAND);
    for ending in [frame(CURSOR_CLOSE, "0805"), framed(SESS_RESET, &[]), frame(EXECUTE, "08C801")] {
        let mut talk = Talk { session: Model::reference().restore(Session::fresh(), &image).0 };
        let mut tally = Tally::from_image(&image).unwrap();
        for frame in [fetch(5, "1002"), ending] {
            let step = step_on(frame, SMALLEST_REPLY);
            let (answer, reply) = talk.step(&step.frame, step.report);
            assert_eq!(answer.reason, 0);
            tally.feed(&step.frame, step.report, &answer, &reply).unwrap();
            tally.check(&talk.session.tables).unwrap();
        }
        assert!(talk.session.tables.cursors.iter().all(|c| !c.live));
    }
}

#[test]
fn the_empty_image_and_the_shortest() {
    for (image, reason) in [("", 18), ("01", 18), ("0100", 18), ("010000", 18), (EMPTY, 0), (CLOSED, 0)] {
        judged(Model::reference(), &unhex(image), reason);
        judged(under_test(), &unhex(image), reason);
    }
    assert_eq!(Image::empty().bytes(), unhex(EMPTY));
}
