//! Embedded messages in parts, sample by sample, on both sides of each rule; and bodies that come twice.

#[path = "common/samples.rs"]
mod samples;
#[path = "common/sessions.rs"]
mod sessions;

use karramotx::{
    ffi, Argument, ClientMessage, Kind, Message, Operation, Refusal, Report, Session, MAX_FRAME, MIN_REPLY,
};
use samples::{bytes, frame};
use sessions::{busy, stepped, suited};

const PREPARE: u8 = Kind::Prepare as u8;
const EXECUTE: u8 = Kind::Execute as u8;
const OPEN: u8 = Kind::Open as u8;

// ---- What a sample holds

/// All that a frame holds, or the number of its refusal.
fn held(kind: u8, text: &str) -> Result<String, u64> {
    let frame = frame(kind, text);
    let m = Message::read(&frame).map_err(Refusal::number)?;
    let argument = |a: Result<Argument, Refusal>| match a {
        Ok(Argument::Double(v)) => format!("double {:x}", v.to_bits()),
        Ok(Argument::Float(v)) => format!("float {:x}", v.to_bits()),
        other => format!("{other:?}"),
    };
    let args: Vec<String> = m.arguments().map(argument).collect();
    let by_index: Vec<String> = (0..m.argument_count()).map(|i| argument(m.argument(i))).collect();
    assert_eq!(args, by_index, "{text}");
    let ids = (m.statement_id(), m.cursor_id());
    let rest = (m.fetch_rows(), m.compact_metadata(), m.operation(), m.body());
    Ok(format!("{ids:02x?} {rest:02x?} {args:?}"))
}

/// The message in parts holds what the whole one holds.
fn same(kind: u8, parts: &str, whole: &str) {
    let expected = held(kind, whole).unwrap_or_else(|number| panic!("{whole}: refused {number}"));
    assert_eq!(held(kind, parts), Ok(expected), "type {kind}: {parts}");
}

fn good(kind: u8, text: &str) {
    assert_eq!(held(kind, text).err(), None, "type {kind}: {text}");
}

fn refused(number: u64, kind: u8, text: &str) {
    assert_eq!(held(kind, text), Err(number), "type {kind}: {text}");
}

/// An Execute with one argument, an Any of these fields.
fn with_any(fields: &str) -> String {
    format!("08 01 12 ({fields})")
}

/// An Execute with one argument, a scalar of these fields.
fn with_scalar(fields: &str) -> String {
    with_any(&format!("08 01 12 ({fields})"))
}

/// Each type of a Prepare, its body's tag and a body.
const BODIES: [(&str, &str, &str); 5] = [
    ("00", "12", "08 01"),
    ("01", "1a", ""),
    ("02", "22", "08 01"),
    ("04", "2a", ""),
    ("05", "32", "0a (53)"),
];

/// Each type of a scalar, and its value.
const VALUES: [(&str, &str); 8] = [
    ("01", "10 05"),
    ("02", "18 07"),
    ("03", ""),
    ("04", "2a (0a (61 62))"),
    ("05", "31 01 02 03 04 05 06 07 08"),
    ("06", "3d 01 02 03 04"),
    ("07", "40 01"),
    ("08", "4a (0a (61 62))"),
];

// ---- Fields of all parts, in order

#[test]
fn a_statements_type_and_body_come_apart() {
    for (kind, tag, body) in BODIES {
        let whole = format!("08 01 12 (08 {kind} {tag} ({body}))");
        same(PREPARE, &format!("08 01 12 (08 {kind}) 12 ({tag} ({body}))"), &whole);
        same(PREPARE, &format!("08 01 12 ({tag} ({body})) 12 (08 {kind})"), &whole);
        same(PREPARE, &format!("12 () 12 (08 {kind}) 08 01 12 () 12 ({tag} ({body})) 12 ()"), &whole);
    }
    let whole = "08 01 22 (08 00 12 (08 07)) 28 02";
    same(OPEN, "08 01 22 (08 00) 22 (12 (08 07)) 28 02", whole);
    same(OPEN, "22 (12 (08 07)) 08 01 22 () 28 02 22 (08 00)", whole);
}

#[test]
fn a_scalars_type_and_value_come_apart() {
    for (kind, value) in VALUES {
        let whole = with_scalar(&format!("08 {kind} {value}"));
        same(EXECUTE, &with_any(&format!("08 01 12 (08 {kind}) 12 ({value})")), &whole);
        same(EXECUTE, &with_any(&format!("12 ({value}) 12 () 08 01 12 (08 {kind})")), &whole);
        let open = |execute: &str| format!("08 01 22 (08 00 12 ({execute}))");
        let parts = open(&with_any(&format!("12 ({value}) 08 01 12 (08 {kind})")));
        assert_eq!(held(OPEN, &parts).map(|_| ()), Ok(()), "{parts}");
    }
}

#[test]
fn octets_and_strings_come_apart() {
    for (kind, tag) in [("04", "2a"), ("08", "4a")] {
        let whole = with_scalar(&format!("08 {kind} {tag} (0a (61))"));
        for parts in ["@ () @ (0a (61))", "@ (10 05) @ (0a (61)) @ ()", "@ (0a (62)) @ (0a (61) 10 05)"] {
            let parts = parts.replace('@', tag);
            same(EXECUTE, &with_scalar(&format!("08 {kind} {parts}")), &whole);
            same(EXECUTE, &with_scalar(&format!("{parts} 08 {kind}")), &whole);
        }
        let layers = format!("08 01 12 (08 {kind} {tag} (0a (62))) 12 ({tag} ()) 12 () 12 ({tag} (0a (61)))");
        same(EXECUTE, &with_any(&layers), &whole);
        let in_prepare = format!("08 01 12 (32 (0a (53) 12 ({layers}))) 12 (08 05)");
        good(PREPARE, &in_prepare);
    }
}

#[test]
fn bytes_are_told_at_their_place_in_the_last_part() {
    let octets = frame(EXECUTE, &with_any("08 01 12 (08 04 2a (0a (61))) 12 (2a (0a (62 63)) 2a (10 05))"));
    let m = Message::read(&octets).expect("a good frame");
    let Ok(Argument::Octets(found)) = m.argument(0) else { panic!("octets") };
    let place = octets.windows(2).position(|w| w == b"bc").expect("they are there");
    assert_eq!((found, found.as_ptr()), (&b"bc"[..], octets[place..].as_ptr()));
}

#[test]
fn the_last_plain_field_counts_wherever_it_stands() {
    same(PREPARE, "08 01 12 (08 00) 12 (32 (0a (53))) 12 (08 05)", "08 01 12 (08 05 32 (0a (53)))");
    same(PREPARE, "08 01 12 (08 05) 12 (12 ()) 12 (08 00)", "08 01 12 (08 00 12 ())");
    same(EXECUTE, &with_any("08 01 12 (08 01 10 05) 12 (18 07) 12 (08 02)"), &with_scalar("08 02 18 07"));
    same(EXECUTE, &with_any("08 01 12 (08 02 18 05) 12 (18 07)"), &with_scalar("08 02 18 07"));
    same(EXECUTE, &with_any("08 02 12 (08 03) 08 01"), &with_scalar("08 03"));
}

#[test]
fn an_unlisted_type_in_a_later_part_leaves_the_listed_one() {
    same(PREPARE, "08 01 12 (08 05) 12 (08 03 32 (0a (53)) 08 06)", "08 01 12 (08 05 32 (0a (53)))");
    same(OPEN, "08 01 22 (08 00) 22 (12 (08 07) 08 01)", "08 01 22 (08 00 12 (08 07))");
    same(EXECUTE, &with_any("08 01 12 (08 02 18 07) 12 (08 09) 08 04"), &with_scalar("08 02 18 07"));
    refused(6, PREPARE, "08 01 12 (08 03) 12 (32 (0a (53)))");
    refused(6, OPEN, "08 01 22 (08 01) 22 (12 (08 07))");
}

#[test]
fn arguments_are_never_merged() {
    good(EXECUTE, &with_any("08 01 12 (08 03)"));
    refused(6, EXECUTE, "08 01 12 (08 01) 12 (12 (08 03))");
    same(
        EXECUTE,
        "08 01 12 (08 02) 12 (08 03) 12 (08 01 12 (08 03))",
        "08 01 12 (08 02) 12 (08 03) 12 (08 01 12 (08 03))",
    );
    let two = frame(EXECUTE, "08 01 12 (08 01 12 (08 03)) 12 (08 01 12 (08 03))");
    assert_eq!(Message::read(&two).expect("a good frame").argument_count(), 2);
}

#[test]
fn a_frame_is_full_of_parts() {
    let part = bytes("12 (08 00)");
    let mut payload = bytes("08 01");
    while payload.len() + 2 * part.len() < MAX_FRAME - 5 {
        payload.extend(&part);
    }
    payload.extend(bytes("12 (12 ())"));
    let length = u32::try_from(payload.len() + 1).expect("a frame is short");
    let frame = [&length.to_le_bytes(), &[PREPARE][..], &payload].concat();
    let m = Message::read(&frame).expect("a good frame");
    assert_eq!((m.operation(), m.body()), (Some(Operation::Find), &[][..]));
}

// ---- What is required is asked of the whole

#[test]
fn what_is_required_stands_in_some_part() {
    refused(6, PREPARE, "08 01 12 () 12 (32 (0a (53)))"); // no type
    refused(6, PREPARE, "08 01 12 (08 05) 12 ()"); // no body
    refused(6, PREPARE, "08 01 12 (08 05) 12 (12 ())"); // another type's body
    refused(6, PREPARE, "12 (08 05) 12 (32 (0a (53)))"); // no statement id
    refused(6, OPEN, "08 01 22 () 22 (12 (08 07))"); // no type
    refused(6, OPEN, "08 01 22 (08 00) 22 ()"); // no Execute
    refused(6, OPEN, "22 (08 00) 22 (12 (08 07))"); // no cursor id
    refused(6, OPEN, "08 01 22 (08 00) 22 (12 ())"); // no statement id
    refused(6, EXECUTE, &with_any("08 01 12 (18 07) 12 ()")); // no type
    refused(6, EXECUTE, &with_any("08 01 12 (08 02) 12 (10 05)")); // another type's value
    refused(6, EXECUTE, &with_any("12 (08 02) 12 (18 07)")); // no type of the Any
    refused(6, EXECUTE, &with_any("08 01 12 (08 04) 12 (4a (0a (61)))")); // a string for octets
    refused(6, EXECUTE, &with_scalar("08 04 2a () 2a (10 05)")); // no bytes
    refused(6, EXECUTE, &with_any("08 01 12 (08 08 4a ()) 12 (4a (10 05))"));
}

// ---- Each part that is read is a good list by itself

/// Two parts that would be good fields in one.
const ACROSS: [(&str, &str); 7] = [
    ("4b", "4c"),          // a group
    ("08", "05"),          // a tag and its number
    ("48 80", "01"),       // a number
    ("4a", "01 61"),       // a tag and its length
    ("4a 02 61", "62"),    // bytes
    ("4d 01 02", "03 04"), // a fixed value
    ("c8", "01 00"),       // a tag
];

#[test]
fn nothing_spans_two_parts() {
    for (a, b) in ACROSS {
        refused(6, PREPARE, &format!("08 01 12 (08 05 32 (0a (53)) {a}) 12 ({b})"));
        refused(6, OPEN, &format!("08 01 22 (08 00 {a}) 22 ({b} 12 (08 07))"));
        refused(6, EXECUTE, &with_any(&format!("08 01 12 (08 03 {a}) 12 ({b})")));
        refused(6, EXECUTE, &with_scalar(&format!("08 04 2a (0a (61) {a}) 2a ({b})")));
        refused(6, EXECUTE, &with_any(&format!("08 01 12 (08 08 4a ({a})) 12 (4a ({b} 0a (61)))")));
    }
}

#[test]
fn a_bad_part_spoils_the_frame_wherever_it_stands() {
    for place in 0..3 {
        let at = |i: usize| if i == place { "ff" } else { "" };
        let (a, b, c) = (at(0), at(1), at(2));
        refused(6, PREPARE, &format!("08 01 12 ({a}) 12 (08 05 {b}) 12 (32 (0a (53)) {c})"));
        refused(6, OPEN, &format!("08 01 22 ({a}) 22 (08 00 {b}) 22 (12 (08 07) {c})"));
        refused(6, EXECUTE, &with_any(&format!("08 01 12 ({a}) 12 (08 02 {b}) 12 (18 07 {c})")));
        refused(6, EXECUTE, &with_scalar(&format!("08 04 2a ({a}) 2a (0a (61) {b}) 2a (10 05 {c})")));
        refused(6, EXECUTE, &with_scalar(&format!("4a ({a}) 4a (0a (61) {b}) 4a (10 05 {c}) 08 08")));
    }
}

#[test]
fn groups_nest_to_32_in_each_part() {
    let nested = |depth: usize| "4b ".repeat(depth) + &"4c ".repeat(depth);
    let parts = |depth| format!("08 01 12 (08 05 {}) 12 ({} 32 (0a (53)))", nested(32), nested(depth));
    good(PREPARE, &parts(32));
    refused(6, PREPARE, &parts(33));
}

// ---- What the type of all parts does not choose stays unread

#[test]
fn bad_bytes_that_no_type_chooses_are_skipped_in_every_part() {
    good(PREPARE, "08 01 12 (32 (ff)) 12 (1a (08) 08 00) 12 (12 () 32 (0a))");
    good(PREPARE, "08 01 12 (08 05 32 (ff) 32 (ff)) 12 (12 ()) 12 (08 00)");
    good(EXECUTE, &with_any("08 01 12 (ff) 12 (08) 08 02"));
    good(EXECUTE, &with_any("12 (ff) 08 03 12 (08)"));
    good(EXECUTE, &with_any("08 01 12 (08 04 2a (ff)) 12 (4a (08) 2a (0a)) 12 (08 03)"));
    good(EXECUTE, &with_any("08 01 12 (2a (ff) 4a (0a (61))) 12 (4a () 2a (0a) 08 08)"));
    good(EXECUTE, &with_any("08 01 12 (4a (ff) 2a (0a (61))) 12 (2a () 4a (0a) 08 04)"));
}

#[test]
fn the_same_bytes_are_read_where_the_type_chooses_them() {
    refused(6, PREPARE, "08 01 12 (32 (ff)) 12 (08 00) 12 (12 ()) 12 (08 05)");
    refused(6, PREPARE, "08 01 12 (12 (ff)) 12 (08 05) 12 (08 00)");
    refused(6, EXECUTE, &with_any("08 02 12 (ff) 12 (08 03) 08 01"));
    refused(6, EXECUTE, &with_any("08 01 12 (2a (ff)) 12 (2a (0a (61))) 12 (08 04)"));
    refused(6, EXECUTE, &with_any("08 01 12 (4a (0a (61))) 12 (08 03 4a (0a)) 12 (08 08)"));
}

// ---- A body that comes twice

#[test]
fn the_chosen_body_comes_once() {
    for (kind, tag, body) in BODIES {
        refused(17, PREPARE, &format!("08 01 12 (08 {kind} {tag} ({body}) {tag} ({body}))"));
        refused(17, PREPARE, &format!("08 01 12 ({tag} ({body})) 12 (08 {kind}) 12 ({tag} ({body}))"));
        refused(17, PREPARE, &format!("08 01 12 (08 {kind} {tag} ({body})) 12 (08 {kind} {tag} ({body}))"));
        let thrice = format!("{tag} ({body}) {tag} ({body})");
        refused(17, PREPARE, &format!("08 01 12 (08 {kind} {tag} ({body})) 12 ({thrice})"));
        good(PREPARE, &format!("08 01 12 (08 {kind} {tag} ({body})) 12 (08 {kind})"));
    }
}

#[test]
fn bodies_without_bytes_are_two() {
    for (kind, tag) in [("00", "12"), ("01", "1a"), ("02", "22"), ("04", "2a")] {
        refused(17, PREPARE, &format!("08 01 12 (08 {kind} {tag} () {tag} ())"));
        refused(17, PREPARE, &format!("08 01 12 (08 {kind}) 12 ({tag} ()) 12 ({tag} ())"));
    }
    refused(17, PREPARE, "08 01 12 (08 05 32 (0a ()) 32 ())");
    refused(17, OPEN, "08 01 22 (08 00 12 (08 07) 12 ())");
}

#[test]
fn only_the_body_that_the_last_type_chooses_is_counted() {
    good(PREPARE, "08 01 12 (08 00 12 () 1a () 1a ()) 12 (1a (ff))");
    refused(17, PREPARE, "08 01 12 (08 00 12 () 1a () 1a ()) 12 (08 01)");
    refused(6, PREPARE, "08 01 12 (08 00 12 () 1a () 1a ()) 12 (1a (ff) 08 01)");
    good(PREPARE, "08 01 12 (08 01 1a () 12 () 12 () 08 03)");
    // of another wire type the number is unknown
    good(PREPARE, "08 01 12 (08 00 12 () 10 05) 12 (13 14 15 01 02 03 04)");
    good(OPEN, "08 01 22 (08 00 12 (08 07)) 22 (10 05)");
}

#[test]
fn a_doubled_body_is_read_first() {
    let twice = |first: &str, second: &str| format!("08 01 12 (08 05 32 ({first})) 12 (32 ({second}))");
    for bad in ["ff", "0a", "12 (ff)", "12 (08 01)", "12 (08 01 12 (08 02))", "4c"] {
        refused(6, PREPARE, &twice("0a (53)", bad));
        refused(6, PREPARE, &twice(bad, "0a (53)"));
        refused(6, PREPARE, &twice(&format!("0a (53) {bad}"), ""));
    }
    refused(6, PREPARE, "08 01 12 (08 00 12 (ff) 12 ())");
    refused(6, PREPARE, "08 01 12 (08 00 12 ()) 12 (12 (08))");
    // what is required may stand in one of them
    refused(17, PREPARE, &twice("", "0a (53)"));
    refused(17, PREPARE, &twice("0a (53)", "12 (08 01 12 (08 02) 12 (18 07))"));
    refused(17, PREPARE, &twice("12 (08 02) 20 01", "0a (53)"));
    refused(6, PREPARE, &twice("12 (08 02)", "20 01"));
    // nothing spans two of them
    refused(6, PREPARE, &twice("0a (53) 4b", "4c"));
    refused(6, PREPARE, "08 01 12 (08 00 12 (4b) 12 (4c))");
    // all else of the frame is read too
    refused(6, PREPARE, "12 (08 00 12 () 12 ())");
    refused(6, PREPARE, "08 01 12 (08 00 12 () 12 ()) ff");
    refused(6, PREPARE, "08 01 12 (08 00 12 () 12 ()) 12 (4c)");
}

#[test]
fn an_opens_execute_comes_once() {
    refused(17, OPEN, "08 01 22 (08 00 12 (08 07) 12 (08 07))");
    refused(17, OPEN, "08 01 22 (12 (08 07)) 28 02 22 (12 (08 08)) 22 (08 00)");
    refused(17, OPEN, "08 01 22 (08 00 12 (08 07)) 22 (08 00 12 (08 07))");
    refused(17, OPEN, "08 01 22 (08 00 12 () 12 (08 07))");
    refused(17, OPEN, "08 01 22 (08 00 12 (18 01) 12 (12 (08 03)) 12 (08 07))");
    refused(6, OPEN, "08 01 22 (08 00 12 () 12 ())");
    refused(6, OPEN, "08 01 22 (08 00 12 (08 07) 12 (ff))");
    refused(6, OPEN, "08 01 22 (08 00 12 (ff) 12 (08 07))");
    refused(6, OPEN, "08 01 22 (08 00 12 (08 07) 12 (12 (08 01)))");
    refused(6, OPEN, "08 01 22 (08 00 12 (08 07 12 (08 04)) 12 ())");
    refused(6, OPEN, "08 01 22 (08 00 12 (08 07 4b) 12 (4c))");
    refused(6, OPEN, "08 01 22 (12 (08 07) 12 (08 07))"); // no type
    refused(6, OPEN, "22 (08 00 12 (08 07) 12 (08 07))"); // no cursor id
}

// ---- What a frame refused 17 tells

/// Bodies that come twice, with and without arguments.
const TWICE: [(u8, &str); 5] = [
    (PREPARE, "08 01 12 (08 00 12 () 12 ())"),
    (PREPARE, "08 01 12 (08 05 32 (0a (53) 12 (08 01 12 (08 03)))) 12 (32 (12 (08 02)))"),
    (OPEN, "08 01 22 (08 00 12 (08 01) 12 (08 01)) 28 02"),
    (OPEN, "08 01 22 (08 00 12 (08 01 12 (08 01 12 (08 03))) 12 (12 (08 03) 18 01))"),
    (OPEN, "08 63 22 (08 00 12 (08 63 12 (08 02)) 12 (08 63))"), // neither id is live
];

#[test]
fn it_has_no_body_no_fields_and_no_arguments() {
    for (kind, text) in TWICE {
        let frame = frame(kind, text);
        let (at, len) = (frame.as_ptr(), frame.len());
        // SAFETY: the pointer and the length are those of a slice.
        let (read, body) = unsafe { (ffi::karramotx_read(at, len), ffi::karramotx_body(at, len)) };
        let empty = ffi::Message { reason: 17, used: len, ..ffi::Message::default() };
        let args = ffi::Arguments { good: read.args.good, ..ffi::Arguments::default() };
        assert_eq!(read, ffi::Message { args, ..empty }, "{text}");
        assert_eq!(body.len, 0, "{text}");
        for index in [0, 1, 2, 9, usize::MAX] {
            // SAFETY: the pointer and the length are those of a slice.
            let value = unsafe { ffi::karramotx_argument(at, len, index) };
            assert_eq!(value, ffi::Value { reason: 17, ..ffi::Value::default() }, "{text}, argument {index}");
        }
    }
}

/// 6017 and its text, with severity 0 and state HY000.
const ERROR: &str = "01 08 00 10 81 2f 1a (52 65 66 75 73 65 64 20 28 31 37 29 2e) 22 (48 59 30 30 30)";

#[test]
fn a_step_answers_its_error_and_leaves_the_session() {
    let expected = bytes(ERROR);
    for (kind, text) in TWICE {
        let frame = frame(kind, text);
        for report in [Report::None, Report::Result { columns: 1, rows: 5 }, Report::Failed { code: 1 }] {
            let mut session = busy();
            let before = session.clone();
            assert_eq!(session.look(&frame).work, Err(Refusal::BodyTwice), "{text}");
            let mut reply = [0x5a; MIN_REPLY];
            let step = session.step(&frame, report, &mut reply);
            assert_eq!((step.outcome, step.used), (Err(Refusal::BodyTwice), frame.len()), "{text}");
            assert_eq!(step.reply[..4], u32::to_le_bytes(expected.len() as u32), "{text}");
            assert_eq!(step.reply[4..], expected, "{text}");
            assert!(reply[4 + expected.len()..].iter().all(|b| *b == 0x5a), "{text}");
            assert_eq!(session, before, "{text}");
        }
    }
}

#[test]
fn an_inspection_touches_nothing() {
    for (kind, text) in TWICE {
        let frame = frame(kind, text);
        let told = busy().inspect(&frame);
        assert_eq!(told.work, Err(Refusal::BodyTwice), "{text}");
        assert_eq!(told.message.err(), Some(Refusal::BodyTwice), "{text}");
        assert_eq!((told.statement_place, told.cursor_place, told.ends.count()), (None, None, 0), "{text}");
    }
}

#[test]
fn no_room_and_a_closed_session_come_first() {
    for (kind, text) in TWICE {
        let frame = frame(kind, text);
        let mut closed = stepped(busy(), ClientMessage::SessionClose);
        assert_eq!(closed.look(&frame).work, Err(Refusal::Closed), "{text}");
        assert_eq!(closed.inspect(&frame).message.err(), Some(Refusal::BodyTwice), "{text}");
        let step = closed.step(&frame, Report::None, &mut [0; MIN_REPLY]).outcome;
        assert_eq!(step, Err(Refusal::Closed), "{text}");
        let short = busy().step(&frame, Report::None, &mut [0; MIN_REPLY - 1]).outcome;
        assert_eq!(short, Err(Refusal::NoRoom), "{text}");
    }
}

#[test]
fn bytes_behind_the_frame_make_no_difference() {
    let once = frame(PREPARE, "08 01 12 (08 00 12 ())");
    let behind = [&once[..], &bytes("12 (12 ())")].concat();
    let m = Message::read(&behind).expect("a good frame");
    assert_eq!((m.frame(), m.operation()), (&once[..], Some(Operation::Find)));
}

// ---- Steps on messages in parts

#[test]
fn a_load_from_frames_in_parts() {
    let mut session = Session::new();
    let mut step = |kind: u8, text: &str| {
        let frame = frame(kind, text);
        let report = suited(&session.look(&frame).work);
        session.step(&frame, report, &mut [0; MIN_REPLY]).outcome.expect("it is accepted").rows
    };
    assert_eq!(step(PREPARE, "12 (08 05) 08 01 12 (32 (0a (53)))"), 0..0);
    assert_eq!(step(EXECUTE, &with_any("12 (18 07) 08 01 12 (08 02)")), 0..5);
    assert_eq!(step(OPEN, "22 (12 (08 01)) 08 09 28 02 22 (08 00)"), 0..2);
    assert_eq!(step(Kind::Fetch as u8, "08 09"), 2..5);
    assert_eq!(session.owed(), 0);
}

// ---- The writer judges as the reader does

fn written(kind: Kind, body: &[u8], args: &[u8]) -> u64 {
    let operation = Operation::StmtExecute as u64;
    let draft = ffi::Draft { kind: kind as u64, stmt: 1, cursor: 1, operation, ..ffi::Draft::default() };
    let mut buf = [0; 256];
    // SAFETY: pointers and lengths are those of slices, and the buffer is borrowed uniquely.
    let sent = unsafe {
        let (body, args) = ((body.as_ptr(), body.len()), (args.as_ptr(), args.len()));
        ffi::karramotx_write(draft, body.0, body.1, args.0, args.1, buf.as_mut_ptr(), buf.len())
    };
    if sent.reason == 0 {
        Message::read(&buf[..sent.len]).expect("what is written is read");
    }
    sent.reason
}

#[test]
fn the_writer_takes_arguments_in_parts() {
    for (any, reason) in [
        ("08 01 12 (08 02) 12 (18 07)", 0),
        ("12 (18 07) 08 01 12 () 12 (08 02)", 0),
        ("08 01 12 (08 04 2a ()) 12 (2a (0a (61)))", 0),
        ("08 01 12 (ff) 12 (08 03)", 6),
        ("08 01 12 (08 03) 12 (ff)", 6),
        ("08 02 12 (ff) 12 (08 03)", 0),
        ("08 01 12 (08 04 2a (ff)) 12 (2a (0a (61)))", 6),
        ("08 01 12 (08 03 2a (ff)) 12 (2a (0a (61)))", 0),
        ("08 01 12 (08 02) 12 ()", 6),
    ] {
        let args = bytes(&format!("12 ({any})"));
        let body = bytes(&format!("0a (53) 12 ({any})"));
        assert_eq!(written(Kind::Execute, &[], &args), reason, "{any}");
        assert_eq!(written(Kind::Open, &[], &args), reason, "{any}");
        assert_eq!(written(Kind::Prepare, &body, &[]), reason, "{any}");
    }
}
