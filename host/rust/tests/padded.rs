//! Padded numbers: which of them count, sample by sample.

mod common;
#[path = "common/samples.rs"]
mod samples;

use common::sessions::{busy, stepped};
use common::{in_bytes, read_alone, shortest};
use karramotx::{
    sql_body, Args, Argument, ClientMessage, Operation, Refusal, Report, Session, MAX_CURSORS,
    MAX_STATEMENTS, MIN_REPLY,
};
use samples::{bytes, frame};

/// Whether a good frame is padded.
fn is_padded(frame: &[u8]) -> bool {
    common::is_padded(frame, Ok(()))
}

// ---- Samples with marks

/// A sample with marks: `!` in front of numbers whose padding counts, `?` in front of those whose padding does
/// not. Without padding the frame says no, with one mark's padding what the mark says, with that of all `?` no.
/// By itself it is good, or refused.
fn check_alone(alone: Result<(), Refusal>, kind: u8, marked: &str) {
    let with = |keep: &dyn Fn(usize) -> bool| -> Vec<u8> {
        let mark = |(i, c): (usize, char)| match c {
            '!' | '?' => keep(i).then_some('!'),
            other => Some(other),
        };
        frame(kind, &marked.chars().enumerate().filter_map(mark).collect::<String>())
    };
    let marks: Vec<(usize, char)> = marked.chars().enumerate().filter(|(_, c)| "!?".contains(*c)).collect();
    let ignored: Vec<usize> = marks.iter().filter(|(_, c)| *c == '?').map(|(i, _)| *i).collect();
    let padded = |keep: &dyn Fn(usize) -> bool| common::is_padded(&with(keep), alone);
    assert!(!padded(&|_| false), "type {kind}: {marked}, nothing padded");
    assert!(!padded(&|i| ignored.contains(&i)), "type {kind}: {marked}, each ? padded");
    for (place, mark) in marks {
        assert_eq!(padded(&|i| i == place), mark == '!', "type {kind}: {marked}, at {place}");
    }
}

fn check(kind: u8, marked: &str) {
    check_alone(Ok(()), kind, marked);
}

fn check_all(samples: &[(u8, &str)]) {
    samples.iter().for_each(|(kind, marked)| check(*kind, marked));
}

// ---- Fields that are known

#[test]
fn ids_and_rows_count_in_every_message() {
    check_all(&[
        (40, "08 !01 12 (08 00 12 ())"),
        (41, "08 !01"),
        (42, "08 !01"),
        (43, "08 !01 22 (08 00 12 (08 !01)) 28 !02"),
        (44, "08 !01"),
        (45, "08 !01 10 !02"),
    ]);
}

#[test]
fn known_tags_lengths_and_numbers_count() {
    check_all(&[
        (40, "!08 !01 !12 !(!08 !00 !12 !())"),
        (40, "!12 !(!1a !() !08 !01) !08 !01"),
        (40, "!08 !01 !12 !(!08 !02 !22 !())"),
        (40, "!08 !01 !12 !(!08 !04 !2a !())"),
        (40, "!08 !01 !12 !(!08 !05 !32 !(0a (53)))"),
        (41, "!08 !01 !18 !01"),
        (42, "!08 !01"),
        (43, "!08 !01 !22 !(!08 !00 !12 !(!08 !01 !18 !00)) !28 !02"),
        (44, "!08 !01"),
        (45, "!08 !01 !10 !02"),
    ]);
}

/// An argument of each scalar type, an object and an array.
const ARGUMENTS: [&str; 10] = [
    "!12 !(!08 !01 !12 !(!08 !01 !10 !05))",
    "!12 !(!08 !01 !12 !(!08 !02 !18 !07))",
    "!12 !(!08 !01 !12 !(!08 !03))",
    "!12 !(!08 !01 !12 !(!08 !04 !2a !(!0a !(00 80 00) !10 !01)))",
    "!12 !(!08 !01 !12 !(!08 !05 !31 81 80 80 80 00 00 00 00))",
    "!12 !(!08 !01 !12 !(!08 !06 !3d 81 80 80 00))",
    "!12 !(!12 !(!40 !01 !08 !07) !08 !01)",
    "!12 !(!08 !01 !12 !(!08 !08 !4a !(!0a !(81 80 00))))",
    "!12 !(!08 !02 !1a !(?0a ?(?0a ?(6b) ?12 ?(?08 ?01))))",
    "!12 !(!08 !03 !22 !(?0a ?(?08 ?01)))",
];

#[test]
fn all_that_is_read_of_arguments_counts() {
    for argument in ARGUMENTS {
        check(41, &format!("08 01 {argument}"));
        check(43, &format!("08 01 22 (08 00 12 (08 01 {argument}))"));
    }
    // the last of many
    check(41, &format!("08 01 {} {}", ARGUMENTS.concat().replace(['!', '?'], ""), ARGUMENTS[7]));
}

#[test]
fn nothing_inside_a_prepares_body_counts() {
    for argument in ARGUMENTS {
        let inside = argument.replace('!', "?");
        check(40, &format!("08 01 12 (08 05 32 (?0a ?(53) {inside} ?1a ?(73) ?20 ?01))"));
        check(40, &format!("08 01 12 (08 00 12 (?08 ?01 {inside}))"));
    }
    for (kind, field) in [("00", "12"), ("01", "1a"), ("02", "22"), ("04", "2a"), ("05", "32")] {
        check(40, &format!("08 01 12 (!08 !{kind} !{field} !(?0a ?(53) ?13 ?08 ?01 ?14))"));
    }
}

// ---- Fields that are not known

/// Fields of each wire type: of a group its start alone counts.
const UNKNOWN: &str = "!78 !05 !79 81 80 80 80 00 00 00 00 !7a !(81 00) !7d 81 80 80 00
    !7b ?08 ?01 ?12 ?(81 00) ?15 81 80 80 00 ?13 ?10 ?05 ?14 ?7c";

#[test]
fn unknown_fields_count() {
    for (kind, own) in [(6, ""), (7, ""), (41, "08 01"), (42, "08 01"), (44, "08 01"), (45, "08 01")] {
        check(kind, &format!("{UNKNOWN} {own}"));
        check(kind, &format!("{own} {UNKNOWN}"));
    }
    for payload in ["08 01 12 (08 00 12 ()) @", "08 01 12 (08 00 @ 12 ())"] {
        check(40, &payload.replace('@', UNKNOWN));
    }
    for payload in [
        "08 01 22 (08 00 12 (08 01)) @",
        "08 01 22 (@ 08 00 12 (08 01))",
        "08 01 22 (08 00 12 (08 01 @))",
        "08 01 22 (08 00 12 (08 01 12 (08 01 @ 12 (08 03))))",
        "08 01 22 (08 00 12 (08 01 12 (08 01 12 (@ 08 03))))",
        "08 01 22 (08 00 12 (08 01 12 (08 01 12 (08 04 2a (0a (00) @)))))",
        "08 01 22 (08 00 12 (08 01 12 (08 01 12 (08 08 4a (@ 0a (61))))))",
    ] {
        check(43, &payload.replace('@', UNKNOWN));
    }
}

#[test]
fn known_numbers_of_another_wire_type_count() {
    check_all(&[
        (45, "08 01 !0a !(81 00) !09 81 80 80 80 00 00 00 00 !12 !(01)"),
        (45, "08 01 !0b ?08 ?01 ?0c"),
        (43, "08 01 22 (08 00 12 (08 01 !0a !(?08 ?01) !10 !07)) !20 !05 !2a !(01)"),
        (40, "08 01 12 (08 00 12 () !0a !(01) !18 !05) !10 !03"),
    ]);
}

#[test]
fn enums_that_are_not_listed_count() {
    check_all(&[
        (40, "08 01 12 (!08 !03 08 00 12 () !08 !07)"),
        (43, "08 01 22 (!08 !01 08 00 12 (08 01))"),
        (41, "08 01 12 (08 01 !08 !04 12 (08 03 !08 !09))"),
    ]);
}

// ---- Parts that are skipped

#[test]
fn every_part_of_a_message_counts() {
    check_all(&[
        (40, "08 01 !12 !(!08 !00) !12 !() !12 !(!12 !(?08 ?01))"),
        (40, "08 01 !12 !(!08 !05) !12 !(!08 !00) !12 !(!12 !())"),
        (43, "08 01 !22 !(!08 !00) !28 !02 !22 !(!12 !(!08 !01 !12 !(!08 !02)))"),
        (43, "!22 !(!12 !(!08 !01)) !08 !01 !22 !() !22 !(!08 !00)"),
        (41, "08 01 12 (08 01 !12 !(!08 !02 !18 !07) !12 !(!08 !03))"),
        (41, "08 01 12 (!12 !(!18 !07) !08 !01 !12 !() !12 !(!08 !02))"),
        (41, "08 01 12 (08 01 12 (08 04 !2a !(!0a !(61)) !2a !(!0a !(62))))"),
        (41, "08 01 12 (08 01 12 (08 08 !4a !(!10 !05) !4a !() !4a !(!0a !(62))))"),
        (41, "08 01 12 (08 01 !12 !(!4a !(!0a !(61))) !12 !(!4a !(!10 !05)) !12 !(!08 !08))"),
    ]);
}

#[test]
fn nothing_inside_a_part_that_no_type_chooses_counts() {
    check_all(&[
        (40, "08 01 12 (08 05 !32 !(?0a ?(53))) 12 (!32 !(?0a ?(53))) 12 (08 00 12 ())"),
        (40, "08 01 12 (!1a !(?08 ?01) !1a !(?08 ?01)) 12 (08 00) 12 (12 (?08 ?01))"),
        (41, "08 01 12 (08 01 !12 !(?08 ?02 ?18 ?07) !12 !(?08 ?03) 08 02)"),
        (41, "08 01 12 (08 01 12 (08 04 !2a !(?0a ?(61))) 12 (!2a !(?0a ?(62))) 12 (08 03))"),
        (41, "08 01 12 (08 01 12 (!4a !(?0a ?(61)) 2a (0a (61)) !4a !(?0a ?(61))) 12 (08 04))"),
    ]);
}

#[test]
fn of_what_a_type_does_not_choose_only_tag_and_length_count() {
    check_all(&[
        (40, "08 01 12 (08 00 12 () !32 !(?0a ?(53)))"),
        (40, "08 01 12 (!12 !(?08 ?01) !1a !(?08 ?01) !22 !(?08 ?01) !2a !(?08 ?01) 08 05 32 (0a (53)))"),
        (41, "08 01 12 (08 02 !12 !(?08 ?01 ?10 ?05))"),
        (41, "08 01 12 (!12 !(?08 ?08 ?4a ?(?0a ?(61))) 08 03)"),
        (41, "08 01 12 (08 01 12 (08 01 10 07 !2a !(?0a ?(61)) !4a !(?0a ?(61))))"),
        (41, "08 01 12 (08 01 12 (08 04 2a (0a (61)) !4a !(?0a ?(61))))"),
        (41, "08 01 12 (08 01 12 (!2a !(?0a ?(61)) 4a (0a (61)) 08 08))"),
    ]);
}

#[test]
fn numbers_that_another_replaces_or_no_type_chooses_count() {
    check_all(&[
        (
            41,
            "08 01 12 (08 01 12 (08 03 !10 !05 !18 !07 !31 81 80 80 80 00 00 00 00 !3d 81 80 80 00 !40 !01))",
        ),
        (41, "!08 !02 08 01 !18 !00 18 01"),
        (45, "!08 !02 !10 !07 08 01 10 02"),
        (42, "!08 !02 08 01"),
    ]);
}

#[test]
fn texts_and_what_stands_behind_the_frame_are_not_read() {
    // both may look like padded numbers
    check(41, "08 01 12 (08 01 12 (08 08 4a (0a (08 81 80 80 80 00))))");
    let plain = frame(45, "08 01");
    let behind = [&plain[..], &bytes("08 !01")].concat();
    assert!(!is_padded(&behind));
}

// ---- Bytes, not length

fn fetch_of(rows: &[u8]) -> Vec<u8> {
    let hex: String = rows.iter().map(|b| format!("{b:02x} ")).collect();
    frame(45, &format!("08 01 10 {hex}"))
}

#[test]
fn only_the_shortest_form_is_not_padded() {
    let edges = (0..64).flat_map(|i| [1 << i, (1_u64 << i) - 1, !0 >> i]);
    for number in edges {
        for len in shortest(number)..=10 {
            let padded = is_padded(&fetch_of(&in_bytes(number, len)));
            assert_eq!(padded, len > shortest(number), "{number} in {len} bytes");
        }
    }
}

#[test]
fn a_tenth_byte_with_bits_past_64_is_padded() {
    for (number, unpadded) in [(u64::MAX, true), (1 << 63, true), (u64::MAX >> 1, false), (1, false)] {
        let mut rows = in_bytes(number, 10);
        assert_eq!(is_padded(&fetch_of(&rows)), !unpadded, "{number}");
        for bits in 1..0x40 {
            rows[9] = (number >> 63) as u8 | bits << 1;
            assert!(is_padded(&fetch_of(&rows)), "{rows:02x?}");
        }
    }
    // nine FF and 7F, and nine FF and 01, as an id, as an unknown number, and in an argument
    for (last, expected) in [("7f", true), ("01", false)] {
        let number = format!("ff ff ff ff ff ff ff ff ff {last}");
        for (kind, text) in [(44, "08 @"), (6, "78 @"), (41, "08 01 12 (08 01 12 (08 02 18 @))")] {
            assert_eq!(is_padded(&frame(kind, &text.replace('@', &number))), expected, "{text}, {last}");
        }
    }
    // a tag and a length
    assert!(is_padded(&frame(45, "88 80 80 80 80 80 80 80 80 02 01")));
    assert!(is_padded(&frame(45, "08 01 7a 82 80 80 80 80 80 80 80 80 7e 00 00")));
}

#[test]
fn a_value_that_its_field_cuts_down_is_not_padded_for_that() {
    check_all(&[
        (40, "08 01 12 (08 85 80 80 80 10 32 (0a (53)))"), // type 2^32 + 5
        (43, "08 01 22 (08 80 80 80 80 10 12 (08 01))"),
        (41, "08 01 12 (08 81 80 80 80 10 12 (08 83 80 80 80 10))"),
        (41, "08 01 18 02"), // a bool of 2
        (41, "08 01 12 (08 01 12 (08 07 40 80 80 80 80 80 80 80 80 80 01))"),
        (45, "08 81 80 80 80 10"), // cursor 2^32 + 1
        (41, "08 ff ff ff ff ff ff ff ff ff 01"),
    ]);
}

// ---- Refusals

fn prepare(statement: u32) -> ClientMessage<'static> {
    ClientMessage::Prepare { statement, operation: Operation::Find, body: &[] }
}

/// Statement 1 with a placeholder.
fn with_placeholder() -> Session {
    let mut session = Session::new();
    let frame = prepare(1).to_vec().expect("it is written");
    let report = Report::Prepared { placeholders: 1 };
    session.step(&frame, report, &mut [0; MIN_REPLY]).outcome.expect("it is accepted");
    session
}

/// Cursor 1 with all its rows sent.
fn all_sent() -> Session {
    stepped(busy(), ClientMessage::Fetch { cursor: 1, fetch_rows: None })
}

fn full_of_statements() -> Session {
    (2..=MAX_STATEMENTS as u32).map(prepare).fold(busy(), stepped)
}

fn full_of_cursors() -> Session {
    let args = Args::new();
    let (compact_metadata, fetch_rows) = (None, None);
    let open =
        |id| ClientMessage::Open { cursor: id, statement: id, args: &args, compact_metadata, fetch_rows };
    (2..=MAX_CURSORS as u32).map(open).fold(full_of_statements(), stepped)
}

/// For each reason a session in which a padded frame is refused for it, and the report.
fn refused_by_sessions() -> Vec<(u64, Session, Vec<u8>, Report)> {
    let (none, failed) = (Report::None, Report::Failed { code: 1 });
    vec![
        (7, Session::new(), frame(41, "08 !01"), none),
        (8, busy(), frame(41, "08 !01 12 (08 02)"), none),
        (9, with_placeholder(), frame(41, "08 !01"), none),
        (10, busy(), frame(45, "08 !09"), none),
        (11, all_sent(), frame(45, "08 !01"), none),
        (12, busy(), frame(43, "08 02 22 (08 00 12 (08 !01))"), none),
        (13, full_of_statements(), frame(40, "08 !7f 12 (08 00 12 ())"), none),
        (14, full_of_cursors(), frame(43, "08 7f 22 (08 00 12 (08 !30))"), none),
        (15, busy(), frame(45, "08 !01"), none),
        (16, busy(), frame(45, "08 !01"), failed),
    ]
}

#[test]
fn a_frame_refused_7_or_more_says_what_was_read() {
    for (number, mut session, padded, report) in refused_by_sessions() {
        assert!(session.look(&padded).padded, "refused {number}");
        assert!(session.inspect(&padded).padded, "refused {number}");
        let mut reply = [0; MIN_REPLY];
        let step = session.step(&padded, report, &mut reply);
        assert_eq!(step.outcome.map_err(Refusal::number), Err(number));
        assert!(step.padded, "refused {number}");
    }
}

/// A body that comes twice is read, a Prepare's without counting inside.
#[test]
fn a_frame_refused_17_says_what_was_read() {
    for (kind, marked) in [
        (40, "08 !01 12 (08 00 !12 !(?08 ?01) !12 !())"),
        (40, "!12 !(!08 !05 !32 !(?0a ?(53))) !08 !01 !12 !(!32 !(?12 ?(?08 ?02)) !08 !03)"),
        (43, "!08 !01 !22 !(!08 !00 !12 !(!08 !01) !12 !(!12 !(!08 !01 !12 !(!08 !03)))) !28 !02"),
        (43, "08 01 22 (12 (08 01 !18 !01)) 22 (08 00) 22 (!12 !(12 (08 02 !12 !(?08 ?01))))"),
    ] {
        check_alone(Err(Refusal::BodyTwice), kind, marked);
    }
}

/// The reason of a frame that must not say that it is padded.
fn refused_without_padding(session: &mut Session, frame: &[u8], room: usize) -> u64 {
    let mut reply = [0; MIN_REPLY];
    let step = session.step(frame, Report::None, &mut reply[..room]);
    let refusal = step.outcome.expect_err("it is refused");
    assert!(!step.padded, "refused {}: {frame:02x?}", refusal.number());
    if refusal != Refusal::NoRoom {
        let (look, told) = (session.look(frame), session.inspect(frame));
        assert_eq!((look.work, look.padded, told.padded), (Err(refusal), false, false), "{frame:02x?}");
    }
    // these two have nothing to do with the frame by itself
    let good = matches!(refusal, Refusal::NoRoom | Refusal::Closed);
    assert_eq!(read_alone(frame).padded, good, "{frame:02x?}");
    refusal.number()
}

#[test]
fn a_frame_refused_1_to_6_says_no() {
    let mut session = busy();
    let good = frame(45, "08 !01 !10 !02");
    for len in 0..good.len() {
        assert_eq!(refused_without_padding(&mut session, &good[..len], MIN_REPLY), 1);
    }
    for length in [0_u32, 65_533] {
        let bad = [&length.to_le_bytes(), &good[4..]].concat();
        assert_eq!(refused_without_padding(&mut session, &bad, MIN_REPLY), 2);
    }
    for room in [0, MIN_REPLY - 1] {
        assert!(session.look(&good).padded);
        assert_eq!(refused_without_padding(&mut session, &good, room), 3);
    }
    assert_eq!(refused_without_padding(&mut session, &frame(99, "08 !01"), MIN_REPLY), 5);
    for (kind, bad) in [
        (45, "08 !01 0f"),                              // wire type 7
        (45, "!10 02"),                                 // no cursor_id
        (41, "08 !01 12 (08 01)"),                      // no scalar
        (43, "08 !01 22 (08 00)"),                      // no Execute
        (40, "08 !01 12 (08 00 12 (08))"),              // a body that is no field list
        (40, "08 !01 12 (08 00 12 () 12 (08))"),        // and one that comes twice
        (41, "08 01 12 (!08 01 12 (08 02 18 !07) 0c)"), // the end of a group alone
    ] {
        assert_eq!(refused_without_padding(&mut session, &frame(kind, bad), MIN_REPLY), 6, "{bad}");
    }
    let mut closed = stepped(session, ClientMessage::SessionClose);
    assert_eq!(refused_without_padding(&mut closed, &good, MIN_REPLY), 4);
}

// ---- What the library writes

#[test]
fn what_is_written_is_not_padded() {
    let text = vec![b'S'; 300];
    let args: Args = [Argument::Signed(i64::MIN), Argument::Unsigned(u64::MAX), Argument::String(&text)]
        .into_iter()
        .collect();
    let (id, compact_metadata, fetch_rows) = (u32::MAX, Some(true), Some(u64::MAX));
    let (sql, padded) = (sql_body(&text), bytes("0a !(53)"));
    let operation = Operation::StmtExecute;
    for message in [
        ClientMessage::Reset,
        ClientMessage::SessionClose,
        ClientMessage::Prepare { statement: id, operation, body: &sql },
        ClientMessage::Prepare { statement: id, operation, body: &padded },
        ClientMessage::Execute { statement: id, args: &args, compact_metadata },
        ClientMessage::Deallocate { statement: id },
        ClientMessage::Open { cursor: id, statement: 300, args: &args, compact_metadata, fetch_rows },
        ClientMessage::Close { cursor: id },
        ClientMessage::Fetch { cursor: id, fetch_rows },
    ] {
        assert!(!is_padded(&message.to_vec().expect("it is written")), "{message:?}");
    }
}
