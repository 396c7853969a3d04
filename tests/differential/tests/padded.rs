//! Item 2 of document 02, sentence by sentence, on the model and on what is
//! under test.

mod common;
use common::*;
use differential::generate::framed;
use differential::implementation::*;
use differential::model::Model;
use differential::under_test;

/// What a frame that is good, or refused 17, says: the same by itself, in a
/// look, in an inspection and in a step.
fn says<I: Implementation>(who: &I, frame: &[u8], reason: u8) -> bool {
    let message = who.read(frame);
    assert_eq!(message.reason, reason, "{frame:02x?}");
    let look = who.look(&who.fresh(), frame);
    let inspection = who.inspect(&who.fresh(), frame);
    let (_, answer) = who.step(who.fresh(), frame, NONE, &mut [0; SMALLEST_REPLY]);
    let told = [look.padded, inspection.look.padded, inspection.padded, answer.padded];
    assert_eq!(told, [message.padded; 4], "{frame:02x?}");
    message.padded
}

fn check_refused(frame: &[u8], reason: u8, padded: bool) {
    assert_eq!(says(&Model::reference(), frame, reason), padded, "model: {frame:02x?}");
    assert_eq!(says(&under_test(), frame, reason), padded, "under test: {frame:02x?}");
}

fn check_frame(frame: &[u8], padded: bool) {
    check_refused(frame, 0, padded);
}

fn check(kind: u8, samples: &[(&str, bool)]) {
    samples.iter().for_each(|(payload, padded)| check_frame(&frame(kind, payload), *padded));
}

/// An Execute with one Any.
fn check_any(samples: &[(&str, bool)]) {
    for (any, padded) in samples {
        let any = unhex(any);
        let payload = [&[8, 1, 18, any.len() as u8][..], &any].concat();
        check_frame(&framed(EXECUTE, &payload), *padded);
    }
}

/// An Execute and an Open with one Scalar, and a Prepare with it in its body.
fn check_scalar(samples: &[(&str, bool)]) {
    for (scalar, padded) in samples {
        let scalar = unhex(scalar);
        let nested = |head: &[u8], inner: &[u8]| [head, &[inner.len() as u8], inner].concat();
        let any = nested(&[8, 1, 18], &scalar);
        let execute = nested(&[8, 1, 18], &any);
        check_frame(&framed(EXECUTE, &execute), *padded);
        let stmt = nested(&[8, 0, 18], &execute);
        check_frame(&framed(CURSOR_OPEN, &nested(&[8, 1, 34], &stmt)), *padded);
        let body = nested(&[10, 1, 83, 18], &any);
        let stmt = nested(&[8, 5, 50], &body);
        check_frame(&framed(PREPARE, &nested(&[8, 1, 18], &stmt)), false);
    }
}

#[test]
fn ids_and_rows_in_five_bytes() {
    check(PREPARE, &[("0801 1204 0800 1200", false), ("08 8180808000 1204 0800 1200", true)]);
    for kind in [EXECUTE, DEALLOCATE, CURSOR_CLOSE, CURSOR_FETCH] {
        check(kind, &[("0801", false), ("08 8180808000", true)]);
    }
    check(CURSOR_FETCH, &[("0801 1001", false), ("0801 10 8180808000", true)]);
    check(
        CURSOR_OPEN,
        &[
            ("0801 2206 0800 1202 0801 2801", false),
            ("08 8180808000 2206 0800 1202 0801", true),
            ("0801 220A 0800 1206 08 8180808000", true),
            ("0801 2206 0800 1202 0801 28 8180808000", true),
        ],
    );
    for kind in [SESS_RESET, SESS_CLOSE] {
        check(kind, &[("", false), ("7801", false), ("78 8180808000", true)]);
    }
}

/// Nine FF and 7F has no shorter form, and is not the writer's all the same.
#[test]
fn bytes_decide_not_length() {
    let rows = [
        ("00", false),
        ("8000", true),
        ("8001", false),
        ("FF7F", false),
        ("FF8000", true),
        ("808080808080808080 00", true),
        ("808080808080808080 01", false),
        ("808080808080808080 02", true),
        ("808080808080808080 7E", true),
        ("FFFFFFFFFFFFFFFFFF 00", true),
        ("FFFFFFFFFFFFFFFFFF 01", false),
        ("FFFFFFFFFFFFFFFFFF 03", true),
        ("FFFFFFFFFFFFFFFFFF 7F", true),
    ];
    for (varint, padded) in rows {
        check(CURSOR_FETCH, &[(&format!("0801 10 {varint}"), padded)]);
        check(CURSOR_CLOSE, &[(&format!("08 {varint}"), padded)]);
    }
}

/// The 64 bits that were sent decide, whatever is kept of them.
#[test]
fn bits_that_are_dropped_are_no_padding() {
    check(PREPARE, &[("0801 120B 08 8580808010 3203 0A0153", false)]);
    check(PREPARE, &[("0801 120C 08 858080809000 3203 0A0153", true)]);
    check(EXECUTE, &[("0801 1802", false), ("0801 18 8200", true)]);
}

#[test]
fn tags_and_lengths() {
    check(CURSOR_CLOSE, &[("8800 01", true), ("888080808080808080 02 01", true)]);
    check(PREPARE, &[("0801 9200 04 0800 1200", true), ("0801 12 8400 0800 1200", true)]);
    check(EXECUTE, &[("0801 12 8200 0802", true), ("0801 9200 02 0802", true)]);
    check(CURSOR_OPEN, &[("0801 22 8600 0800 1202 0801", true), ("0801 2207 0800 12 8200 0801", true)]);
}

#[test]
fn an_unknown_fields_own_tag_length_and_number() {
    for kind in [DEALLOCATE, CURSOR_CLOSE, CURSOR_FETCH, EXECUTE, SESS_RESET, SESS_CLOSE] {
        let samples = [
            ("0801 7801 7A01AA 7D01020304 790102030405060708", false),
            ("0801 F800 01", true),
            ("0801 78 8100", true),
            ("0801 7A 8100 AA", true),
            ("0801 FA00 01 AA", true),
            ("0801 FD00 01020304", true),
            ("0801 F900 0102030405060708", true),
            // A known number with another wire type.
            ("0801 8D00 01020304", true),
        ];
        check(kind, &samples);
    }
    // An unlisted type, and then a good one.
    check(PREPARE, &[("0801 1206 0803 0800 1200", false), ("0801 1207 08 8300 0800 1200", true)]);
}

#[test]
fn of_a_group_the_start_tag_alone() {
    for kind in KINDS {
        let good = match kind {
            PREPARE => "0801 1204 0800 1200",
            CURSOR_OPEN => "0801 2206 0800 1202 0801",
            _ => "0801",
        };
        let groups = [
            ("7B 0801 7C", false),
            ("FB00 7C", true),
            ("FB8080808080808080 02 7C", true),
            ("7B FC00", false),
            ("7B 8800 01 7C", false),
            ("7B 08 8100 7C", false),
            ("7B 0A 8100 AA 7C", false),
            ("7B FB00 7C 7C", false),
        ];
        for (group, padded) in groups {
            check(kind, &[(&format!("{good} {group}"), padded)]);
        }
    }
}

#[test]
fn nothing_inside_a_prepare_body() {
    let samples = [
        // find, and the tag and number of its one field.
        ("0801 1207 0800 1203 08 8100", false),
        ("0801 1207 0800 1203 8800 01", false),
        ("0801 1207 0800 12 8200 0801", true),
        // stmt_execute: its text, its arguments.
        ("0801 1208 0805 3204 8A00 0153", false),
        ("0801 1210 0805 320C 0A0153 1207 08 8100 1202 0803", false),
        ("0801 1210 0805 320C 0A0153 12 8600 0801 1202 0803", false),
        ("0801 1208 0805 32 8300 0A0153", true),
        ("0801 1208 08 8500 3203 0A0153", true),
    ];
    check(PREPARE, &samples);
}

/// All parts of a statement count. What is skipped unread does not, but its own
/// tag and length do.
#[test]
fn earlier_and_unchosen_parts_of_a_statement() {
    let prepares = [
        ("0801 1202 0801 1204 0800 1200", false),
        ("0801 1203 088100 1204 0800 1200", true),
        ("0801 1204 0800 1200 1203 F80001", true),
        ("0801 1204 0800 1200 1205 7B088100 7C", false),
        ("0801 12 8000 1204 0800 1200", true),
        ("0801 9200 00 1204 0800 1200", true),
        ("0801 1209 0800 1A03 088100 1200", false),
        ("0801 1205 1A03 088100 1207 1A01 FF 0800 1200", false),
        ("0801 1208 0800 1A 8100 FF 1200", true),
        ("0801 1204 1A 8100 FF 1204 0800 1200", true),
    ];
    check(PREPARE, &prepares);
    let opens = [
        ("0801 2202 0801 2206 0800 1202 0801", false),
        ("0801 2203 088100 2206 0800 1202 0801", true),
        ("0801 2206 0800 1202 0801 2203 088100", true),
        ("0801 22 8000 2206 0800 1202 0801", true),
        ("0801 2207 08 8000 1202 0801", true),
        ("0801 2209 0800 1205 0801 F80001", true),
    ];
    check(CURSOR_OPEN, &opens);
}

/// Of two bodies of a Prepare nothing inside counts, as of one; of two Executes
/// of an Open all does.
#[test]
fn a_frame_refused_17_says_what_was_read() {
    let samples = [
        (PREPARE, "0801 1206 0800 1200 1200", false),
        (PREPARE, "08 8100 1206 0800 1200 1200", true),
        (PREPARE, "0801 1209 0800 1203 088100 1200", false),
        (PREPARE, "0801 1207 0800 9200 00 1200", true),
        (PREPARE, "0801 1204 0800 1200 1203 12 8000", true),
        (PREPARE, "0801 1218 0805 3203 0A0153 320F 0A 8100 53 1209 08 8100 1202 0803 7801", false),
        (CURSOR_OPEN, "0801 220A 0800 1202 0801 1202 0801", false),
        (CURSOR_OPEN, "0801 220B 0800 1203 088100 1202 0801", true),
        (CURSOR_OPEN, "0801 220B 0800 1202 0801 1203 088100", true),
        (CURSOR_OPEN, "0801 2206 0800 1202 0801 2207 1205 1203 088200", true),
        (CURSOR_OPEN, "0801 2206 0800 1202 0801 2208 1206 1204 0802 1200", false),
        (CURSOR_OPEN, "0801 220E 0800 1206 1204 0802 1200 1202 0801", false),
        (CURSOR_OPEN, "0801 220F 0800 1207 1205 0802 12 8000 1202 0801", true),
    ];
    for (kind, payload, padded) in samples {
        check_refused(&frame(kind, payload), 17, padded);
    }
}

#[test]
fn an_any() {
    let samples = [
        ("0801 1202 0803", false),
        ("08 8100 1202 0803", true),
        ("0801 12 8200 0803", true),
        ("0801 9200 02 0803", true),
        ("0801 1202 0802 1202 0803", false),
        ("0801 1203 088300 1202 0803", true),
        ("0801 1202 0803 1203 18 8100", true),
        ("0801 12 8000 1202 0803", true),
        ("0802 1203 088300", false),
        ("0802 1203 088300 1201 FF", false),
        ("0802 12 8100 FF", true),
        ("0803 2203 088300", false),
        ("0803 22 8100 FF", true),
    ];
    check_any(&samples);
}

#[test]
fn a_scalar() {
    let samples = [
        ("0803", false),
        ("08 8300", true),
        ("8800 03", true),
        ("0801 1001", false),
        ("0801 10 8100", true),
        ("0802 18 8100", true),
        ("0807 4002", false),
        ("0807 40 8200", true),
        ("0805 31 0102030405060708", false),
        ("0805 B100 0102030405060708", true),
        ("0806 BD00 01020304", true),
        // A number that the type does not choose.
        ("0803 18 8100", true),
        ("0801 1001 40 8100", true),
    ];
    check_scalar(&samples);
}

#[test]
fn octets_and_strings() {
    for (kind, tag, padded_tag, other) in [("04", "2A", "AA00", "4A"), ("08", "4A", "CA00", "2A")] {
        let samples = [
            (format!("08{kind} {tag}03 0A0107"), false),
            (format!("08{kind} {padded_tag} 03 0A0107"), true),
            (format!("08{kind} {tag} 8300 0A0107"), true),
            (format!("08{kind} {tag}04 0A 8100 07"), true),
            (format!("08{kind} {tag}04 8A00 01 07"), true),
            (format!("08{kind} {tag}06 0A0107 10 8100"), true),
            // Earlier and later parts, and the ones that are not chosen.
            (format!("08{kind} {tag}02 0801 {tag}03 0A0107"), false),
            (format!("08{kind} {tag}03 088100 {tag}03 0A0107"), true),
            (format!("08{kind} {tag}03 0A0107 {tag}03 088100"), true),
            (format!("08{kind} {tag} 8000 {tag}03 0A0107"), true),
            (format!("08{kind} {other}03 088100 {tag}03 0A0107"), false),
            (format!("08{kind} {other}03 088100 {tag}03 0A0107 {other}01 FF"), false),
            (format!("08{kind} {tag}03 0A0107 {other} 8100 FF"), true),
            (format!("0803 {tag}03 088100"), false),
            (format!("0803 {padded_tag} 00"), true),
        ];
        check_scalar(&samples.each_ref().map(|(scalar, padded)| (&scalar[..], *padded)));
    }
}

/// Reason and flag of a look, and of a step on a reply buffer of `room` bytes.
fn told<I: Implementation>(
    who: &I,
    session: &I::Session,
    frame: &[u8],
    report: Report,
    room: usize,
) -> [(u8, bool); 2] {
    let look = who.look(session, frame);
    let (_, answer) = who.step(session.clone(), frame, report, &mut vec![0; room]);
    [(look.reason, look.padded), (answer.reason, answer.padded)]
}

fn refusals<I: Implementation>(who: I) {
    let fresh = who.fresh();
    let deallocate = frame(DEALLOCATE, "08 8100");
    let cut = &deallocate[..deallocate.len() - 1];
    let long = [&[0xfd, 0xff, 0, 0][..], &deallocate[4..]].concat();
    assert_eq!(told(&who, &fresh, cut, NONE, 128), [(1, false); 2]);
    assert_eq!(told(&who, &fresh, &long, NONE, 128), [(2, false); 2]);
    assert_eq!(told(&who, &fresh, &deallocate, NONE, 127), [(7, true), (3, false)]);
    assert_eq!(told(&who, &fresh, &deallocate, NONE, 128), [(7, true); 2]);
    assert_eq!(told(&who, &fresh, &frame(46, "08 8100"), NONE, 128), [(5, false); 2]);
    assert_eq!(told(&who, &fresh, &frame(DEALLOCATE, "08 8100 0C"), NONE, 128), [(6, false); 2]);
    assert!(!who.read(&frame(DEALLOCATE, "08 8100 0C")).padded);
    let prepare = frame(PREPARE, "08 8100 1204 0800 1200");
    assert_eq!(told(&who, &fresh, &prepare, PREPARED, 128), [(0, true); 2]);
    assert_eq!(told(&who, &fresh, &prepare, DONE, 128), [(0, true), (15, true)]);
    assert_eq!(told(&who, &fresh, &prepare, Report::failed(1), 128), [(0, true), (16, true)]);
    let (closed, _) = who.step(fresh, &frame(SESS_CLOSE, ""), NONE, &mut [0; 128]);
    assert_eq!(told(&who, &closed, &deallocate, NONE, 128), [(4, false); 2]);
    let inspection = who.inspect(&closed, &deallocate);
    assert_eq!((inspection.look.padded, inspection.padded), (false, true));
}

#[test]
fn a_frame_refused_1_to_6_says_no() {
    refusals(Model::reference());
    refusals(under_test());
}
