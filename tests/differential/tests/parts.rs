//! Item 3 of document 02, sentence by sentence, on the model and on what is
//! under test.

mod common;
use common::*;
use differential::generate::framed;
use differential::implementation::*;
use differential::model::Model;
use differential::under_test;

/// What a frame reads as, the same on both.
fn read(kind: u8, payload: &str) -> Message {
    let frame = frame(kind, payload);
    let message = Model::reference().read(&frame);
    assert_eq!(under_test().read(&frame).comparable(), message.clone().comparable(), "{payload}");
    message
}

fn check(kind: u8, samples: &[(&str, u8)]) {
    for (payload, reason) in samples {
        assert_eq!(read(kind, payload).reason, *reason, "{kind}: {payload}");
    }
}

/// Type of a Prepare and bytes of its body.
fn prepared(payload: &str) -> (u32, Vec<u8>) {
    let message = read(PREPARE, payload);
    assert_eq!(message.reason, 0, "{payload}");
    let frame = frame(PREPARE, payload);
    let body = Model::reference().body(&frame);
    assert_eq!(under_test().body(&frame), body, "{payload}");
    (message.operation, body.to_vec())
}

fn nested(head: &[u8], inner: &[u8]) -> Vec<u8> {
    [head, &[inner.len() as u8], inner].concat()
}

/// The argument of an Execute with one Any; its bytes, if it has such, for
/// their place.
fn argument(any: &str) -> Result<(Value, Vec<u8>), u8> {
    let frame = framed(EXECUTE, &nested(&[8, 1, 18], &unhex(any)));
    let found = Model::reference().argument(&frame, 0);
    assert_eq!(under_test().argument(&frame, 0), found, "{any}");
    let value = found?;
    Ok(match value {
        Value::Octets(place) => (Value::Octets(Place::default()), place.of(&frame).to_vec()),
        Value::Text(place) => (Value::Text(Place::default()), place.of(&frame).to_vec()),
        other => (other, Vec::new()),
    })
}

fn number(any: &str) -> Result<Value, u8> {
    argument(any).map(|(value, _)| value)
}

#[test]
fn a_statement_in_two_parts() {
    // Type and body apart, in either order, and with the id between them.
    assert_eq!(prepared("0801 1202 0800 1204 1202 0801"), (0, unhex("0801")));
    assert_eq!(prepared("0801 1204 1202 0801 1202 0800"), (0, unhex("0801")));
    assert_eq!(prepared("1202 0805 0801 1205 3203 0A0153"), (5, unhex("0A0153")));
    assert_eq!(prepared("1205 3203 0A0153 1200 0801 1202 0805 1200"), (5, unhex("0A0153")));
    let opened = read(CURSOR_OPEN, "2202 0800 0802 2204 1202 0803 2801");
    assert_eq!((opened.reason, opened.cursor, opened.stmt, opened.fetch_rows), (0, 2, 3, Some(1)));
    check(CURSOR_OPEN, &[("0801 2204 1202 0803 2202 0800", 0), ("0801 2204 1202 0803 2202 0801", 6)]);
}

/// The last listed type counts, wherever it stands.
#[test]
fn the_last_type_wins() {
    assert_eq!(prepared("0801 1204 0800 1200 1207 0805 3203 0A0153"), (5, unhex("0A0153")));
    assert_eq!(prepared("0801 1207 0805 3203 0A0153 1204 0800 1200"), (0, Vec::new()));
    assert_eq!(prepared("0801 1207 0805 3203 0A0153 1202 0803"), (5, unhex("0A0153")));
    check(PREPARE, &[("0801 1207 0805 3203 0A0153 1202 0800", 6), ("0801 1204 0800 1200 1202 0805", 6)]);
    check(CURSOR_OPEN, &[("0801 2206 0800 1202 0801 2202 0801", 0)]);
    assert_eq!(number("0801 1204 0801 1002 1204 0802 1807"), Ok(Value::Uint(7)));
    assert_eq!(number("0801 1204 0801 1002 1202 0809"), Ok(Value::Sint(1)));
    assert_eq!(number("0801 1204 0801 1002 1202 0802"), Err(6));
}

#[test]
fn a_scalar_in_parts() {
    assert_eq!(number("0801 1202 0801 1202 1002"), Ok(Value::Sint(1)));
    assert_eq!(number("1202 1002 0801 1202 0801"), Ok(Value::Sint(1)));
    assert_eq!(number("0801 1204 0801 1002 1202 1004"), Ok(Value::Sint(2)));
    assert_eq!(number("0801 1204 0801 1002 1200"), Ok(Value::Sint(1)));
    assert_eq!(number("0801 1205 3D 01020304 1202 0806"), Ok(Value::Float(0x0403_0201)));
    assert_eq!(number("0801 1202 4000 1204 0807 4002"), Ok(Value::Bool(true)));
    // The value is required of the whole, and so is the type.
    assert_eq!(number("0801 1202 0801 1202 1802"), Err(6));
    assert_eq!(number("0801 1202 1002 1202 1004"), Err(6));
}

#[test]
fn octets_and_strings_in_parts() {
    for (kind, tag, value) in
        [("04", "2A", Value::Octets(Place::default())), ("08", "4A", Value::Text(Place::default()))]
    {
        let held = |text: &str| argument(&text.replace("kind", kind).replace("tag", tag));
        let bytes = |hex: &str| Ok((value, unhex(hex)));
        assert_eq!(held("0801 120A 08kind tag02 1001 tag02 0A00"), bytes(""));
        assert_eq!(held("0801 120A 08kind tag03 0A0107 tag01 08"), Err(6));
        assert_eq!(held("0801 120B 08kind tag03 0A0107 tag02 1001"), bytes("07"));
        // The last one over all parts counts, over those of the Scalar too.
        assert_eq!(held("0801 120D 08kind tag03 0A0107 tag04 0A020809"), bytes("0809"));
        assert_eq!(held("0801 1207 08kind tag03 0A0107 1204 tag02 1001"), bytes("07"));
        assert_eq!(held("0801 1205 tag03 0A0107 1207 08kind tag03 0A0108"), bytes("08"));
        assert_eq!(held("0801 1207 08kind tag03 0A0107 1200 1205 tag03 0A0108"), bytes("08"));
        // Its bytes are required of the whole.
        assert_eq!(held("0801 120A 08kind tag02 1001 tag02 1001"), Err(6));
    }
}

/// Arguments are repeated: halves of one are two bad ones.
#[test]
fn arguments_are_not_merged() {
    check(EXECUTE, &[("0801 1206 0801 1202 0803", 0), ("0801 1202 0801 1204 1202 0803", 6)]);
    let message = read(EXECUTE, "0801 1206 0801 1202 0803 1202 0802 1202 0803");
    assert_eq!((message.reason, message.args), (0, vec![Value::Null, Value::Object, Value::Array]));
}

#[test]
fn each_part_read_must_be_a_good_field_list() {
    let prepares = [
        ("0801 1206 0800 1200 7B7C", 0),
        // A group, a tag and its length, a length and its bytes: all span two parts.
        ("0801 1205 0800 1200 7B 1201 7C", 6),
        ("0801 1203 0800 12 1201 00", 6),
        ("0801 1204 0800 1201 1202 0801", 6),
        ("0801 1201 08 1203 00 1200", 6),
        // A bad part, before and behind a good one.
        ("0801 1201 FF 1204 0800 1200", 6),
        ("0801 1204 0800 1200 1201 FF", 6),
        ("0801 1200 1204 0800 1200", 0),
    ];
    check(PREPARE, &prepares);
    let opens = [
        ("0801 2208 0800 1202 0801 7B7C", 0),
        ("0801 2207 0800 1202 0801 7B 2201 7C", 6),
        ("0801 2203 0800 12 2203 02 0801", 6),
        ("0801 2201 FF 2206 0800 1202 0801", 6),
        ("0801 2206 0800 1202 0801 2201 FF", 6),
    ];
    check(CURSOR_OPEN, &opens);
    assert_eq!(number("0801 1204 0803 7B7C"), Ok(Value::Null));
    assert_eq!(number("0801 1203 0803 7B 1201 7C"), Err(6));
    assert_eq!(number("0801 1201 08 1201 03"), Err(6));
    assert_eq!(number("0801 1201 FF 1202 0803"), Err(6));
    assert_eq!(number("0801 120A 0804 2A01 FF 2A03 0A0107"), Err(6));
    assert_eq!(number("0801 120A 0804 2A01 0A 2A03 0A0107"), Err(6));
    assert_eq!(number("0801 1209 0804 2A02 0A01 2A01 07"), Err(6));
}

#[test]
fn what_a_type_does_not_choose_stays_unread() {
    let prepares = [
        ("0801 1203 1A01FF 1207 1A01FE 0800 1200", 0),
        ("0801 1203 1201FF 1203 1201FE 1207 0805 3203 0A0153", 0),
        ("0801 1203 1201FF 1202 0800", 6),
    ];
    // In the last one the bad body is of the type that is chosen in the end.
    check(PREPARE, &prepares);
    assert_eq!(number("1201 FF 0802 1201 FE"), Err(8));
    assert_eq!(number("1201 FF 0803 1201 FE"), Err(8));
    assert_eq!(number("1201 FF 0802 0801 1202 0803"), Err(6));
    assert_eq!(number("0801 1203 2A01FF 1208 0803 2A01FE 4A01FF"), Ok(Value::Null));
    assert_eq!(
        number("0801 1203 4A01FF 1207 0804 2A03 0A0107"),
        argument("0801 1207 0804 2A03 0A0107").map(|a| a.0)
    );
    assert_eq!(number("0801 1203 4A01FF 1207 0808 4A03 0A0107"), Err(6));
}

#[test]
fn what_is_required_is_asked_of_the_whole() {
    let prepares = [
        ("0801 1202 1200 1200", 6),
        ("0801 1202 0800 1202 0800", 6),
        ("1202 0800 1202 1200", 6),
        ("0801", 6),
    ];
    check(PREPARE, &prepares);
    let opens = [
        ("0801 2204 1202 0801 2200", 6),
        ("0801 2202 0800 2202 0800", 6),
        ("0801 2202 0800 2202 1200", 6),
        ("2202 0800 2204 1202 0801", 6),
    ];
    check(CURSOR_OPEN, &opens);
}

/// 17 where the chosen body stands more than once, over all parts.
#[test]
fn a_body_more_than_once() {
    let prepares = [
        ("0801 1206 0800 1200 1200", 17),
        ("0801 1204 0800 1200 1202 1200", 17),
        ("0801 1202 1200 1202 1200 1202 0800", 17),
        // Once, with a part of no bytes behind it.
        ("0801 1202 1200 1200 1202 0800", 0),
        ("0801 120C 0805 3203 0A0153 3203 0A0154", 17),
        // Another body twice, and the chosen number with another wire type.
        ("0801 1208 0800 1200 1A00 1A00", 0),
        ("0801 1209 0800 1200 15 01020304", 0),
        // Counted by the last type.
        ("0801 1206 0800 1200 1200 1207 0805 3203 0A0153", 0),
        ("0801 1206 0805 1200 1200 1202 0800", 17),
    ];
    check(PREPARE, &prepares);
    for (kind, tag) in [("00", "12"), ("01", "1A"), ("02", "22"), ("04", "2A")] {
        check(PREPARE, &[(&format!("0801 1204 08{kind} {tag}00 1202 {tag}00"), 17)]);
    }
    let opens = [
        ("0801 220A 0800 1202 0801 1202 0801", 17),
        ("0801 2206 0800 1202 0801 2204 1202 0801", 17),
        ("0801 2206 0800 1202 0801 2202 1200", 17),
        ("0801 2206 0800 1202 0801 2202 1801", 0),
    ];
    check(CURSOR_OPEN, &opens);
}

/// 6 comes first: all bodies are read, what is required is asked of them all,
/// and every argument must be good.
#[test]
fn six_before_17() {
    let prepares = [
        ("0801 1207 0800 1200 1201 FF", 6),
        ("0801 1207 0800 1201 FF 1200", 6),
        ("0801 1208 0800 1201 7B 1201 7C", 6),
        // No text, a text in the first and in the last.
        ("0801 1206 0805 3200 3200", 6),
        ("0801 1209 0805 3203 0A0153 3200", 17),
        ("0801 1209 0805 3200 3203 0A0153", 17),
        ("0801 120D 0805 3203 0A0153 3204 1202 0802", 17),
        ("0801 120D 0805 3203 0A0153 3204 1202 0801", 6),
        ("0801 120D 0805 3204 1202 0801 3203 0A0153", 6),
        // The id of the Prepare is missing.
        ("1206 0800 1200 1200", 6),
    ];
    check(PREPARE, &prepares);
    let opens = [
        ("0801 2206 0800 1200 1200", 6),
        ("0801 220A 0800 1202 0801 1202 1801", 17),
        ("0801 220A 0800 1202 1801 1202 0801", 17),
        ("0801 2209 0800 1202 0801 1201 FF", 6),
        ("0801 220C 0800 1202 0801 1204 1202 0802", 17),
        ("0801 220C 0800 1204 1202 0801 1202 0801", 6),
        ("220A 0800 1202 0801 1202 0801", 6),
    ];
    check(CURSOR_OPEN, &opens);
}

fn refused_17<I: Implementation>(who: I) {
    let two = [
        frame(PREPARE, "0801 1217 0805 320B 0A0153 1206 0801 1202 0803 3206 1204 0802 1200"),
        frame(CURSOR_OPEN, "0801 2210 0800 120A 0801 1206 0801 1202 0803 1200"),
    ];
    for frame in &two {
        let refused = Message::refused(17, frame.len());
        assert_eq!(who.read(frame), refused, "{frame:02x?}");
        assert_eq!(who.body(frame), [0; 0]);
        assert!([0, 1, 2, u64::MAX].iter().all(|index| who.argument(frame, *index) == Err(17)));
        let fresh = who.fresh();
        assert_eq!(who.look(&fresh, frame), Look { reason: 17, ..Look::default() });
        let mut reply = [0x77; 128];
        let (after, answer) = who.step(fresh.clone(), frame, NONE, &mut reply);
        let error = [&unhex("1C000000 01 0800 10812F 1A0D")[..], b"Refused (17).", &unhex("2205"), b"HY000"];
        let error = error.concat();
        let used = frame.len();
        assert_eq!(answer, Answer { reason: 17, used, reply: error.len(), ..Answer::default() });
        assert_eq!(reply[..error.len()], error);
        assert_eq!(reply[error.len()..], [0x77].repeat(128 - error.len()));
        assert_eq!(who.tables(&after), who.tables(&fresh));
    }
}

#[test]
fn a_frame_refused_17() {
    refused_17(Model::reference());
    refused_17(under_test());
}

/// Reasons of a look and of a step.
fn reasons<I: Implementation>(who: &I, session: &I::Session, frame: &[u8], room: usize) -> (u8, u8) {
    let (_, answer) = who.step(session.clone(), frame, NONE, &mut vec![0; room]);
    (who.look(session, frame).reason, answer.reason)
}

/// Before 7 and all behind it, after 3, 4 and 6.
fn order<I: Implementation>(who: I) {
    let mut session = who.fresh();
    let two = frame(CURSOR_OPEN, "0801 220A 0800 1202 0801 1202 0801");
    assert_eq!(reasons(&who, &session, &two, 128), (17, 17));
    assert_eq!(reasons(&who, &session, &two, 127), (17, 3));
    assert_eq!(reasons(&who, &session, &open(1, 1), 128), (7, 7));
    for id in 1..=64 {
        (session, _) = who.step(session, &prepare(id), PREPARED, &mut [0; 128]);
    }
    assert_eq!(reasons(&who, &session, &prepare(65), 128), (13, 13));
    let two = frame(PREPARE, "0841 1206 0800 1200 1200");
    assert_eq!(reasons(&who, &session, &two, 128), (17, 17));
    (session, _) = who.step(session, &frame(SESS_CLOSE, ""), NONE, &mut [0; 128]);
    assert_eq!(reasons(&who, &session, &two, 128), (4, 4));
    assert_eq!(reasons(&who, &session, &two, 127), (4, 3));
}

#[test]
fn after_6_and_before_7() {
    order(Model::reference());
    order(under_test());
}

/// The writer takes what the reader takes.
fn stretches<I: Implementation>(who: I) {
    let samples = [
        ("1206 0801 1202 0803", 0),
        ("120A 0801 1202 0801 1202 1002", 0),
        ("1202 0801 1204 1202 0803", 6),
        ("1209 0801 1201 FF 1202 0803", 6),
        ("1209 0802 1201 FF 1202 0803", 0),
        ("120E 0801 120A 0804 2A02 1001 2A02 0A00", 0),
        ("120D 0801 1209 0804 2A01 FF 2A02 0A00", 6),
    ];
    for (stretch, reason) in samples {
        for kind in [EXECUTE, CURSOR_OPEN] {
            let draft = Draft { kind, ..Draft::default() };
            assert_eq!(who.write(&draft, &[], &unhex(stretch), &mut [0; 100]).reason, reason, "{stretch}");
        }
        let body = [unhex("0A0153"), unhex(stretch)].concat();
        let draft = Draft { kind: PREPARE, operation: 5, ..Draft::default() };
        assert_eq!(who.write(&draft, &body, &[], &mut [0; 100]).reason, reason, "{stretch}");
    }
}

#[test]
fn the_writer_judges_by_the_same_rules() {
    stretches(Model::reference());
    stretches(under_test());
}

/// A frame full of parts takes no longer than another of its length.
#[test]
fn as_many_parts_as_a_frame_holds() {
    let none = [0x12, 0].repeat(32_000);
    let stmt = unhex("1204 0800 1200");
    let message = |payload: &[u8]| {
        let frame = framed(PREPARE, payload);
        let message = Model::reference().read(&frame);
        assert_eq!(under_test().read(&frame).comparable(), message.clone().comparable());
        message.reason
    };
    assert_eq!(message(&[&unhex("0801")[..], &none, &stmt].concat()), 0);
    assert_eq!(message(&[&unhex("0801")[..], &stmt, &none, &stmt].concat()), 17);
    assert_eq!(message(&[&unhex("0801")[..], &stmt, &none, &[0x12, 1, 0xff]].concat()), 6);
}
