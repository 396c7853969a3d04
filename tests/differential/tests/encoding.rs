//! The encoding guide's published vectors, the eight error texts, and the
//! writer on frames that the rules spell out.

mod common;
use common::*;
use differential::implementation::*;
use differential::model::Model;

/// The one argument of an Execute whose Scalar is given in hex.
fn argument(scalar: &str) -> Argument {
    let scalar = unhex(scalar);
    let any = [&[8, 1, 18, scalar.len() as u8][..], &scalar].concat();
    let payload = [&[8, 1, 18, any.len() as u8][..], &any].concat();
    Model::reference().argument(&differential::generate::framed(EXECUTE, &payload), 0)
}

#[test]
fn guide_varint_150() {
    let message = Model::reference().read(&frame(CURSOR_CLOSE, "08 9601"));
    assert_eq!((message.reason, message.cursor), (0, 150));
}

#[test]
fn guide_string_testing() {
    let bytes = frame(PREPARE, "0801 120D 0805 3209 0A07 74657374696E67");
    let body = Model::reference().body(&bytes);
    assert_eq!(body, unhex("0A07 74657374696E67"));
}

#[test]
fn guide_minus_two() {
    // -2 takes ten bytes, and a uint32 keeps the low 32 bits.
    let message = Model::reference().read(&frame(CURSOR_CLOSE, "08 FEFFFFFFFFFFFFFFFF01"));
    assert_eq!((message.reason, message.cursor), (0, u32::MAX - 1));
}

#[test]
fn guide_zigzag() {
    let pairs = [
        ("00", 0),
        ("01", -1),
        ("02", 1),
        ("03", -2),
        ("FEFFFFFF0F", 0x7fff_ffff),
        ("FFFFFFFF0F", -0x8000_0000),
        ("FEFFFFFFFFFFFFFFFF01", i64::MAX),
        ("FFFFFFFFFFFFFFFFFF01", i64::MIN),
    ];
    for (bytes, number) in pairs {
        assert_eq!(argument(&format!("0801 10 {bytes}")), Ok(Value::Sint(number)));
    }
}

#[test]
fn arguments_of_every_type() {
    assert_eq!(argument("0802 18 8001"), Ok(Value::Uint(128)));
    assert_eq!(argument("0803"), Ok(Value::Null));
    // Header 5, id 2, args 2, Any 4, then type, tag, length, tag, length.
    let place = Place { start: 5 + 2 + 2 + 4 + 6, len: 2 };
    assert_eq!(argument("0804 2A04 0A02 0102"), Ok(Value::Octets(place)));
    assert_eq!(argument("0808 4A04 0A02 0102"), Ok(Value::Text(place)));
    assert_eq!(argument("0805 31 010000000000F07F"), Ok(Value::Double(0x7ff0_0000_0000_0001)));
    assert_eq!(argument("0806 3D 010080FF"), Ok(Value::Float(0xff80_0001)));
    assert_eq!(argument("0807 40 02"), Ok(Value::Bool(true)));
    assert_eq!(argument("0801 18 01"), Err(6));
    assert_eq!(argument("0804 2A02 1001"), Err(6));
}

#[test]
fn objects_are_8_and_past_the_last_9() {
    let execute = frame(EXECUTE, "0801 1202 0802");
    assert_eq!(Model::reference().argument(&execute, 0), Err(8));
    assert_eq!(Model::reference().pass(&execute), [Err(8), Err(9)]);
    assert_eq!(Model::reference().argument(&frame(SESS_RESET, ""), 0), Err(9));
}

/// Code and text of the Error frame a step gives.
fn error(talk: &mut Talk, frame: &[u8], report: Report) -> (Vec<u8>, String) {
    let reply = talk.step(frame, report).1;
    let payload = reply[7..].to_vec();
    let text = payload.iter().position(|byte| *byte == 0x1a).unwrap();
    let end = text + 2 + usize::from(payload[text + 1]);
    (payload[1..text].to_vec(), String::from_utf8(payload[text + 2..end].to_vec()).unwrap())
}

#[test]
fn texts_of_refusals() {
    let mut talk = Talk::fresh();
    talk.step(&prepare(1), Report::prepared(3));
    let two = frame(EXECUTE, "0801 1206 0801 1202 0803 1202 0803 1202 0802");
    let text = "Argument at index '1' and of type 'ARRAY' is not supported \
                for binding to prepared statement";
    assert_eq!(error(&mut talk, &two, NONE), (unhex("F82E"), text.into()));
    let one = frame(EXECUTE, "0801 1206 0801 1202 0803");
    let text = "There is no argument for statement placeholder at position: 1";
    assert_eq!(error(&mut talk, &one, NONE), (unhex("F92E"), text.into()));
    let text = "Cursor with ID=22 was not opened.";
    assert_eq!(error(&mut talk, &frame(CURSOR_CLOSE, "0816"), NONE), (unhex("F727"), text.into()));
    talk.step(&prepare(2), PREPARED);
    talk.step(&open(5, 2), result(0, 0));
    let text = "No more data in cursor (cursor id:'5')";
    assert_eq!(error(&mut talk, &frame(CURSOR_FETCH, "0805"), DONE), (unhex("FB2E"), text.into()));
    let failed = Report::failed(1064);
    assert_eq!(error(&mut talk, &prepare(1), failed), (unhex("A808"), "Refused (16).".into()));
    talk.step(&frame(SESS_CLOSE, ""), NONE);
    assert_eq!(error(&mut talk, &frame(46, ""), NONE), (unhex("F42E"), "Refused (4).".into()));
}

#[test]
fn the_trace_frames_written() {
    let mut out = [0x77; 20];
    let draft = Draft { kind: PREPARE, stmt: 1, operation: 5, ..Draft::default() };
    let written = Model::reference().write(&draft, &unhex("0A0153"), &[], &mut out);
    assert_eq!(written, Written { reason: 0, length: 16 });
    assert_eq!(out[..16], unhex("0C000000 28 0801 1207 0805 3203 0A0153"));
    assert_eq!(out[16..], [0x77; 4]);
    let draft = Draft { kind: CURSOR_OPEN, stmt: 1, cursor: 1, has_rows: true, rows: 1, ..Draft::default() };
    let written = Model::reference().write(&draft, &[], &[], &mut out);
    assert_eq!(out[..written.length], unhex("0D000000 2B 0801 2206 0800 1202 0801 2801"));
    assert_eq!(Model::reference().write(&draft, &[], &[], &mut out[..16]).reason, 3);
}

#[test]
fn an_appended_argument() {
    let mut out = [0x77; 14];
    let scalar = Scalar { kind: 1, bits: i64::MIN as u64, bytes: Vec::new() };
    assert_eq!(Model::reference().append(&mut out, 1, &scalar), Written { reason: 3, length: 0 });
    let scalar = Scalar { kind: 8, bits: 0, bytes: b"a".to_vec() };
    let written = Model::reference().append(&mut out, 1, &scalar);
    assert_eq!(written, Written { reason: 0, length: 14 });
    assert_eq!(out[..], unhex("77 120B 0801 1207 0808 4A03 0A0161"));
}
