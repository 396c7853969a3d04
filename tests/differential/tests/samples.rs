//! The samples V1 to V16, run on the model.

mod common;
use common::*;
use differential::implementation::*;
use differential::model::Model;

const OK: &str = "0100000000";
const DONE_THEN_OK: &str = "010000000E 0100000011";
const SUSPENDED_THEN_OK: &str = "010000000F 0100000011";

/// What a Fetch reads as fetch_rows, or its reason.
fn varint(bytes: &str) -> Result<Option<u64>, u8> {
    let message = Model::reference().read(&frame(CURSOR_FETCH, &format!("0801 10 {bytes}")));
    if message.reason == 0 {
        Ok(message.fetch_rows)
    } else {
        Err(message.reason)
    }
}

#[test]
fn p1_to_p4_framing() {
    for (bytes, reason) in [("", 1), ("00000000", 2), ("FDFF0000", 2), ("FCFF0000", 1)] {
        let answer = Talk::fresh().step(&unhex(bytes), NONE).0;
        assert_eq!(answer, Answer { reason, ..Answer::default() });
    }
}

#[test]
fn p5_p6_deallocate() {
    let mut talk = Talk::fresh();
    let deallocate = unhex("03000000 2A 08 01");
    assert_eq!(talk.reason(&deallocate, NONE), 7);
    assert_eq!(talk.reason(&prepare(1), PREPARED), 0);
    let (answer, reply) = talk.step(&deallocate, NONE);
    assert_eq!((answer.reason, answer.used, reply), (0, 7, unhex(OK)));
}

#[test]
fn p7_to_p9_varints() {
    assert_eq!(varint("80 01"), Ok(Some(128)));
    assert_eq!(varint("FFFFFFFFFF FFFFFFFFFF"), Err(6));
    assert_eq!(varint("FFFFFFFFFF FFFFFFFF01"), Ok(Some(u64::MAX)));
}

#[test]
fn p10_prepare_type_3() {
    let frame = frame(PREPARE, "0801 1207 0803 3203 0A0153");
    assert_eq!(Talk::fresh().reason(&frame, PREPARED), 6);
}

#[test]
fn p11_open_without_rows() {
    let mut talk = Talk::fresh();
    talk.step(&prepare(1), PREPARED);
    let (answer, reply) = talk.step(&open(1, 1), result(1, 0));
    assert_eq!((answer.reason, answer.columns, answer.count), (0, true, 0));
    assert_eq!(reply, unhex(DONE_THEN_OK));
    assert_eq!(talk.reason(&frame(CURSOR_FETCH, "0801"), DONE), 11);
}

#[test]
fn p12_fetch_of_no_rows() {
    let mut talk = Talk::fresh();
    talk.step(&prepare(1), PREPARED);
    talk.step(&open(1, 1), result(1, 2));
    let (answer, reply) = talk.step(&frame(CURSOR_FETCH, "0801 1000"), DONE);
    assert_eq!((answer.reason, answer.first, answer.count), (0, 0, 0));
    assert_eq!(reply, unhex(SUSPENDED_THEN_OK));
}

#[test]
fn a_65th_statement() {
    let mut talk = Talk::fresh();
    for id in 1..=64 {
        assert_eq!(talk.reason(&prepare(id), PREPARED), 0);
    }
    assert_eq!(talk.reason(&prepare(65), PREPARED), 13);
    assert_eq!(talk.step(&prepare(64), PREPARED).1, unhex(OK));
}

#[test]
fn groups_at_depth_32_and_33() {
    let nested = |depth| format!("0801 {} {}", "7B".repeat(depth), "7C".repeat(depth));
    for (depth, reason) in [(32, 7), (33, 6)] {
        assert_eq!(Talk::fresh().reason(&frame(DEALLOCATE, &nested(depth)), NONE), reason);
    }
}

#[test]
fn deallocating_12_not_live() {
    let (answer, reply) = Talk::fresh().step(&frame(DEALLOCATE, "080C"), NONE);
    assert_eq!((answer.reason, answer.reply, reply.len()), (7, 57, 57));
    let text = b"Statement with ID=12 was not prepared.";
    assert_eq!(text.len(), 38);
    let payload = [&unhex("0800 10F627 1A26")[..], text, &unhex("2205"), b"HY000"].concat();
    assert_eq!(reply, [&unhex("35000000 01")[..], &payload].concat());
}

#[test]
fn replacing_a_statement_ends_its_cursor() {
    let mut talk = Talk::fresh();
    talk.step(&prepare(1), PREPARED);
    talk.step(&open(1, 1), result(1, 2));
    talk.step(&prepare(1), PREPARED);
    assert_eq!(talk.reason(&frame(CURSOR_FETCH, "0801"), DONE), 10);
}

#[test]
fn a_sum_past_64_bits() {
    let mut talk = Talk::fresh();
    talk.step(&prepare(1), PREPARED);
    talk.step(&frame(CURSOR_OPEN, "0801 2206 0800 1202 0801 2801"), result(1, 3));
    let all = frame(CURSOR_FETCH, "0801 10 FFFFFFFFFFFFFFFFFF01");
    let (answer, reply) = talk.step(&all, DONE);
    assert_eq!((answer.first, answer.count, reply), (1, 2, unhex(DONE_THEN_OK)));
}

#[test]
fn ids_are_unsigned() {
    let (_, reply) = Talk::fresh().step(&frame(DEALLOCATE, "08FFFFFFFF0F"), NONE);
    let text = b"Statement with ID=4294967295 was not prepared.";
    assert!(reply.windows(text.len()).any(|part| part == text));
}

#[test]
fn open_at_16_cursors_of_its_own_id() {
    let mut talk = Talk::fresh();
    for id in 1..=17 {
        talk.step(&prepare(id), PREPARED);
    }
    for id in 1..=16 {
        assert_eq!(talk.reason(&open(id, id), result(1, 1)), 0);
    }
    assert_eq!(talk.reason(&open(17, 17), result(1, 1)), 14);
    assert_eq!(talk.reason(&open(16, 17), result(1, 1)), 0);
    assert_eq!(talk.reason(&open(15, 17), result(1, 1)), 12);
}
