//! The wrappers, used as a host would.

use karramotx::{
    sql_body, Args, Argument, ClientMessage, Kind, Look, Message, Operation, Refusal, Report, Session, Work,
    MIN_REPLY,
};

fn prepare(statement: u32) -> Vec<u8> {
    let body = sql_body(b"select leg from airways");
    let operation = Operation::StmtExecute;
    ClientMessage::Prepare { statement, operation, body: &body }.to_vec().unwrap()
}

fn open(cursor: u32, statement: u32, fetch_rows: Option<u64>) -> Vec<u8> {
    let args = Args::new();
    ClientMessage::Open { cursor, statement, args: &args, compact_metadata: None, fetch_rows }
        .to_vec()
        .unwrap()
}

fn fetch(cursor: u32, fetch_rows: Option<u64>) -> Vec<u8> {
    ClientMessage::Fetch { cursor, fetch_rows }.to_vec().unwrap()
}

/// The types of the frames in a reply.
fn types(reply: &[u8]) -> Vec<u8> {
    let mut found = Vec::new();
    let mut rest = reply;
    while !rest.is_empty() {
        let len = 4 + u32::from_le_bytes(rest[..4].try_into().unwrap()) as usize;
        found.push(rest[4]);
        rest = &rest[len..];
    }
    found
}

#[test]
fn a_load_from_prepare_to_fetch_done() {
    let mut session = Session::new();
    let mut reply = [0; MIN_REPLY];
    assert_eq!(session.look(&prepare(1)).work, Ok(Work::Prepare));
    let step = session.step(&prepare(1), Report::Prepared { placeholders: 0 }, &mut reply);
    assert_eq!(types(step.reply), [0]);

    let frame = open(9, 1, Some(2));
    assert_eq!(session.look(&frame).work, Ok(Work::Open));
    let step = session.step(&frame, Report::Result { columns: 3, rows: 5 }, &mut reply);
    assert_eq!(step.used, frame.len());
    assert_eq!(types(step.reply), [15, 17]);
    let sent = step.outcome.unwrap();
    assert!(sent.columns);
    assert_eq!(sent.rows, 0..2);
    assert_eq!(session.owed(), 3);

    assert_eq!(session.look(&fetch(9, Some(2))).work, Ok(Work::Fetch(2..4)));
    let step = session.step(&fetch(9, Some(2)), Report::Done, &mut reply);
    assert_eq!(types(step.reply), [15, 17]);
    let step = session.step(&fetch(9, None), Report::Done, &mut reply);
    assert_eq!(types(step.reply), [14, 17]);
    assert_eq!(step.outcome.unwrap().rows, 4..5);
    assert_eq!(session.look(&fetch(9, None)).work, Err(Refusal::AllSent));
}

#[test]
fn a_statement_prepared_anew_ends_its_cursor() {
    let mut session = Session::new();
    let mut reply = [0; MIN_REPLY];
    session.step(&prepare(1), Report::Prepared { placeholders: 0 }, &mut reply).outcome.unwrap();
    session.step(&open(9, 1, None), Report::Result { columns: 1, rows: 5 }, &mut reply).outcome.unwrap();
    assert_eq!(session.cursors().count(), 1);
    session.step(&prepare(1), Report::Prepared { placeholders: 2 }, &mut reply).outcome.unwrap();
    assert_eq!(session.cursors().count(), 0);
    assert_eq!(session.statements().map(|s| (s.id, s.placeholders)).collect::<Vec<_>>(), [(1, 2)]);
    assert_eq!(session.look(&fetch(9, None)).work, Err(Refusal::NoCursor));
}

#[test]
fn refusals_leave_the_session_as_it_was() {
    let mut session = Session::new();
    let before = session.clone();
    let mut reply = [0x5a; MIN_REPLY];
    let cut = session.step(&prepare(1)[..7], Report::None, &mut reply);
    assert_eq!((cut.used, cut.reply.len()), (0, 0));
    assert_eq!(cut.outcome, Err(Refusal::NotAllThere));
    let short = session.step(&prepare(1), Report::Prepared { placeholders: 0 }, &mut reply[..127]);
    assert_eq!(short.outcome, Err(Refusal::NoRoom));
    let wrong = session.step(&prepare(1), Report::Done, &mut reply);
    assert_eq!(wrong.outcome, Err(Refusal::BadReport));
    assert_eq!(types(wrong.reply), [1]);
    let failed = session.step(&prepare(1), Report::Failed { code: 1064 }, &mut reply);
    assert_eq!(failed.outcome, Err(Refusal::EngineFailed));
    assert_eq!(session, before);
}

#[test]
fn a_closed_session_refuses() {
    let mut session = Session::new();
    let mut reply = [0; MIN_REPLY];
    let close = ClientMessage::SessionClose.to_vec().unwrap();
    session.step(&close, Report::None, &mut reply).outcome.unwrap();
    assert!(session.is_closed());
    assert_eq!(session.look(&close).work, Err(Refusal::Closed));
}

#[test]
fn arguments_come_back_as_they_went_in() {
    let text = vec![0x41; 300];
    let all = [
        Argument::Signed(i64::MIN),
        Argument::Unsigned(u64::MAX),
        Argument::Null,
        Argument::Octets(&[]),
        Argument::Octets(&[0, 255]),
        Argument::Double(-0.0),
        Argument::Float(f32::INFINITY),
        Argument::Bool(true),
        Argument::Bool(false),
        Argument::String(&text),
    ];
    let args: Args = all.into_iter().collect();
    let frame =
        ClientMessage::Execute { statement: 3, args: &args, compact_metadata: Some(true) }.to_vec().unwrap();
    let message = Message::read(&frame).unwrap();
    assert_eq!(message.kind(), Kind::Execute);
    assert_eq!(message.compact_metadata(), Some(true));
    let back: Vec<Argument> = message.arguments().map(Result::unwrap).collect();
    assert_eq!(back, all);
    assert!(matches!(back[5], Argument::Double(z) if z.is_sign_negative()));
    assert_eq!(message.argument(9), Ok(Argument::String(&text)));
    assert_eq!(message.argument(10), Err(Refusal::FewArguments));
}

#[test]
fn every_bit_of_a_nan_is_kept() {
    let (double, float) = (0xfff0_0000_00c0_ffee, 0x7f80_0001); // signalling ones
    let args: Args = [Argument::Double(f64::from_bits(double)), Argument::Float(f32::from_bits(float))]
        .into_iter()
        .collect();
    let frame =
        ClientMessage::Execute { statement: 3, args: &args, compact_metadata: None }.to_vec().unwrap();
    let message = Message::read(&frame).unwrap();
    let mut back = message.arguments();
    assert!(matches!(back.next(), Some(Ok(Argument::Double(v))) if v.to_bits() == double));
    assert!(matches!(back.next(), Some(Ok(Argument::Float(v))) if v.to_bits() == float));
    assert!(back.next().is_none());
}

#[test]
fn a_draft_that_is_refused_writes_nothing() {
    let mut buf = [0x5a; 8];
    assert_eq!(
        ClientMessage::Fetch { cursor: 1, fetch_rows: Some(300) }.write_to(&mut buf),
        Err(Refusal::NoRoom)
    );
    let body = [0x08]; // a tag without its value
    let bad = ClientMessage::Prepare { statement: 1, operation: Operation::Find, body: &body };
    assert_eq!(bad.write_to(&mut buf), Err(Refusal::BadPayload));
    let long = sql_body(&vec![b' '; 65_600]);
    let long = ClientMessage::Prepare { statement: 1, operation: Operation::StmtExecute, body: &long };
    assert_eq!(long.to_vec(), Err(Refusal::BadLength));
    assert_eq!(buf, [0x5a; 8]);
}

#[test]
fn every_refusal_has_its_number_and_a_text() {
    for number in 1..=18 {
        let refusal = Refusal::from_number(number).expect("numbers 1 to 18 are refusals");
        assert_eq!(refusal.number(), number);
        assert!(!refusal.to_string().is_empty());
    }
    assert_eq!(Refusal::from_number(0), None);
    assert_eq!(Refusal::from_number(19), None);
}

/// The places of `ends` of a frame that is then accepted, and those of its statement and cursor.
fn inspected(
    session: &mut Session,
    frame: &[u8],
    report: Report,
) -> (Vec<usize>, Option<usize>, Option<usize>) {
    let told = session.inspect(frame);
    assert_eq!(Look { work: told.work, padded: told.padded }, session.look(frame));
    assert_eq!(told.message.unwrap().frame(), frame);
    session.step(frame, report, &mut [0; MIN_REPLY]).outcome.unwrap();
    (told.ends.collect(), told.statement_place, told.cursor_place)
}

#[test]
fn places_and_endings_are_told() {
    let mut s = Session::new();
    let (prepared, result) = (Report::Prepared { placeholders: 0 }, Report::Result { columns: 1, rows: 5 });
    for id in 0..3 {
        assert_eq!(inspected(&mut s, &prepare(id), prepared), (vec![], Some(id as usize), None));
        let place = Some(id as usize);
        assert_eq!(inspected(&mut s, &open(id + 10, id, None), result), (vec![], place, place));
    }
    assert_eq!(inspected(&mut s, &fetch(12, Some(1)), Report::Done), (vec![], None, Some(2)));
    assert_eq!(inspected(&mut s, &open(11, 1, None), result), (vec![1], Some(1), Some(1)));
    assert_eq!(inspected(&mut s, &prepare(2), prepared), (vec![2], Some(2), None));
    let close = ClientMessage::Close { cursor: 10 }.to_vec().unwrap();
    assert_eq!(inspected(&mut s, &close, Report::None), (vec![0], None, Some(0)));
    assert_eq!(inspected(&mut s, &open(10, 0, None), result), (vec![], Some(0), Some(0)));
    let reset = ClientMessage::Reset.to_vec().unwrap();
    assert_eq!(inspected(&mut s, &reset, Report::None), (vec![0, 1], None, None));
}

#[test]
fn a_frame_that_is_refused_has_no_places_or_its_own() {
    let mut s = Session::new();
    let told = s.inspect(&[1, 0, 0]);
    assert_eq!((told.work, told.ends.count()), (Err(Refusal::NotAllThere), 0));
    assert_eq!((told.statement_place, told.cursor_place), (None, None));
    let mut reply = [0; MIN_REPLY];
    s.step(&prepare(1), Report::Prepared { placeholders: 2 }, &mut reply).outcome.unwrap();
    let frame = open(9, 1, None);
    let told = s.inspect(&frame); // fewer arguments than placeholders
    assert_eq!(told.work, Err(Refusal::FewArguments));
    assert_eq!((told.statement_place, told.cursor_place), (Some(0), Some(0)));
}
