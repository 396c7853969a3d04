//! A session is words that the host owns: whatever stands in them, nothing is trusted.

use karramotx::ffi::*;
use karramotx::{sql_body, Args, ClientMessage, Operation, MIN_REPLY};

/// The flags that are no 0 mean yes.
const YES: [u32; 4] = [1, 2, 256, 1 << 31];

fn step(session: &mut Session, frame: &[u8], report: Report) -> (Answer, [u8; MIN_REPLY]) {
    let mut reply = [0; MIN_REPLY];
    // SAFETY: pointers and lengths are those of slices, and what is written is borrowed uniquely.
    let answer = unsafe {
        karramotx_step(session, frame.as_ptr(), frame.len(), report, reply.as_mut_ptr(), reply.len())
    };
    (answer, reply)
}

fn look(session: &Session, frame: &[u8]) -> Look {
    // SAFETY: the pointers and the length are those of a session and a slice, which are only read.
    unsafe { karramotx_look(session, frame.as_ptr(), frame.len()) }
}

fn counts(session: &Session) -> Counts {
    // SAFETY: the pointer is that of a session, which is only read.
    unsafe { karramotx_counts(session) }
}

fn fresh() -> Session {
    // SAFETY: it takes nothing.
    unsafe { karramotx_fresh() }
}

/// One frame of each kind, and the report that it wants.
fn frames() -> Vec<(Vec<u8>, Report)> {
    let body = sql_body(b"select leg");
    let args = Args::new();
    let (compact_metadata, fetch_rows) = (None, Some(2));
    let operation = Operation::StmtExecute;
    let prepared = Report { kind: 1, ..Default::default() };
    let result = Report { kind: 2, columns: 1, rows: 5, ..Default::default() };
    let done = Report { kind: 3, ..Default::default() };
    let none = Report::default();
    let messages = [
        (ClientMessage::Prepare { statement: 7, operation, body: &body }, prepared),
        (ClientMessage::Open { cursor: 9, statement: 7, args: &args, compact_metadata, fetch_rows }, result),
        (ClientMessage::Fetch { cursor: 9, fetch_rows }, done),
        (ClientMessage::Execute { statement: 7, args: &args, compact_metadata }, result),
        (ClientMessage::Close { cursor: 9 }, none),
        (ClientMessage::Deallocate { statement: 7 }, none),
        (ClientMessage::Reset, none),
        (ClientMessage::SessionClose, none),
    ];
    messages.into_iter().map(|(message, report)| (message.to_vec().expect("it is written"), report)).collect()
}

/// Statement 7 with cursor 9 on it, behind another statement.
fn busy() -> Session {
    let mut session = fresh();
    let frames = frames();
    let other = ClientMessage::Prepare { statement: 3, operation: Operation::Find, body: &[] };
    step(&mut session, &other.to_vec().expect("it is written"), frames[0].1);
    for (frame, report) in &frames[..2] {
        assert_eq!(step(&mut session, frame, *report).0.reason, 0);
    }
    session
}

/// The session with each flag that is set as this number.
fn flagged(session: &Session, yes: u32) -> Session {
    let flag = |f: u32| if f == 0 { 0 } else { yes };
    let mut other = *session;
    other.stmts.iter_mut().for_each(|s| s.live = flag(s.live));
    other.cursors.iter_mut().for_each(|c| c.live = flag(c.live));
    other.closed = flag(other.closed);
    other
}

#[test]
fn a_fresh_session_is_zeros() {
    let none = Session {
        stmt_ids: [0; MAX_STMTS],
        stmts: [Stmt::default(); MAX_STMTS],
        cursors: [Cursor::default(); MAX_CURSORS],
        closed: 0,
    };
    assert_eq!(fresh(), none);
}

#[test]
fn a_flag_is_any_number_but_0() {
    for yes in YES {
        for (frame, report) in frames() {
            let (mut one, mut other) = (busy(), flagged(&busy(), yes));
            assert_eq!(counts(&one), counts(&other));
            assert_eq!(look(&one, &frame), look(&other, &frame));
            assert_eq!(step(&mut one, &frame, report), step(&mut other, &frame, report));
            assert_eq!(flagged(&one, 1), flagged(&other, 1), "after a frame of type {}", frame[4]);
        }
        let mut closed = fresh();
        closed.closed = yes;
        assert_eq!(step(&mut closed, &frames()[6].0, Report::default()).0.reason, 4);
    }
}

#[test]
fn the_library_writes_0_and_1() {
    let mut session = busy();
    let flags = |s: &Session| -> Vec<u32> {
        s.stmts.iter().map(|x| x.live).chain(s.cursors.iter().map(|x| x.live)).chain([s.closed]).collect()
    };
    assert_eq!(flags(&session).iter().sum::<u32>(), 3);
    for (frame, report) in frames() {
        step(&mut session, &frame, report);
        assert!(flags(&session).iter().all(|f| *f <= 1));
    }
    assert_eq!(session.closed, 1);
}

#[test]
fn parts_that_a_report_does_not_have_are_ignored() {
    let noise = u64::MAX;
    for (frame, report) in frames() {
        let mut noisy = Report { placeholders: noise, columns: noise, rows: noise, code: noise, ..report };
        match report.kind {
            1 => noisy.placeholders = report.placeholders,
            2 => (noisy.columns, noisy.rows) = (report.columns, report.rows),
            _ => {}
        }
        let (mut one, mut other) = (busy(), busy());
        assert_eq!(step(&mut one, &frame, report), step(&mut other, &frame, noisy));
        assert_eq!(one, other);
    }
}
