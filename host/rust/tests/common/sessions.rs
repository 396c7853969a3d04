//! Sessions to try frames on.

use karramotx::{Args, ClientMessage, Operation, Refusal, Report, Session, Work, MIN_REPLY};

/// The report that the work wants; none where the frame is refused.
pub fn suited(work: &Result<Work, Refusal>) -> Report {
    match work {
        Ok(Work::Prepare) => Report::Prepared { placeholders: 0 },
        Ok(Work::Execute | Work::Open) => Report::Result { columns: 1, rows: 5 },
        Ok(Work::Fetch(_)) => Report::Done,
        Ok(Work::None) | Err(_) => Report::None,
    }
}

/// The session after an accepted step, with the report that it wants.
pub fn stepped(mut session: Session, message: ClientMessage) -> Session {
    let frame = message.to_vec().expect("it is written");
    let report = suited(&session.look(&frame).work);
    session.step(&frame, report, &mut [0; MIN_REPLY]).outcome.expect("it is accepted");
    session
}

/// Statement 1 without placeholders, and cursor 1 on it with five rows to send.
pub fn busy() -> Session {
    let args = Args::new();
    let operation = Operation::Find;
    let session = stepped(Session::new(), ClientMessage::Prepare { statement: 1, operation, body: &[] });
    let (compact_metadata, fetch_rows) = (None, None);
    stepped(
        session,
        ClientMessage::Open { cursor: 1, statement: 1, args: &args, compact_metadata, fetch_rows },
    )
}
