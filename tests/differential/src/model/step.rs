//! What a step does: refusals 3, 15 and 16, the tables and the reply.

use super::reply::*;
use super::rules::work_of;
use super::{Mistake, Model, Session};
use crate::implementation::*;

pub const MOST_PLACEHOLDERS: u64 = 65_535;
const MOST_COLUMNS: u64 = 4_096;
pub const MOST_ROWS: u64 = u32::MAX as u64;

/// An accepted step: the session behind it, the types of its reply frames,
/// and the rows it sends.
struct Outcome {
    session: Session,
    reply: Vec<u8>,
    columns: bool,
    first: u64,
    count: u64,
}

impl Model {
    pub(super) fn take_step(
        &self,
        session: Session,
        frame: &[u8],
        report: Report,
        reply: &mut [u8],
    ) -> (Session, Answer) {
        let too_small = if self.makes(Mistake::Reply128Refused) { 129 } else { SMALLEST_REPLY };
        let message = self.read_frame(frame);
        if reply.len() < too_small {
            let padded = message.padded && self.makes(Mistake::SmallReplySaysYes);
            return (session, Answer { reason: 3, padded, ..Answer::default() });
        }
        let judged = self.judge(&session, &message);
        match judged.and_then(|()| self.carry_out(&session, &message, report)) {
            Err(refused) => {
                let padded = self.says_padded(refused.reason, &message);
                let answer = Answer { padded, ..refuse(&refused, reply) };
                (self.after_refusal(session, &message, &refused), answer)
            }
            Ok(outcome) => {
                let (used, padded) = (message.used, self.says_padded(0, &message));
                let length = self.write_reply(&outcome.reply, reply);
                let Outcome { session, columns, first, count, .. } = outcome;
                (session, Answer { reason: 0, used, reply: length, columns, padded, first, count })
            }
        }
    }

    /// The session as it was.
    fn after_refusal(&self, mut session: Session, message: &Message, refused: &Refused) -> Session {
        let failed = refused.reason == 16 && message.kind == EXECUTE;
        if failed && self.makes(Mistake::FailedExecuteEnds) {
            session.end_cursor_on(message.stmt);
        }
        session
    }

    /// Each frame goes into the part of the buffer behind the one before.
    fn write_reply(&self, kinds: &[u8], reply: &mut [u8]) -> usize {
        let mut at = 0;
        for kind in kinds {
            at += put(&server_frame(*kind, &[]), &mut reply[at..]);
        }
        if self.makes(Mistake::ReplyCleared) {
            reply[at..].fill(0);
        }
        at
    }

    /// Whether the report is one the work allows: 15, 16 or nothing.
    fn judge_report(&self, work: Work, report: Report, used: usize) -> Result<(), Refused> {
        if work == Work::None && !self.makes(Mistake::ReportAlways) {
            return Ok(());
        }
        let (wide, zero) = (self.makes(Mistake::WideCode), self.makes(Mistake::CodeZero));
        let good_code = (report.code >= 1 || zero) && (report.code <= u64::from(u32::MAX) || wide);
        if report.kind == 4 && good_code {
            return Err(Refused::failed(used, report.code));
        }
        let more = u64::from(self.makes(Mistake::MorePlaceholders));
        let good = match work {
            Work::Prepare => report.kind == 1 && report.placeholders <= MOST_PLACEHOLDERS + more,
            Work::Execute | Work::Open => report.kind == 2 && self.good_result(report),
            _ => report.kind == 3,
        };
        if good {
            Ok(())
        } else {
            Err(Refused::plain(15, used))
        }
    }

    /// Columns and rows within their limits; no columns means no rows.
    fn good_result(&self, report: Report) -> bool {
        let Report { columns, rows, .. } = report;
        let without = columns == 0 && rows > 0 && !self.makes(Mistake::RowsWithoutColumns);
        let more_columns = u64::from(self.makes(Mistake::MoreColumns));
        let more_rows = u64::from(self.makes(Mistake::MoreRows));
        columns <= MOST_COLUMNS + more_columns && rows <= MOST_ROWS + more_rows && !without
    }

    fn carry_out(&self, before: &Session, message: &Message, report: Report) -> Result<Outcome, Refused> {
        self.judge_report(work_of(message.kind), report, message.used)?;
        let session = before.clone();
        Ok(match message.kind {
            PREPARE => self.prepare(session, message, report),
            EXECUTE => self.execute_all(session, message, report),
            CURSOR_OPEN => self.open(session, message, report),
            CURSOR_FETCH => self.fetch(session, message),
            _ => self.end(session, message),
        })
    }

    fn prepare(&self, mut session: Session, message: &Message, report: Report) -> Outcome {
        if !self.makes(Mistake::ReplaceKeepsCursor) {
            session.end_cursor_on(message.stmt);
        }
        let new = Statement { live: true, id: message.stmt, placeholders: report.placeholders };
        session.put_statement(self, new);
        ok(session)
    }

    fn execute_all(&self, mut session: Session, message: &Message, report: Report) -> Outcome {
        if !self.makes(Mistake::ExecuteKeepsCursor) {
            session.end_cursor_on(message.stmt);
        }
        let columns = report.columns > 0;
        let done = columns || self.makes(Mistake::ExecuteAlwaysDone);
        let reply = if done { vec![FETCH_DONE, STMT_EXECUTE_OK] } else { vec![STMT_EXECUTE_OK] };
        Outcome { session, reply, columns, first: 0, count: report.rows }
    }

    fn open(&self, mut session: Session, message: &Message, report: Report) -> Outcome {
        let absent = if self.makes(Mistake::OpenAbsentAll) { u64::MAX } else { 0 };
        let sent = message.fetch_rows.unwrap_or(absent).min(report.rows);
        if self.makes(Mistake::OtherCursorClosed) {
            session.end_cursor_on(message.stmt);
        }
        let (id, stmt) = (message.cursor, message.stmt);
        let cursor = Cursor { live: true, id, stmt, rows: report.rows, sent };
        session.put_cursor(self, cursor);
        let mut reply = self.ending(&cursor, sent);
        let columns = report.columns > 0;
        if !columns && self.makes(Mistake::OpenWithoutDone) {
            reply = vec![STMT_EXECUTE_OK];
        }
        Outcome { session, reply, columns, first: 0, count: sent }
    }

    fn fetch(&self, mut session: Session, message: &Message) -> Outcome {
        // A look has found the cursor.
        let mut cursor = session.cursor(message.cursor).copied().unwrap_or_default();
        let first = cursor.sent;
        let count = self.rows_due(message.fetch_rows, &cursor);
        cursor.sent += count;
        session.put_cursor(self, cursor);
        Outcome { session, reply: self.ending(&cursor, count), columns: false, first, count }
    }

    /// The frames behind the rows of an Open or a Fetch.
    fn ending(&self, cursor: &Cursor, count: u64) -> Vec<u8> {
        let suspends = self.makes(Mistake::LastRowSuspends) && count > 0;
        let done = cursor.sent == cursor.rows && !suspends;
        vec![if done { FETCH_DONE } else { FETCH_SUSPENDED }, STMT_EXECUTE_OK]
    }

    /// The messages that only end things: Deallocate, Close, Reset, Session close.
    fn end(&self, mut session: Session, message: &Message) -> Outcome {
        match message.kind {
            DEALLOCATE => {
                session.free_statement(message.stmt);
                if !self.makes(Mistake::DeallocateKeepsCursor) {
                    session.end_cursor_on(message.stmt);
                }
            }
            CURSOR_CLOSE => session.end_cursor(self, message.cursor),
            SESS_CLOSE if self.makes(Mistake::CloseKeepsTables) => session.tables.closed = true,
            kind => {
                session = Session::fresh();
                session.tables.closed = kind == SESS_CLOSE;
            }
        }
        ok(session)
    }
}

fn ok(session: Session) -> Outcome {
    Outcome { session, reply: vec![OK], columns: false, first: 0, count: 0 }
}

fn put(frame: &[u8], buffer: &mut [u8]) -> usize {
    buffer[..frame.len()].copy_from_slice(frame);
    frame.len()
}

fn refuse(refused: &Refused, reply: &mut [u8]) -> Answer {
    let length = put(&refused.frame(), reply);
    Answer { reason: refused.reason, used: refused.used, reply: length, ..Answer::default() }
}
