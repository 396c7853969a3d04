//! What a look decides: refusals 1, 2, 4 to 14 and 17, and the work wanted.

use super::read::TWICE;
use super::reply::{too_few, unsupported, Refused};
use super::{Mistake, Model, Session};
use crate::implementation::*;

/// The work a kind of message wants of the engine.
pub fn work_of(kind: u8) -> Work {
    match kind {
        PREPARE => Work::Prepare,
        EXECUTE => Work::Execute,
        CURSOR_OPEN => Work::Open,
        CURSOR_FETCH => Work::Fetch,
        _ => Work::None,
    }
}

impl Model {
    pub(super) fn look_at(&self, session: &Session, message: &Message) -> Look {
        let reason = self.judge(session, message).err().map_or(0, |refused| refused.reason);
        let padded = self.says_padded(reason, message);
        let mut look = Look { reason, padded, ..Look::default() };
        if reason != 0 {
            return look;
        }
        look.work = work_of(message.kind);
        if let (Work::Fetch, Some(cursor)) = (look.work, session.cursor(message.cursor)) {
            look.first = cursor.sent;
            look.count = self.rows_due(message.fetch_rows, cursor);
        }
        look
    }

    /// The rows a Fetch sends: absent means all that remain.
    pub(super) fn rows_due(&self, fetch_rows: Option<u64>, cursor: &Cursor) -> u64 {
        let absent = if self.makes(Mistake::FetchAbsentNone) { 0 } else { u64::MAX };
        let wanted = fetch_rows.unwrap_or(absent);
        if self.makes(Mistake::AddedFirst) {
            return cursor.sent.wrapping_add(wanted).min(cursor.rows).saturating_sub(cursor.sent);
        }
        wanted.min(cursor.rows - cursor.sent)
    }

    /// The first refusal that holds of a message whatever the report.
    pub(super) fn judge(&self, session: &Session, message: &Message) -> Result<(), Refused> {
        let used = message.used;
        let told_first = if self.makes(Mistake::UnknownBeforeClosed) { 1..=5 } else { 1..=3 };
        let twice_first = message.reason == TWICE && self.makes(Mistake::TwiceBeforeClosed);
        if told_first.contains(&message.reason) || twice_first {
            return Err(Refused::plain(message.reason, used));
        }
        if session.tables.closed {
            return Err(Refused::plain(4, used));
        }
        if message.reason == TWICE && self.makes(Mistake::TwiceAfterAll) {
            self.judge_message(session, message)?;
        }
        if message.reason != 0 {
            return Err(Refused::plain(message.reason, used));
        }
        self.judge_message(session, message)
    }

    /// Refusals 7 to 14, in their order, where the message can meet them.
    fn judge_message(&self, session: &Session, message: &Message) -> Result<(), Refused> {
        let (used, id) = (message.used, message.cursor);
        match message.kind {
            PREPARE => self.judge_prepare(session, message),
            EXECUTE => self.judge_run(session, message),
            DEALLOCATE if session.statement(message.stmt).is_none() => {
                Err(self.no_statement(used, message.stmt))
            }
            CURSOR_OPEN => {
                self.judge_run(session, message)?;
                self.judge_open(session, message)
            }
            CURSOR_FETCH | CURSOR_CLOSE => {
                let cursor = session.cursor(id).ok_or_else(|| self.no_cursor(used, id))?;
                let at_end = cursor.sent == cursor.rows && !self.makes(Mistake::FetchPastEnd);
                if message.kind == CURSOR_FETCH && at_end {
                    return Err(self.no_more_data(used, id));
                }
                Ok(())
            }
            _ => Ok(()),
        }
    }

    fn judge_prepare(&self, session: &Session, message: &Message) -> Result<(), Refused> {
        let among = session.statement(message.stmt).is_some();
        let among = among && !self.makes(Mistake::PrepareFullRefused);
        if session.statements_full() && !among {
            return Err(Refused::plain(13, message.used));
        }
        Ok(())
    }

    /// What Execute and Open have in common: 7, 8, 9.
    fn judge_run(&self, session: &Session, message: &Message) -> Result<(), Refused> {
        let statement = session.statement(message.stmt);
        let statement = statement.ok_or_else(|| self.no_statement(message.used, message.stmt))?;
        if self.makes(Mistake::NineBeforeEight) {
            self.judge_count(statement, message)?;
        }
        self.judge_types(message)?;
        self.judge_count(statement, message)
    }

    fn judge_types(&self, message: &Message) -> Result<(), Refused> {
        let numbered = message.args.iter().enumerate();
        let mut bad = numbered.filter(|(_, v)| matches!(v, Value::Object | Value::Array));
        let named = if self.makes(Mistake::LastObjectNamed) { bad.next_back() } else { bad.next() };
        named.map_or(Ok(()), |(index, value)| Err(unsupported(message.used, index, value)))
    }

    fn judge_count(&self, statement: &Statement, message: &Message) -> Result<(), Refused> {
        let count = message.args.len() as u64;
        if count >= statement.placeholders {
            return Ok(());
        }
        let placeholders = self.makes(Mistake::NineNamesPlaceholders);
        let named = if placeholders { statement.placeholders } else { count };
        Err(too_few(message.used, named))
    }

    /// 12 and 14.
    fn judge_open(&self, session: &Session, message: &Message) -> Result<(), Refused> {
        let other = session.cursor_on(message.stmt).is_some_and(|c| c.id != message.cursor);
        let other = other && !self.makes(Mistake::OtherCursorClosed);
        let among = session.cursor(message.cursor).is_some();
        let full = session.cursors_full() && (!among || self.makes(Mistake::OpenFullRefused));
        if full && self.makes(Mistake::FullBeforeOther) {
            return Err(Refused::plain(14, message.used));
        }
        match (other, full) {
            (true, _) => Err(Refused::plain(12, message.used)),
            (false, true) => Err(Refused::plain(14, message.used)),
            (false, false) => Ok(()),
        }
    }
}
