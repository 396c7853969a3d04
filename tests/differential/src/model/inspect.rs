//! What a request touches, told before its step: its own entries, and the
//! openings that it ends, by the rules' list of endings.

use super::{Mistake, Model, Session};
use crate::implementation::*;

impl Model {
    pub(super) fn inspect_frame(&self, session: &Session, frame: &[u8]) -> Inspection {
        let message = self.read_frame(frame);
        let look = self.look_at(session, &message);
        let touched = self.touched_by(session, &message, &look);
        let padded = message.padded && !self.makes(Mistake::InspectionSaysNo);
        Inspection { look, padded, touched }
    }

    fn touched_by(&self, session: &Session, message: &Message, look: &Look) -> Touched {
        let refused = self.makes(Mistake::RefusedToldNothing) && look.reason != 0;
        if message.reason != 0 || refused {
            return Touched::default();
        }
        let cursors = session.tables.cursors.iter().enumerate();
        let ended = cursors.filter(|(_, c)| self.ends(c, message)).map(|(place, _)| 1 << place);
        Touched {
            statement: self.own_statement(session, message),
            cursor: self.own_cursor(session, message),
            ends: ended.sum(),
        }
    }

    fn own_statement(&self, session: &Session, message: &Message) -> Option<usize> {
        let table = &session.tables.statements;
        let own = table.iter().position(|s| s.live && s.id == message.stmt);
        let free = table.iter().position(|s| !s.live);
        match message.kind {
            PREPARE if self.makes(Mistake::PrepareToldFreePlace) => free.or(own),
            PREPARE => own.or(free),
            EXECUTE | DEALLOCATE | CURSOR_OPEN => own,
            _ => None,
        }
    }

    fn own_cursor(&self, session: &Session, message: &Message) -> Option<usize> {
        let table = &session.tables.cursors;
        let own = table.iter().position(|c| c.live && c.id == message.cursor);
        match message.kind {
            CURSOR_OPEN => own.or_else(|| table.iter().position(|c| !c.live)),
            CURSOR_CLOSE | CURSOR_FETCH => own,
            _ => None,
        }
    }

    /// Prepare, Execute or Deallocate of its statement id, Open or Close of
    /// its cursor id, Reset, Session close.
    fn ends(&self, cursor: &Cursor, message: &Message) -> bool {
        let its = match message.kind {
            SESS_RESET | SESS_CLOSE => true,
            PREPARE | EXECUTE | DEALLOCATE => cursor.stmt == message.stmt,
            CURSOR_OPEN => cursor.id == message.cursor && !self.makes(Mistake::OpenToldEndsNothing),
            CURSOR_CLOSE => cursor.id == message.cursor,
            _ => false,
        };
        its && (cursor.live || self.makes(Mistake::FreeToldEnded))
    }
}
