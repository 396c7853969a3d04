//! What an accepted image has nothing of.

use super::image::{Listed, ListedCursor, ListedStatement, FORM};
use super::step::{MOST_PLACEHOLDERS, MOST_ROWS};
use super::{Mistake, Model};
use crate::implementation::*;

const LARGEST_ID: u64 = u32::MAX as u64;

/// Each breaks one rule of the item.
#[derive(Clone, Copy, Debug, PartialEq, Eq)]
pub enum Fault {
    /// It ends before all is there, or a number has no end.
    Cut,
    /// A number is not in its shortest form.
    Padded,
    /// Something follows.
    Behind,
    /// Another form than 1.
    Form,
    /// The closed flag is neither 0 nor 1.
    Flag,
    /// A closed session has entries.
    ClosedWithEntries,
    /// A place stands twice in its table.
    PlaceTwice,
    /// A place is below the one before it.
    PlaceFalls,
    /// A statement's place is past its limit.
    StatementPlace,
    /// A cursor's place is past its limit.
    CursorPlace,
    /// Two statements have one id.
    StatementTwice,
    /// Two cursors have one id.
    CursorTwice,
    /// A statement's id takes more than 32 bits.
    WideStatement,
    /// A cursor's id takes more than 32 bits.
    WideCursor,
    /// The reported rows take more than 32 bits.
    WideRows,
    /// More than 65,535 placeholders.
    Placeholders,
    /// A cursor's statement is not listed.
    NoStatement,
    /// Two cursors are on one statement.
    TwoOnOne,
    /// More rows sent than reported.
    SentAbove,
}

impl Fault {
    pub const ALL: [Fault; 19] = {
        use Fault::*;
        [
            Cut,
            Padded,
            Behind,
            Form,
            Flag,
            ClosedWithEntries,
            PlaceTwice,
            PlaceFalls,
            StatementPlace,
            CursorPlace,
            StatementTwice,
            CursorTwice,
            WideStatement,
            WideCursor,
            WideRows,
            Placeholders,
            NoStatement,
            TwoOnOne,
            SentAbove,
        ]
    };
}

impl Model {
    /// All faults of an image; it is accepted if it has none.
    pub fn faults(&self, image: &[u8]) -> Vec<Fault> {
        self.faults_of(&self.listed(image))
    }

    pub(super) fn faults_of(&self, listed: &Listed) -> Vec<Fault> {
        let overlooked = self.mistake.and_then(overlooked);
        let found = Fault::ALL.into_iter().filter(|fault| self.has(listed, *fault));
        found.filter(|fault| Some(*fault) != overlooked).collect()
    }

    fn has(&self, listed: &Listed, fault: Fault) -> bool {
        let Listed { statements, cursors, .. } = listed;
        let statement = |good: &dyn Fn(&ListedStatement) -> bool| !statements.iter().all(good);
        let cursor = |good: &dyn Fn(&ListedCursor) -> bool| !cursors.iter().all(good);
        let is_listed = |id: u64| statements.iter().any(|s| s.id == id);
        match fault {
            Fault::Cut => listed.cut,
            Fault::Padded => listed.padded,
            Fault::Behind => listed.behind,
            Fault::Form => listed.form != FORM,
            Fault::Flag => listed.closed > 1,
            Fault::ClosedWithEntries => listed.closed != 0 && !(statements.is_empty() && cursors.is_empty()),
            Fault::PlaceTwice => twice(statements, |s| s.place) || twice(cursors, |c| c.place),
            Fault::PlaceFalls => {
                !statements.is_sorted_by_key(|s| s.place) || !cursors.is_sorted_by_key(|c| c.place)
            }
            Fault::StatementPlace => statement(&|s| s.place < self.places(STATEMENTS)),
            Fault::CursorPlace => cursor(&|c| c.place < self.places(CURSORS)),
            Fault::StatementTwice => twice(statements, |s| s.id),
            Fault::CursorTwice => twice(cursors, |c| c.id),
            Fault::WideStatement => statement(&|s| self.good_id(s.id)),
            Fault::WideCursor => cursor(&|c| self.good_id(c.id)),
            Fault::WideRows => cursor(&|c| c.rows <= MOST_ROWS),
            Fault::Placeholders => statement(&|s| s.placeholders <= MOST_PLACEHOLDERS),
            Fault::NoStatement => cursor(&|c| is_listed(self.its_id(c.stmt))),
            Fault::TwoOnOne => twice(cursors, |c| c.stmt),
            Fault::SentAbove => cursor(&|c| self.good_rows(c.rows, c.sent)),
        }
    }

    fn places(&self, limit: usize) -> u64 {
        limit as u64 - u64::from(self.makes(Mistake::LastPlaceRefused))
    }

    fn good_id(&self, id: u64) -> bool {
        id <= LARGEST_ID && !(id == 0 && self.makes(Mistake::IdZeroRefused))
    }

    /// The statement id that a cursor names.
    fn its_id(&self, id: u64) -> u64 {
        if self.makes(Mistake::StatementIdCut) {
            id & LARGEST_ID
        } else {
            id
        }
    }

    fn good_rows(&self, reported: u64, sent: u64) -> bool {
        sent < reported || (sent == reported && !self.makes(Mistake::AllSentRefused))
    }
}

/// The fault that a mistake lets through.
fn overlooked(mistake: Mistake) -> Option<Fault> {
    Some(match mistake {
        Mistake::CutTaken => Fault::Cut,
        Mistake::PaddedTaken => Fault::Padded,
        Mistake::BehindTaken => Fault::Behind,
        Mistake::AnyForm => Fault::Form,
        Mistake::AnyFlag => Fault::Flag,
        Mistake::ClosedWithEntriesTaken => Fault::ClosedWithEntries,
        Mistake::PlaceTwiceTaken => Fault::PlaceTwice,
        Mistake::AnyOrder => Fault::PlaceFalls,
        Mistake::StatementPlacePast => Fault::StatementPlace,
        Mistake::CursorPlacePast => Fault::CursorPlace,
        Mistake::StatementTwiceTaken => Fault::StatementTwice,
        Mistake::CursorTwiceTaken => Fault::CursorTwice,
        Mistake::StatementIdWide => Fault::WideStatement,
        Mistake::CursorIdWide => Fault::WideCursor,
        Mistake::RowsWide => Fault::WideRows,
        Mistake::ManyPlaceholders => Fault::Placeholders,
        Mistake::NoStatementTaken => Fault::NoStatement,
        Mistake::TwoOnOneTaken => Fault::TwoOnOne,
        Mistake::SentAboveTaken => Fault::SentAbove,
        _ => return None,
    })
}

/// Whether two entries have one number in common.
fn twice<T>(entries: &[T], number: impl Fn(&T) -> u64) -> bool {
    let mut numbers: Vec<u64> = entries.iter().map(number).collect();
    numbers.sort_unstable();
    numbers.windows(2).any(|pair| pair[0] == pair[1])
}
