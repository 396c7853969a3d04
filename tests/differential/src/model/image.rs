//! Images of sessions: item 4 of document 02.
//!
//! What an image lists is taken down first, whatever it says; `faults` then
//! judges it, and one without a fault is turned into a session.

use super::faults::Fault;
use super::wire::{shortest, writers_bytes};
use super::{Mistake, Model, Session};
use crate::implementation::*;

pub const FORM: u64 = 1;
const LONGEST_VARINT: usize = 10;

/// The numbers of a cursor in their order: place, id, statement id, reported rows, rows sent.
type CursorNumbers = [u64; 5];

#[derive(Clone, Copy, Debug, Default)]
pub struct ListedStatement {
    pub place: u64,
    pub id: u64,
    pub placeholders: u64,
}

#[derive(Clone, Copy, Debug, Default)]
pub struct ListedCursor {
    pub place: u64,
    pub id: u64,
    pub stmt: u64,
    pub rows: u64,
    pub sent: u64,
}

/// What an image lists.
#[derive(Clone, Debug, Default)]
pub struct Listed {
    pub form: u64,
    pub closed: u64,
    pub statements: Vec<ListedStatement>,
    pub cursors: Vec<ListedCursor>,
    /// Whether it ends before all is there.
    pub cut: bool,
    /// Whether a number is not in its shortest form.
    pub padded: bool,
    /// Whether something follows.
    pub behind: bool,
}

/// The bytes of an image that are not read yet.
struct Numbers<'b> {
    model: Model,
    rest: &'b [u8],
    padded: bool,
}

impl Numbers<'_> {
    /// The next number; bits past 64 are dropped. `None` if it has no end.
    fn next(&mut self) -> Option<u64> {
        let last = self.rest.iter().take(LONGEST_VARINT).position(|byte| *byte < 0x80)?;
        let (bytes, rest) = self.rest.split_at(last + 1);
        let groups = bytes.iter().enumerate();
        let value = groups.fold(0, |value, (n, byte)| value | u64::from(byte & 0x7f) << (7 * n));
        let short = match self.model.mistake {
            Some(Mistake::DroppedBitsTaken) => last == 0 || bytes.last() != Some(&0),
            _ => bytes.iter().copied().eq(writers_bytes(value)),
        };
        self.padded |= !short;
        self.rest = rest;
        Some(value)
    }

    /// A count, then so many entries, as far as they go; and whether they are all there.
    fn table<const N: usize>(&mut self) -> (Vec<[u64; N]>, bool) {
        let mut entries = Vec::new();
        let Some(count) = self.next() else {
            return (entries, false);
        };
        for _ in 0..count {
            let mut entry = [0; N];
            for number in &mut entry {
                let Some(next) = self.next() else {
                    return (entries, false);
                };
                *number = next;
            }
            entries.push(entry);
        }
        (entries, true)
    }
}

impl Model {
    pub(super) fn write_image(&self, session: &Session, out: &mut [u8]) -> Written {
        let image = self.image_of(&session.tables);
        if self.makes(Mistake::UnrulyNotWritten) && !self.faults(&image).is_empty() {
            return Written { reason: BAD_IMAGE, length: 0 };
        }
        let needed = match self.mistake {
            Some(Mistake::FullBufferRefused) => image.len() + 1,
            Some(Mistake::RoomForLongest) => MAX_IMAGE,
            _ => image.len(),
        };
        if out.len() < needed {
            let part = if self.makes(Mistake::WrittenInPart) { out.len().min(image.len()) } else { 0 };
            out[..part].copy_from_slice(&image[..part]);
            return Written { reason: TOO_SMALL, length: 0 };
        }
        out[..image.len()].copy_from_slice(&image);
        if self.makes(Mistake::RestCleared) {
            out[image.len()..].fill(0);
        }
        Written { reason: 0, length: image.len() }
    }

    fn image_of(&self, tables: &Tables) -> Vec<u8> {
        let (statements, cursors) = (self.list_statements(tables), self.list_cursors(tables));
        let closed = tables.closed && !self.makes(Mistake::ClosedNotWritten);
        let mut numbers = vec![FORM, u64::from(closed), statements.len() as u64];
        numbers.extend(statements.as_flattened());
        numbers.push(cursors.len() as u64);
        numbers.extend(cursors.as_flattened());
        let mut image = Vec::new();
        numbers.into_iter().for_each(|number| shortest(number, &mut image));
        image
    }

    fn list_statements(&self, tables: &Tables) -> Vec<[u64; 3]> {
        let live = tables.statements.iter().enumerate().filter(|(_, s)| s.live);
        let listed = live.map(|(place, s)| [place as u64, u64::from(s.id), s.placeholders]);
        self.placed(listed.collect())
    }

    fn list_cursors(&self, tables: &Tables) -> Vec<CursorNumbers> {
        let left_out = |c: &Cursor| c.sent == c.rows && self.makes(Mistake::DoneLeftOut);
        let live = tables.cursors.iter().enumerate().filter(|(_, c)| c.live && !left_out(c));
        let listed = live.map(|(place, c)| {
            self.in_order([place as u64, u64::from(c.id), u64::from(c.stmt), c.rows, c.sent])
        });
        self.placed(listed.collect())
    }

    /// Entries with the places they are written with, which lead them: their own, from 0.
    fn placed<const N: usize>(&self, mut entries: Vec<[u64; N]>) -> Vec<[u64; N]> {
        let places = entries.iter_mut().filter_map(|entry| entry.first_mut());
        for (index, place) in places.enumerate() {
            match self.mistake {
                Some(Mistake::PlacesFromOne) => *place += 1,
                Some(Mistake::PlacesCloseUp) => *place = index as u64,
                _ => {}
            }
        }
        entries
    }

    /// A cursor's numbers in the order of the image; the same way back.
    fn in_order(&self, [place, id, stmt, rows, sent]: CursorNumbers) -> CursorNumbers {
        match self.mistake {
            Some(Mistake::SentBeforeReported) => [place, id, stmt, sent, rows],
            Some(Mistake::StatementIdFirst) => [place, stmt, id, rows, sent],
            _ => [place, id, stmt, rows, sent],
        }
    }

    /// Takes down what an image lists, as far as it goes.
    pub fn listed(&self, image: &[u8]) -> Listed {
        let mut numbers = Numbers { model: *self, rest: image, padded: false };
        let (form, closed) = (numbers.next(), numbers.next());
        // Where nothing is left there is no table either.
        let (statements, _) = numbers.table();
        let (cursors, whole) = numbers.table();
        let first = u64::from(self.makes(Mistake::PlacesFromOne));
        let from = |place: u64| place.wrapping_sub(first);
        let statement =
            |[place, id, placeholders]: [u64; 3]| ListedStatement { place: from(place), id, placeholders };
        let cursor = |entry: CursorNumbers| {
            let [place, id, stmt, rows, sent] = self.in_order(entry);
            ListedCursor { place: from(place), id, stmt, rows, sent }
        };
        Listed {
            // What is missing has no other fault.
            form: form.unwrap_or(FORM),
            closed: closed.unwrap_or_default(),
            statements: statements.into_iter().map(statement).collect(),
            cursors: cursors.into_iter().map(cursor).collect(),
            cut: !whole,
            padded: numbers.padded,
            behind: whole && !numbers.rest.is_empty(),
        }
    }

    pub(super) fn read_image(&self, session: Session, image: &[u8]) -> (Session, u8) {
        if image.is_empty() && self.makes(Mistake::NoImageIsFresh) {
            return (Session::fresh(), 0);
        }
        let listed = self.listed(image);
        let faults = self.faults_of(&listed);
        if faults.is_empty() {
            (self.restored(session, &listed), 0)
        } else {
            (self.not_restored(session, &listed, &faults), BAD_IMAGE)
        }
    }

    /// The session with just the entries of an image.
    fn restored(&self, old: Session, listed: &Listed) -> Session {
        let was_closed = old.tables.closed;
        let mut session = if self.makes(Mistake::OldEntriesKept) { old } else { Session::fresh() };
        let closed = listed.closed != 0 && !self.makes(Mistake::RestoredOpen);
        session.tables.closed = closed || (was_closed && self.makes(Mistake::StaysClosed));
        let close_up = self.makes(Mistake::RestoredCloseUp);
        for (index, s) in listed.statements.iter().enumerate() {
            let place = if close_up { index } else { s.place as usize };
            // Only a mistake lets a place past the table through.
            if let Some(statement) = session.tables.statements.get_mut(place) {
                *statement = Statement { live: true, id: s.id as u32, placeholders: s.placeholders };
            }
        }
        for (index, c) in listed.cursors.iter().enumerate() {
            let place = if close_up { index } else { c.place as usize };
            let (rows, sent) = self.rows_restored(c.rows, c.sent);
            if let Some(cursor) = session.tables.cursors.get_mut(place) {
                *cursor = Cursor { live: true, id: c.id as u32, stmt: c.stmt as u32, rows, sent };
            }
        }
        session
    }

    /// Reported rows and rows sent, as they are.
    fn rows_restored(&self, rows: u64, sent: u64) -> (u64, u64) {
        match self.mistake {
            Some(Mistake::RestoredSentNone) => (rows, 0),
            Some(Mistake::RestoredFromZero) => (rows.saturating_sub(sent), 0),
            _ => (rows, sent),
        }
    }

    /// The session as it was.
    fn not_restored(&self, session: Session, listed: &Listed, faults: &[Fault]) -> Session {
        let of_cursors = [Fault::NoStatement, Fault::TwoOnOne, Fault::SentAbove];
        let late = faults.iter().all(|fault| of_cursors.contains(fault));
        match self.mistake {
            Some(Mistake::RefusedEmpties) => Session::fresh(),
            Some(Mistake::RefusedHalfRead) if late => {
                self.restored(session, &Listed { cursors: Vec::new(), ..listed.clone() })
            }
            _ => session,
        }
    }

    /// A session of a host's own words.
    pub(super) fn session_made(&self, words: &Words) -> Session {
        let yes = |flag: u32| flag == 1 || (flag != 0 && !self.makes(Mistake::OnlyOneIsYes));
        let tables = Tables {
            closed: yes(words.closed),
            statements: words.statements.map(|[live, id, placeholders]| Statement {
                live: yes(live),
                id,
                placeholders: placeholders.into(),
            }),
            cursors: words.cursors.map(|[live, id, stmt, rows, sent]| Cursor {
                live: yes(live),
                id,
                stmt,
                rows: rows.into(),
                sent: sent.into(),
            }),
        };
        Session { tables }
    }
}
