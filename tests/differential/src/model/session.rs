//! The two tables of a session.

use super::{Mistake, Model};
use crate::implementation::*;

#[derive(Clone, Debug, PartialEq, Eq)]
pub struct Session {
    pub tables: Tables,
}

impl Session {
    pub fn fresh() -> Session {
        Session {
            tables: Tables {
                closed: false,
                statements: [Statement::default(); STATEMENTS],
                cursors: [Cursor::default(); CURSORS],
            },
        }
    }

    pub fn statement(&self, id: u32) -> Option<&Statement> {
        self.tables.statements.iter().find(|s| s.live && s.id == id)
    }

    pub fn cursor(&self, id: u32) -> Option<&Cursor> {
        self.tables.cursors.iter().find(|c| c.live && c.id == id)
    }

    /// The cursor a statement carries; there is at most one.
    pub fn cursor_on(&self, stmt: u32) -> Option<&Cursor> {
        self.tables.cursors.iter().find(|c| c.live && c.stmt == stmt)
    }

    pub fn statements_full(&self) -> bool {
        self.tables.statements.iter().all(|s| s.live)
    }

    pub fn cursors_full(&self) -> bool {
        self.tables.cursors.iter().all(|c| c.live)
    }

    /// Puts a statement on its id's place, else on the lowest free one.
    pub fn put_statement(&mut self, model: &Model, new: Statement) {
        let table = &mut self.tables.statements;
        let own = table.iter().position(|s| s.live && s.id == new.id);
        let live = table.map(|s| s.live);
        if let Some(place) = own.or_else(|| model.new_place(&live)) {
            table[place] = new;
        }
    }

    /// Puts a cursor on its id's place, else on the lowest free one.
    pub fn put_cursor(&mut self, model: &Model, new: Cursor) {
        let table = &mut self.tables.cursors;
        let mut own = table.iter().position(|c| c.live && c.id == new.id);
        if let (Some(place), true) = (own, model.makes(Mistake::ReplacedMoves)) {
            let free = table.iter().position(|c| !c.live);
            table[place] = Cursor::default();
            own = free.filter(|f| *f < place).or(own);
        }
        let live = table.map(|c| c.live);
        if let Some(place) = own.or_else(|| model.new_place(&live)) {
            table[place] = new;
        }
    }

    pub fn free_statement(&mut self, id: u32) {
        let gone = |s: &&mut Statement| s.live && s.id == id;
        self.tables.statements.iter_mut().filter(gone).for_each(|s| *s = Statement::default());
    }

    pub fn end_cursor(&mut self, model: &Model, id: u32) {
        for cursor in self.tables.cursors.iter_mut().filter(|c| c.live && c.id == id) {
            *cursor = Cursor::default();
            if model.makes(Mistake::FreedKeepsNumbers) {
                cursor.id = id;
            }
        }
    }

    pub fn end_cursor_on(&mut self, stmt: u32) {
        let gone = |c: &&mut Cursor| c.live && c.stmt == stmt;
        self.tables.cursors.iter_mut().filter(gone).for_each(|c| *c = Cursor::default());
    }
}

impl Model {
    /// The lowest free place.
    fn new_place(&self, live: &[bool]) -> Option<usize> {
        let lowest = live.iter().position(|live| !live);
        if self.makes(Mistake::PlaceBehindLast) {
            let behind = live.iter().rposition(|live| *live).map_or(0, |last| last + 1);
            return if behind < live.len() { Some(behind) } else { lowest };
        }
        lowest
    }
}
