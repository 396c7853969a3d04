//! Choosing what the next frame is to say, with an eye on the tables, so
//! that most frames are accepted and the rest are refused for many reasons.

use super::frames::Intent;
use super::random::Random;
use super::values::{edge_id, number};
use crate::implementation::*;

/// What a whole sequence is about.
#[derive(Clone, Copy, Debug, PartialEq, Eq)]
pub enum Mode {
    /// A few ids that collide, get replaced and are live.
    Few,
    /// As Few, with ids at the edges of 32 bits.
    Edges,
    /// Tables filled to their limits and past them.
    Fill,
}

impl Mode {
    pub fn stmt(self, random: &mut Random) -> u32 {
        match self {
            Mode::Few => random.range(1, 4) as u32,
            Mode::Edges => edge_id(random),
            Mode::Fill => random.range(1, 68) as u32,
        }
    }

    pub fn cursor(self, random: &mut Random) -> u32 {
        match self {
            Mode::Few => random.range(1, 4) as u32,
            Mode::Edges => edge_id(random),
            Mode::Fill => random.range(1, 24) as u32,
        }
    }

    fn kind(self, random: &mut Random, tables: &Tables) -> u8 {
        let statements = tables.statements.iter().filter(|s| s.live).count();
        let cursors = tables.cursors.iter().filter(|c| c.live).count();
        if self == Mode::Fill && statements < STATEMENTS && random.permille(600) {
            return PREPARE;
        }
        if self == Mode::Fill && statements > 20 && cursors < CURSORS && random.permille(500) {
            return CURSOR_OPEN;
        }
        if tables.closed {
            return random.pick(&KINDS);
        }
        let rare = if self == Mode::Fill { 1 } else { 7 };
        match random.below(1000) {
            n if n < rare => SESS_RESET,
            n if n < 2 * rare => SESS_CLOSE,
            n if n < 200 || statements == 0 => PREPARE,
            n if n < 320 => EXECUTE,
            n if n < 370 => DEALLOCATE,
            n if n < 600 || cursors == 0 => CURSOR_OPEN,
            n if n < 660 => CURSOR_CLOSE,
            _ => CURSOR_FETCH,
        }
    }
}

/// An intent that is likely, not sure, to be accepted.
pub fn next(random: &mut Random, mode: Mode, tables: &Tables) -> Intent {
    let mut kind = mode.kind(random, tables);
    let unread = tables.cursors.iter().any(|c| c.live && c.sent < c.rows);
    if kind == CURSOR_FETCH && !unread && random.permille(800) {
        // A Fetch could only be refused; rather have something to fetch.
        kind = CURSOR_OPEN;
    }
    let astray = random.permille(60);
    let mut intent = Intent {
        kind,
        stmt: mode.stmt(random),
        cursor: mode.cursor(random),
        objects: random.permille(70),
        ..Intent::default()
    };
    if !astray {
        aim(random, mode, tables, &mut intent);
    }
    intent.args = arg_count(random, tables, intent.stmt);
    intent.rows = rows(random, tables, &intent);
    intent
}

/// Points an intent at ids that will do.
fn aim(random: &mut Random, mode: Mode, tables: &Tables, intent: &mut Intent) {
    let live: Vec<&Statement> = tables.statements.iter().filter(|s| s.live).collect();
    let open: Vec<&Cursor> = tables.cursors.iter().filter(|c| c.live).collect();
    match intent.kind {
        PREPARE if mode == Mode::Fill && random.permille(700) => {
            // An id not live yet, while there is one.
            let fresh = (1..=66).find(|id| live.iter().all(|s| s.id != *id));
            intent.stmt = fresh.unwrap_or(intent.stmt);
        }
        EXECUTE | DEALLOCATE if !live.is_empty() => intent.stmt = random.pick(&live).id,
        CURSOR_OPEN if !live.is_empty() => {
            intent.stmt = random.pick(&live).id;
            // Mostly not with another id than the cursor it carries (12).
            let own = open.iter().find(|c| c.stmt == intent.stmt);
            let own = own.filter(|_| random.permille(850));
            intent.cursor = own.map_or(intent.cursor, |c| c.id);
            if open.len() == CURSORS && random.permille(150) {
                // Both 12 and 14 hold: which is told?
                (intent.stmt, intent.cursor) = (random.pick(&open).stmt, 99);
            }
        }
        CURSOR_FETCH if !open.is_empty() => {
            let left: Vec<&&Cursor> = open.iter().filter(|c| c.sent < c.rows).collect();
            let unread = !left.is_empty() && random.permille(850);
            intent.cursor = if unread { random.pick(&left).id } else { random.pick(&open).id };
        }
        CURSOR_CLOSE if !open.is_empty() => intent.cursor = random.pick(&open).id,
        _ => {}
    }
}

/// As many arguments as the statement has placeholders, or nearly.
fn arg_count(random: &mut Random, tables: &Tables, stmt: u32) -> usize {
    let statement = tables.statements.iter().find(|s| s.live && s.id == stmt);
    let wanted = statement.map_or(0, |s| s.placeholders.min(40)) as usize;
    match random.below(20) {
        0 => wanted.saturating_sub(1),
        1 => wanted + random.below(4),
        2 => random.below(3),
        _ => wanted,
    }
}

/// fetch_rows: absent, none, few, all but one, all, one more, or so many that
/// adding the rows sent passes 64 bits.
fn rows(random: &mut Random, tables: &Tables, intent: &Intent) -> Option<u64> {
    let cursor = tables.cursors.iter().find(|c| c.live && c.id == intent.cursor);
    let (left, sent) = cursor.map_or((3, 0), |c| (c.rows - c.sent, c.sent));
    match random.below(12) {
        0 | 1 => None,
        2 => Some(0),
        3 => Some(1),
        4 => Some(left),
        5 => Some(left.saturating_sub(1)),
        6 => Some(left + 1),
        7 => Some(u64::MAX),
        8 => Some(u64::MAX - sent.min(3)),
        9 => Some(number(random)),
        _ => Some(random.range(1, 3) as u64),
    }
}
