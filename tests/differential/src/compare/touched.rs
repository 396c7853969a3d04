//! What was told before an accepted step is what the step then did.

use crate::implementation::*;

pub fn as_told(touched: &Touched, message: &Message, before: &Tables, after: &Tables) -> Result<(), String> {
    let told = |good: bool, what: &str| if good { Ok(()) } else { Err(format!("{what}: {touched:?}")) };
    told(statement_stands(touched, message, before, after), "the statement stands elsewhere")?;
    told(cursor_stands(touched, message, before, after), "the cursor stands elsewhere")?;
    for place in 0..CURSORS {
        let ends = touched.ends >> place & 1 == 1;
        let good = cursor_as_told(ends, touched.cursor == Some(place), message.kind, before, after, place);
        told(good, &format!("cursor place {place}"))?;
    }
    told(touched.ends >> CURSORS == 0, "a bit past the places")
}

fn statement_stands(touched: &Touched, message: &Message, before: &Tables, after: &Tables) -> bool {
    let tables = if message.kind == PREPARE { after } else { before };
    let has = |place: usize| tables.statements[place].live && tables.statements[place].id == message.stmt;
    match message.kind {
        PREPARE | EXECUTE | DEALLOCATE | CURSOR_OPEN => touched.statement.is_some_and(has),
        _ => touched.statement.is_none(),
    }
}

fn cursor_stands(touched: &Touched, message: &Message, before: &Tables, after: &Tables) -> bool {
    let tables = if message.kind == CURSOR_OPEN { after } else { before };
    let has = |place: usize| tables.cursors[place].live && tables.cursors[place].id == message.cursor;
    match message.kind {
        CURSOR_OPEN | CURSOR_CLOSE | CURSOR_FETCH => touched.cursor.is_some_and(has),
        _ => touched.cursor.is_none(),
    }
}

/// An ended cursor was live, and its place is free unless an Open put its own
/// there; any other place is as it was, but for an Open's and a Fetch's own.
fn cursor_as_told(ends: bool, own: bool, kind: u8, before: &Tables, after: &Tables, place: usize) -> bool {
    let (old, new) = (before.cursors[place], after.cursors[place]);
    match kind {
        CURSOR_OPEN if own => ends == old.live,
        CURSOR_FETCH if own => !ends && Cursor { sent: old.sent, ..new } == old,
        _ if ends => old.live && new == Cursor::default(),
        _ => new == old,
    }
}
