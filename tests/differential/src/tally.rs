//! Demand 3's tally, from frames, reports and answers alone.
//!
//! It knows openings and three totals and nothing of the session; only the
//! last term, the rows owed, is read from the cursor table it is checked with.
//! After a restore it starts at the image, which the reference reads for it.

use crate::implementation::*;
use crate::model::{Model, Session};

const FETCH_DONE: u8 = 14;

#[derive(Clone, Debug)]
struct Opening {
    cursor: u32,
    stmt: u32,
    /// The number of its first row: 0, or the rows that were sent before it was restored.
    base: u64,
    reported: u64,
    sent: u64,
}

/// The openings not ended yet, and the totals over all there ever were.
#[derive(Clone, Debug, Default)]
pub struct Tally {
    openings: Vec<Opening>,
    reported: u128,
    sent: u128,
    given_up: u128,
}

impl Tally {
    /// A history that starts at an image: each cursor of it counts as an
    /// opening of the rows then left, numbered from its rows sent on.
    pub fn from_image(image: &[u8]) -> Result<Tally, String> {
        Tally::starting(image, |cursor| (cursor.sent, cursor.rows - cursor.sent))
    }

    /// The same, where `counts` says the first row of a cursor and how many it counts with.
    pub fn starting(image: &[u8], counts: impl Fn(&Cursor) -> (u64, u64)) -> Result<Tally, String> {
        let (session, reason) = Model::reference().restore(Session::fresh(), image);
        if reason != 0 {
            return Err(format!("accepted an image that is refused {reason}"));
        }
        let mut tally = Tally::default();
        for cursor in session.tables.cursors.iter().filter(|c| c.live) {
            let (base, reported) = counts(cursor);
            tally.add(Opening { cursor: cursor.id, stmt: cursor.stmt, base, reported, sent: 0 });
        }
        Ok(tally)
    }

    /// Feeds one step; `reply` is the written part of the reply buffer.
    /// Says what broke demand 3, if anything did.
    pub fn feed(
        &mut self,
        frame: &[u8],
        report: Report,
        answer: &Answer,
        reply: &[u8],
    ) -> Result<(), String> {
        if answer.reason != 0 {
            let none = (answer.first, answer.count) == (0, 0);
            return none.then_some(()).ok_or("a refused step sends rows".into());
        }
        let message = Model::reference().read_values(frame);
        if message.reason != 0 {
            return Err(format!("accepted a frame that is refused {}", message.reason));
        }
        self.end(&message);
        match message.kind {
            CURSOR_OPEN => {
                let (cursor, stmt) = (message.cursor, message.stmt);
                self.add(Opening { cursor, stmt, base: 0, reported: report.rows, sent: 0 });
            }
            CURSOR_FETCH => {}
            // No other step sends rows of an opening.
            _ => return Ok(()),
        }
        self.send(message.cursor, answer, has_fetch_done(reply)?)
    }

    /// Endings come first: what the message ends leaves, its rows given up.
    fn end(&mut self, message: &Message) {
        let ends = |opening: &Opening| match message.kind {
            PREPARE | EXECUTE | DEALLOCATE => opening.stmt == message.stmt,
            CURSOR_OPEN | CURSOR_CLOSE => opening.cursor == message.cursor,
            SESS_RESET | SESS_CLOSE => true,
            _ => false,
        };
        for opening in self.openings.iter().filter(|o| ends(o)) {
            self.given_up += u128::from(opening.reported - opening.sent);
        }
        self.openings.retain(|o| !ends(o));
    }

    fn add(&mut self, opening: Opening) {
        self.reported += u128::from(opening.reported);
        self.openings.push(opening);
    }

    /// Adds the rows an Open or a Fetch sends, and checks their numbers and
    /// what FetchDone says.
    fn send(&mut self, cursor: u32, answer: &Answer, done: bool) -> Result<(), String> {
        let opening = self.openings.iter_mut().find(|o| o.cursor == cursor);
        let opening = opening.ok_or("rows sent for no opening")?;
        let next = opening.base + opening.sent;
        if answer.first != next {
            return Err(format!("row {} sent where {next} is next", answer.first));
        }
        if answer.count > opening.reported - opening.sent {
            return Err(format!("{} rows sent past the end", answer.count));
        }
        opening.sent += answer.count;
        self.sent += u128::from(answer.count);
        if done != (opening.sent == opening.reported) {
            let (sent, reported) = (opening.sent, opening.reported);
            return Err(format!("FetchDone {done} with {sent} of {reported} rows sent"));
        }
        Ok(())
    }

    /// Rows reported are rows sent, given up or owed.
    pub fn check(&self, tables: &Tables) -> Result<(), String> {
        let live = tables.cursors.iter().filter(|c| c.live);
        let owed: i128 = live.map(|c| i128::from(c.rows) - i128::from(c.sent)).sum();
        let rest = self.reported as i128 - self.sent as i128 - self.given_up as i128;
        if rest != owed {
            return Err(format!("{owed} rows owed where {rest} are left"));
        }
        Ok(())
    }
}

/// Whether a reply holds a FetchDone frame.
fn has_fetch_done(mut reply: &[u8]) -> Result<bool, String> {
    let mut found = false;
    while let Some((head, rest)) = reply.split_first_chunk::<4>() {
        let length = u32::from_le_bytes(*head) as usize;
        let kind = *rest.first().ok_or("a reply frame without a type")?;
        found |= kind == FETCH_DONE;
        reply = rest.get(length..).ok_or("a reply frame past the reply")?;
    }
    if reply.is_empty() {
        Ok(found)
    } else {
        Err("a cut reply frame".into())
    }
}
