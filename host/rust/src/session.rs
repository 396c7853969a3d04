//! A session: look, step, what its tables hold, and its image.

use crate::ffi;
use crate::message::Message;
use crate::refusal::{accepted, Refusal};
use std::ops::Range;

/// The shortest reply buffer that a step takes. Every reply fits into it.
pub const MIN_REPLY: usize = 128;
/// The places of the statement table.
pub const MAX_STATEMENTS: usize = ffi::MAX_STMTS;
/// The places of the cursor table.
pub const MAX_CURSORS: usize = ffi::MAX_CURSORS;
/// Bytes that the [image](Session::image) of any session fits.
pub const MAX_IMAGE: usize = ffi::MAX_IMAGE;

/// The work that a frame wants of the engine.
#[derive(Debug, Clone, PartialEq, Eq)]
pub enum Work {
    /// None; the report is not consulted.
    None,
    /// Prepare the frame's chosen body; report [`Report::Prepared`].
    Prepare,
    /// Run the statement; report [`Report::Result`].
    Execute,
    /// Run the statement for a cursor; report [`Report::Result`].
    Open,
    /// Get these rows ready; report [`Report::Done`].
    Fetch(Range<u64>),
}

/// What a look answers.
#[derive(Debug, Clone, PartialEq, Eq)]
pub struct Look {
    /// The work that the frame wants, or why a step will refuse it.
    pub work: Result<Work, Refusal>,
    /// Whether a number that was read in the payload is [padded](crate#padded-numbers). Never where the
    /// frame is refused 1 to 6.
    pub padded: bool,
}

/// What the engine did. Numbers outside their limits are refused as [`Refusal::BadReport`].
#[derive(Debug, Clone, Copy, PartialEq, Eq)]
pub enum Report {
    /// No work was wanted.
    None,
    /// A statement was prepared.
    Prepared {
        /// 0 to 65,535.
        placeholders: u64,
    },
    /// A statement was run. No columns means no rows.
    Result {
        /// 0 to 4,096.
        columns: u64,
        /// 0 to 2^32 - 1.
        rows: u64,
    },
    /// The rows of a Fetch are ready.
    Done,
    /// The engine failed.
    Failed {
        /// 1 to 2^32 - 1; it goes out in the Error frame.
        code: u64,
    },
}

impl Work {
    fn from_raw(look: ffi::Look) -> Work {
        match look.work {
            0 => Work::None,
            1 => Work::Prepare,
            2 => Work::Execute,
            3 => Work::Open,
            4 => Work::Fetch(look.first..look.first + look.count),
            other => unreachable!("the library's work is 0 to 4, not {other}"),
        }
    }
}

impl Look {
    fn from_raw(look: ffi::Look) -> Look {
        Look { work: accepted(look.reason).map(|()| Work::from_raw(look)), padded: look.padded }
    }
}

impl Report {
    fn raw(self) -> ffi::Report {
        let none = ffi::Report::default();
        match self {
            Report::None => none,
            Report::Prepared { placeholders } => ffi::Report { kind: 1, placeholders, ..none },
            Report::Result { columns, rows } => ffi::Report { kind: 2, columns, rows, ..none },
            Report::Done => ffi::Report { kind: 3, ..none },
            Report::Failed { code } => ffi::Report { kind: 4, code, ..none },
        }
    }
}

/// All of a frame before its step. A host that keeps something of its own for each statement or cursor keeps it
/// at the place told here, in an array of [`MAX_STATEMENTS`] or [`MAX_CURSORS`], and once the step is accepted
/// frees what stood at the places of `ends`.
///
/// Places and endings depend on the session and the frame alone, whether the frame will be refused or not.
#[derive(Debug, Clone)]
pub struct Inspection<'f> {
    /// The work that [`Session::look`] answers.
    pub work: Result<Work, Refusal>,
    /// Whether a number is padded, as [`Session::look`] answers.
    pub padded: bool,
    /// What [`Message::read`] answers.
    pub message: Result<Message<'f>, Refusal>,
    /// Where the statement of an Execute, Deallocate or Open is live, or a Prepare's will stand.
    pub statement_place: Option<usize>,
    /// Where the cursor of a Close or Fetch is live, or an Open's will stand.
    pub cursor_place: Option<usize>,
    /// The places of the cursors that the frame ends once it is accepted.
    pub ends: Ends,
}

/// Places of the cursor table, from the lowest on.
#[derive(Debug, Clone, Copy, PartialEq, Eq)]
pub struct Ends(u64);

impl Iterator for Ends {
    type Item = usize;

    fn next(&mut self) -> Option<usize> {
        if self.0 == 0 {
            return None;
        }
        let place = self.0.trailing_zeros() as usize;
        self.0 &= self.0 - 1;
        Some(place)
    }
}

/// What goes out ahead of the reply.
#[derive(Debug, Clone, PartialEq, Eq)]
pub struct Rows {
    /// Whether columns go out, ahead of the rows.
    pub columns: bool,
    /// The rows to send.
    pub rows: Range<u64>,
}

/// What a step answers.
#[derive(Debug)]
pub struct Step<'r> {
    /// What to send ahead of the reply, or why the frame is refused. The session is then as it was.
    pub outcome: Result<Rows, Refusal>,
    /// The frame's bytes; 0 where it is not all there, has a bad length or the reply buffer is too small.
    pub used: usize,
    /// The reply to send: an Error frame where the frame is refused, empty where `used` is 0.
    pub reply: &'r [u8],
    /// Whether a number that was read in the payload is [padded](crate#padded-numbers), as
    /// [`Session::look`] answers; never where the reply buffer is too small.
    pub padded: bool,
}

/// A live statement.
#[derive(Debug, Clone, Copy, PartialEq, Eq)]
pub struct Statement {
    /// Its place in the table.
    pub place: usize,
    /// Its id.
    pub id: u32,
    /// Its placeholders.
    pub placeholders: u32,
}

/// A live cursor.
#[derive(Debug, Clone, Copy, PartialEq, Eq)]
pub struct Cursor {
    /// Its place in the table.
    pub place: usize,
    /// Its id.
    pub id: u32,
    /// The id of its statement.
    pub statement: u32,
    /// Rows that the engine reported.
    pub rows: u32,
    /// Rows sent so far.
    pub sent: u32,
}

/// One session: its prepared statements and its cursors.
///
/// ```
/// use karramotx::{ClientMessage, Report, Session, Work, MIN_REPLY};
///
/// let frame = ClientMessage::Deallocate { statement: 1 }.to_vec().unwrap();
/// let mut session = Session::new();
/// let mut reply = [0; MIN_REPLY];
/// let step = session.step(&frame, Report::None, &mut reply);
/// assert_eq!(step.outcome.unwrap_err().number(), 7); // the statement id is not live
/// assert_eq!(step.reply[4], 1);                      // an Error frame
/// ```
#[derive(Debug, Clone, PartialEq, Eq)]
pub struct Session(ffi::Session);

impl Default for Session {
    fn default() -> Session {
        Session::new()
    }
}

impl Session {
    /// A session with no statement and no cursor.
    pub fn new() -> Session {
        // SAFETY: it takes nothing.
        Session(unsafe { ffi::karramotx_fresh() })
    }

    /// The work that the frame wants, or why a step will refuse it. It changes nothing.
    pub fn look(&self, frame: &[u8]) -> Look {
        // SAFETY: the pointers and the length are those of a session and a slice, which are only read.
        Look::from_raw(unsafe { ffi::karramotx_look(&self.0, frame.as_ptr(), frame.len()) })
    }

    /// All that a host needs to know of the frame before its step, from one reading. It changes nothing.
    pub fn inspect<'f>(&self, frame: &'f [u8]) -> Inspection<'f> {
        // SAFETY: the pointers and the length are those of a session and a slice, which are only read.
        let raw = unsafe { ffi::karramotx_inspect(&self.0, frame.as_ptr(), frame.len()) };
        let look = Look::from_raw(raw.look);
        Inspection {
            work: look.work,
            padded: look.padded,
            message: Message::from_raw(frame, raw.message),
            statement_place: (raw.stmt_place < ffi::MAX_STMTS).then_some(raw.stmt_place),
            cursor_place: (raw.cursor_place < ffi::MAX_CURSORS).then_some(raw.cursor_place),
            ends: Ends(raw.ends),
        }
    }

    /// Takes the step that the frame asks for. The reply is put at the front of `reply`, which must
    /// have [`MIN_REPLY`] bytes.
    pub fn step<'r>(&mut self, frame: &[u8], report: Report, reply: &'r mut [u8]) -> Step<'r> {
        // SAFETY: pointers and lengths are those of slices, and what is written is borrowed uniquely.
        let answer = unsafe {
            ffi::karramotx_step(
                &mut self.0,
                frame.as_ptr(),
                frame.len(),
                report.raw(),
                reply.as_mut_ptr(),
                reply.len(),
            )
        };
        let rows = Rows { columns: answer.columns, rows: answer.first..answer.first + answer.count };
        Step {
            outcome: accepted(answer.reason).map(|()| rows),
            used: answer.used,
            reply: &reply[..answer.reply],
            padded: answer.padded,
        }
    }

    /// Whether the session was closed by a Session close.
    pub fn is_closed(&self) -> bool {
        self.0.closed != 0
    }

    /// The live statements, in place order.
    pub fn statements(&self) -> impl Iterator<Item = Statement> + '_ {
        let places = self.0.stmt_ids.iter().zip(&self.0.stmts).enumerate();
        let live = places.filter(|(_, (_, s))| s.live != 0);
        live.map(|(place, (id, s))| Statement { place, id: *id, placeholders: s.placeholders })
    }

    /// The live cursors, in place order.
    pub fn cursors(&self) -> impl Iterator<Item = Cursor> + '_ {
        let live = self.0.cursors.iter().enumerate().filter(|(_, c)| c.live != 0);
        live.map(|(place, c)| Cursor { place, id: c.id, statement: c.stmt, rows: c.rows, sent: c.sent })
    }

    /// How many rows the cursors have still to send.
    pub fn owed(&self) -> u64 {
        // SAFETY: the pointer is that of a session, which is only read.
        unsafe { ffi::karramotx_counts(&self.0) }.owed
    }

    /// The session's image: what [`restore`](Session::restore) takes, here or in another server. It has at most
    /// [`MAX_IMAGE`] bytes.
    ///
    /// ```
    /// assert_eq!(karramotx::Session::new().image(), [1, 0, 0, 0]); // form 1, open, no statement, no cursor
    /// ```
    pub fn image(&self) -> Vec<u8> {
        let mut image = vec![0; MAX_IMAGE];
        // SAFETY: the pointers and the length are those of a session, which is only read, and of a buffer.
        let sent = unsafe { ffi::karramotx_image(&self.0, image.as_mut_ptr(), image.len()) };
        accepted(sent.reason).expect("the image of any session fits");
        image.truncate(sent.len);
        image
    }

    /// Puts the session of an image in the place of this one, of which nothing is kept. An image that is not
    /// acceptable is refused as [`Refusal::BadImage`], and the session is then as it was.
    ///
    /// ```
    /// use karramotx::{Refusal, Session};
    ///
    /// let mut standby = Session::new();
    /// let damaged = [1, 2, 0, 0]; // closed is 0 or 1
    /// assert_eq!(standby.restore(&damaged), Err(Refusal::BadImage));
    /// ```
    pub fn restore(&mut self, image: &[u8]) -> Result<(), Refusal> {
        // SAFETY: the pointer and the length are those of a slice, and the session is borrowed uniquely.
        accepted(unsafe { ffi::karramotx_restore(&mut self.0, image.as_ptr(), image.len()) })
    }

    /// The session as the library has it.
    pub fn raw(&self) -> &ffi::Session {
        &self.0
    }
}
