//! The vocabulary both sides speak, and the trait an implementation offers.
//!
//! Numbers are those of the rules: a `kind` is a client message type, a
//! `reason` a refusal number with 0 for none.

use crate::tally::Tally;

pub const SESS_RESET: u8 = 6;
pub const SESS_CLOSE: u8 = 7;
pub const PREPARE: u8 = 40;
pub const EXECUTE: u8 = 41;
pub const DEALLOCATE: u8 = 42;
pub const CURSOR_OPEN: u8 = 43;
pub const CURSOR_CLOSE: u8 = 44;
pub const CURSOR_FETCH: u8 = 45;

/// The eight client messages.
pub const KINDS: [u8; 8] =
    [SESS_RESET, SESS_CLOSE, PREPARE, EXECUTE, DEALLOCATE, CURSOR_OPEN, CURSOR_CLOSE, CURSOR_FETCH];

pub const STATEMENTS: usize = 64;
pub const CURSORS: usize = 16;
/// The largest value of a frame's length field.
pub const LONGEST: usize = 65_532;
/// The bytes of length that a frame begins with.
pub const HEAD: usize = 4;
/// The smallest reply buffer that is not refused 3.
pub const SMALLEST_REPLY: usize = 128;
/// The bytes of a reader's store.
pub const STORE: usize = 65_536;
/// The bytes of the longest image that any session has.
pub const MAX_IMAGE: usize = 1_044;

/// A buffer that is too small to be written to.
pub const TOO_SMALL: u8 = 3;
/// An image that is not acceptable.
pub const BAD_IMAGE: u8 = 18;

/// What stands first in a reader's store, by the number it is told with.
pub const WHOLE_FRAME: u8 = 0;
/// Neither a whole frame nor a bad length: wait for more.
pub const PART: u8 = 1;
pub const BAD_LENGTH: u8 = 2;

/// A part of a frame, counted from its first byte.
#[derive(Clone, Copy, Debug, Default, PartialEq, Eq)]
pub struct Place {
    pub start: usize,
    pub len: usize,
}

impl Place {
    pub fn end(self) -> usize {
        self.start + self.len
    }

    pub fn of(self, frame: &[u8]) -> &[u8] {
        &frame[self.start..self.end()]
    }

    /// The rules say where a part lies only if there are bytes in it.
    fn or_nowhere(self) -> Place {
        if self.len == 0 {
            Place::default()
        } else {
            self
        }
    }
}

/// One argument. Doubles and floats are held as bits, so that `==` tells
/// NaNs and zeros of either sign apart.
#[derive(Clone, Copy, Debug, PartialEq, Eq)]
pub enum Value {
    Sint(i64),
    Uint(u64),
    Null,
    Octets(Place),
    Double(u64),
    Float(u32),
    Bool(bool),
    Text(Place),
    Object,
    Array,
}

/// What one argument asked for by itself gives: a scalar, or a reason.
pub type Argument = Result<Value, u8>;

/// A frame read by itself, without a session. A refused one has a reason and
/// the bytes used, and zeros otherwise.
#[derive(Clone, Debug, Default, PartialEq, Eq)]
pub struct Message {
    pub reason: u8,
    pub used: usize,
    pub kind: u8,
    pub stmt: u32,
    pub cursor: u32,
    pub fetch_rows: Option<u64>,
    /// Of Execute and of Open's Execute; a Prepare keeps its own in its body.
    pub compact_metadata: Option<bool>,
    /// Prepare's statement type.
    pub operation: u32,
    /// The chosen body of a Prepare, or Open's Execute.
    pub body: Place,
    /// The message that holds the arguments, where there is one.
    pub args_place: Place,
    pub args: Vec<Value>,
    /// Whether a varint that was read in the payload was padded.
    pub padded: bool,
}

impl Message {
    pub fn refused(reason: u8, used: usize) -> Message {
        Message { reason, used, ..Message::default() }
    }

    /// The message without what the rules leave open.
    pub fn comparable(mut self) -> Message {
        self.body = self.body.or_nowhere();
        self.args_place = self.args_place.or_nowhere();
        // Of several objects and arrays only the first one's type is told.
        let compound = |v: &Value| matches!(v, Value::Object | Value::Array);
        let mut later = self.args.iter_mut().filter(|v| compound(v)).skip(1);
        later.by_ref().for_each(|v| *v = Value::Object);
        self
    }
}

/// 0 none, 1 prepared (placeholders), 2 result (columns and rows), 3 done,
/// 4 failed (code). Numbers that a kind does not have may be any.
#[derive(Clone, Copy, Debug, Default, PartialEq, Eq)]
pub struct Report {
    pub kind: u8,
    pub placeholders: u64,
    pub columns: u64,
    pub rows: u64,
    pub code: u64,
}

impl Report {
    pub const NONE: Report = Report { kind: 0, placeholders: 0, columns: 0, rows: 0, code: 0 };
    pub const DONE: Report = Report { kind: 3, ..Report::NONE };

    pub const fn prepared(placeholders: u64) -> Report {
        Report { kind: 1, placeholders, ..Report::NONE }
    }

    pub const fn result(columns: u64, rows: u64) -> Report {
        Report { kind: 2, columns, rows, ..Report::NONE }
    }

    pub const fn failed(code: u64) -> Report {
        Report { kind: 4, code, ..Report::NONE }
    }
}

#[derive(Clone, Copy, Debug, Default, PartialEq, Eq)]
pub enum Work {
    #[default]
    None,
    Prepare,
    Execute,
    Open,
    Fetch,
}

#[derive(Clone, Copy, Debug, Default, PartialEq, Eq)]
pub struct Look {
    pub reason: u8,
    pub work: Work,
    pub first: u64,
    pub count: u64,
    pub padded: bool,
}

#[derive(Clone, Copy, Debug, Default, PartialEq, Eq)]
pub struct Answer {
    pub reason: u8,
    pub used: usize,
    pub reply: usize,
    pub columns: bool,
    pub padded: bool,
    pub first: u64,
    pub count: u64,
}

/// What an inspection tells: the look, whether the message that it read says
/// padded, and what the request touches.
#[derive(Clone, Copy, Debug, Default, PartialEq, Eq)]
pub struct Inspection {
    pub look: Look,
    pub padded: bool,
    pub touched: Touched,
}

/// What a request touches in the tables: where its statement and its cursor
/// stand or are put, and bit by bit the places of the cursors that it ends
/// once it is accepted.
#[derive(Clone, Copy, Debug, Default, PartialEq, Eq)]
pub struct Touched {
    pub statement: Option<usize>,
    pub cursor: Option<usize>,
    pub ends: u64,
}

/// One place of the statement table; a free one is all zeros.
#[derive(Clone, Copy, Debug, Default, PartialEq, Eq)]
pub struct Statement {
    pub live: bool,
    pub id: u32,
    pub placeholders: u64,
}

/// One place of the cursor table; a free one is all zeros.
#[derive(Clone, Copy, Debug, Default, PartialEq, Eq)]
pub struct Cursor {
    pub live: bool,
    pub id: u32,
    pub stmt: u32,
    pub rows: u64,
    pub sent: u64,
}

/// A whole session, place by place.
#[derive(Clone, Debug, PartialEq, Eq)]
pub struct Tables {
    pub closed: bool,
    pub statements: [Statement; STATEMENTS],
    pub cursors: [Cursor; CURSORS],
}

/// A session as a host may make one: any words. Of a flag any number but 0 is yes.
#[derive(Clone, Debug, PartialEq, Eq)]
pub struct Words {
    pub closed: u32,
    /// Whether it is live, id, placeholders.
    pub statements: [[u32; 3]; STATEMENTS],
    /// Whether it is live, id, statement id, rows, rows sent.
    pub cursors: [[u32; 5]; CURSORS],
}

/// A message to write. What its kind has no field for is not consulted.
#[derive(Clone, Copy, Debug, Default, PartialEq, Eq)]
pub struct Draft {
    pub kind: u8,
    pub stmt: u32,
    pub cursor: u32,
    pub has_rows: bool,
    pub rows: u64,
    pub has_compact: bool,
    pub compact: bool,
    pub operation: u32,
}

/// A scalar to append to a stretch of arguments: its type number, its number
/// (two's complement, IEEE bits, 0 or 1) or its bytes.
#[derive(Clone, Debug, Default, PartialEq, Eq)]
pub struct Scalar {
    pub kind: u8,
    pub bits: u64,
    pub bytes: Vec<u8>,
}

/// What a writer answers: a reason, and the length of what then stands at the
/// front of the buffer, 0 if it refused.
#[derive(Clone, Copy, Debug, Default, PartialEq, Eq)]
pub struct Written {
    pub reason: u8,
    pub length: usize,
}

/// What a push answers: what then stands first, and how many bytes of the
/// arrival were taken.
#[derive(Clone, Copy, Debug, Default, PartialEq, Eq)]
pub struct Pushed {
    pub reason: u8,
    pub count: usize,
}

/// What handing out answers: a frame and its type byte, or why there is none.
#[derive(Clone, Debug, Default, PartialEq, Eq)]
pub struct NextFrame {
    pub reason: u8,
    pub kind: u8,
    pub frame: Vec<u8>,
}

/// Everything the comparison asks of an implementation.
pub trait Implementation {
    /// Two sessions are equal if they are so word for word.
    type Session: Clone + PartialEq;
    /// A reader of arrivals with its store.
    type Reader;

    fn name(&self) -> String;
    fn fresh(&self) -> Self::Session;
    fn tables(&self, session: &Self::Session) -> Tables;

    fn read(&self, frame: &[u8]) -> Message;
    /// One argument by its index from 0.
    fn argument(&self, frame: &[u8], index: u64) -> Argument;
    /// All arguments in one pass, ending with the first answer that is
    /// neither a scalar nor an object or array (8): 9 behind the last one.
    fn pass(&self, frame: &[u8]) -> Vec<Argument>;
    fn body<'f>(&self, frame: &'f [u8]) -> &'f [u8];

    fn look(&self, session: &Self::Session, frame: &[u8]) -> Look;
    fn inspect(&self, session: &Self::Session, frame: &[u8]) -> Inspection;
    fn step(
        &self,
        session: Self::Session,
        frame: &[u8],
        report: Report,
        reply: &mut [u8],
    ) -> (Self::Session, Answer);

    /// A session that no step made.
    fn made(&self, words: &Words) -> Self::Session;
    /// Writes the session's image at the front of a buffer.
    fn image(&self, session: &Self::Session, out: &mut [u8]) -> Written;
    /// Reads an image into a session; gives that, and the reason.
    fn restore(&self, session: Self::Session, image: &[u8]) -> (Self::Session, u8);
    /// The tally that starts at an accepted image. Only a mistake keeps another one.
    fn tally_from(&self, image: &[u8]) -> Result<Tally, String> {
        Tally::from_image(image)
    }

    fn write(&self, draft: &Draft, body: &[u8], args: &[u8], out: &mut [u8]) -> Written;
    /// Writes `scalar` as an args field behind the first `at` bytes.
    fn append(&self, buffer: &mut [u8], at: usize, scalar: &Scalar) -> Written;

    fn reader(&self) -> Self::Reader;
    fn start_over(&self, reader: &mut Self::Reader);
    fn push(&self, reader: &mut Self::Reader, bytes: &[u8]) -> Pushed;
    fn next_frame(&self, reader: &mut Self::Reader) -> NextFrame;
    /// The bytes taken and not handed out yet.
    fn held(&self, reader: &Self::Reader) -> Vec<u8>;
}
