//! What a frame holds by itself.

use crate::argument::{Argument, Arguments};
use crate::ffi;
use crate::refusal::{accepted, Refusal};

/// The message types of a client.
#[derive(Debug, Clone, Copy, PartialEq, Eq, Hash)]
pub enum Kind {
    /// Reset: everything ends.
    Reset = 6,
    /// Session close.
    SessionClose = 7,
    /// Prepare a statement.
    Prepare = 40,
    /// Run a statement.
    Execute = 41,
    /// Free a statement.
    Deallocate = 42,
    /// Open a cursor.
    Open = 43,
    /// Close a cursor.
    Close = 44,
    /// Fetch rows from a cursor.
    Fetch = 45,
}

/// The type of a Prepare's statement, which chooses its body.
#[derive(Debug, Clone, Copy, PartialEq, Eq, Hash)]
pub enum Operation {
    /// A Find.
    Find = 0,
    /// An Insert.
    Insert = 1,
    /// An Update.
    Update = 2,
    /// A Delete.
    Delete = 4,
    /// A StmtExecute, which carries SQL.
    StmtExecute = 5,
}

impl Kind {
    /// The type with a number, such as the type byte of a frame; none where it is none of the eight.
    pub fn from_number(number: u64) -> Option<Kind> {
        Some(match number {
            6 => Kind::Reset,
            7 => Kind::SessionClose,
            40 => Kind::Prepare,
            41 => Kind::Execute,
            42 => Kind::Deallocate,
            43 => Kind::Open,
            44 => Kind::Close,
            45 => Kind::Fetch,
            _ => return None,
        })
    }

    /// Whether messages of this type carry a statement id.
    fn has_statement(self) -> bool {
        matches!(self, Kind::Prepare | Kind::Execute | Kind::Deallocate | Kind::Open)
    }

    /// Whether messages of this type carry a cursor id.
    fn has_cursor(self) -> bool {
        matches!(self, Kind::Open | Kind::Close | Kind::Fetch)
    }
}

/// A client message, read from a frame that it borrows.
///
/// ```
/// use karramotx::{Kind, Message};
///
/// let frame = [5, 0, 0, 0, 45, 8, 1, 16, 2]; // Fetch of cursor 1, two rows
/// let message = Message::read(&frame)?;
/// assert_eq!(message.kind(), Kind::Fetch);
/// assert_eq!(message.cursor_id(), Some(1));
/// assert_eq!(message.fetch_rows(), Some(2));
/// # Ok::<(), karramotx::Refusal>(())
/// ```
#[derive(Debug, Clone, Copy)]
pub struct Message<'f> {
    frame: &'f [u8],
    raw: ffi::Message,
}

impl<'f> Message<'f> {
    /// Reads the frame that the bytes begin with; bytes past it are not read. Refused as
    /// [`Refusal::NotAllThere`], [`Refusal::BadLength`], [`Refusal::UnknownType`], [`Refusal::BadPayload`] or
    /// [`Refusal::BodyTwice`].
    pub fn read(frame: &'f [u8]) -> Result<Message<'f>, Refusal> {
        // SAFETY: the pointer and the length are those of a slice.
        let raw = unsafe { ffi::karramotx_read(frame.as_ptr(), frame.len()) };
        Message::from_raw(frame, raw)
    }

    /// What was read of the frame.
    pub(crate) fn from_raw(frame: &'f [u8], raw: ffi::Message) -> Result<Message<'f>, Refusal> {
        accepted(raw.reason)?;
        Ok(Message { frame, raw })
    }

    /// The bytes of the frame itself.
    pub fn frame(&self) -> &'f [u8] {
        &self.frame[..self.raw.used]
    }

    /// The message type.
    pub fn kind(&self) -> Kind {
        Kind::from_number(self.raw.kind).expect("the library reads eight message types")
    }

    /// The statement id, where the message type has one.
    pub fn statement_id(&self) -> Option<u32> {
        self.kind().has_statement().then_some(self.raw.stmt as u32)
    }

    /// The cursor id, where the message type has one.
    pub fn cursor_id(&self) -> Option<u32> {
        self.kind().has_cursor().then_some(self.raw.cursor as u32)
    }

    /// fetch_rows, where it is present. Absent, an Open sends no row and a Fetch all that remain.
    pub fn fetch_rows(&self) -> Option<u64> {
        self.raw.rows.present.then_some(self.raw.rows.value)
    }

    /// compact_metadata, where it is present.
    pub fn compact_metadata(&self) -> Option<bool> {
        self.raw.compact.present.then_some(self.raw.compact.value != 0)
    }

    /// The type of a Prepare's statement.
    pub fn operation(&self) -> Option<Operation> {
        if self.kind() != Kind::Prepare {
            return None;
        }
        Some(match self.raw.operation {
            0 => Operation::Find,
            1 => Operation::Insert,
            2 => Operation::Update,
            4 => Operation::Delete,
            5 => Operation::StmtExecute,
            other => unreachable!("the library reads five statement types, not {other}"),
        })
    }

    /// The chosen body, a Prepare's or an Open's Execute, as that part of the frame; else empty.
    pub fn body(&self) -> &'f [u8] {
        &self.frame[self.raw.body.start..][..self.raw.body.len]
    }

    /// Whether a number that was read in the payload is [padded](crate#padded-numbers).
    pub fn is_padded(&self) -> bool {
        self.raw.padded
    }

    /// How many arguments there are.
    pub fn argument_count(&self) -> usize {
        self.raw.args.count
    }

    /// All arguments, in one pass. An object or array is an `Err` of [`Refusal::NotScalar`].
    pub fn arguments(&self) -> Arguments<'f> {
        Arguments::new(&self.frame[..self.raw.args.end], self.raw.args.start)
    }

    /// The argument with an index, from 0. Each call reads the whole frame anew: for all of them take
    /// [`arguments`](Message::arguments).
    pub fn argument(&self, index: usize) -> Result<Argument<'f>, Refusal> {
        // SAFETY: the pointer and the length are those of a slice.
        let value = unsafe { ffi::karramotx_argument(self.frame.as_ptr(), self.frame.len(), index) };
        Argument::from_raw(self.frame, value)
    }
}
