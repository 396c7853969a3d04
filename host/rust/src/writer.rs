//! The eight client messages, written.

use crate::argument::Args;
use crate::ffi;
use crate::message::Operation;
use crate::refusal::{accepted, Refusal};

/// The longest frame, its four bytes of length included.
pub const MAX_FRAME: usize = 65_536;

/// A client message to write.
///
/// ```
/// use karramotx::{sql_body, ClientMessage, Kind, Message, Operation};
///
/// let body = sql_body(b"select leg from airways where cycle = ?");
/// let frame = ClientMessage::Prepare {
///     statement: 1,
///     operation: Operation::StmtExecute,
///     body: &body,
/// }
/// .to_vec()?;
/// let message = Message::read(&frame)?;
/// assert_eq!(message.kind(), Kind::Prepare);
/// assert_eq!(message.body(), body);
/// # Ok::<(), karramotx::Refusal>(())
/// ```
#[derive(Debug, Clone, Copy, PartialEq)]
pub enum ClientMessage<'a> {
    /// Reset.
    Reset,
    /// Session close.
    SessionClose,
    /// Prepare a statement.
    Prepare {
        /// Its id.
        statement: u32,
        /// Its type, which chooses the body.
        operation: Operation,
        /// Its body, encoded; of [`Operation::StmtExecute`] see [`sql_body`].
        body: &'a [u8],
    },
    /// Run a statement.
    Execute {
        /// Its id.
        statement: u32,
        /// Its arguments.
        args: &'a Args,
        /// compact_metadata.
        compact_metadata: Option<bool>,
    },
    /// Free a statement.
    Deallocate {
        /// Its id.
        statement: u32,
    },
    /// Open a cursor on a statement.
    Open {
        /// The cursor id.
        cursor: u32,
        /// The statement id.
        statement: u32,
        /// The statement's arguments.
        args: &'a Args,
        /// compact_metadata.
        compact_metadata: Option<bool>,
        /// How many rows to send at once; absent means none.
        fetch_rows: Option<u64>,
    },
    /// Close a cursor.
    Close {
        /// The cursor id.
        cursor: u32,
    },
    /// Fetch rows from a cursor.
    Fetch {
        /// The cursor id.
        cursor: u32,
        /// How many rows; absent means all that are left.
        fetch_rows: Option<u64>,
    },
}

impl<'a> ClientMessage<'a> {
    /// The draft, the body and the args fields.
    fn raw(&self) -> (ffi::Draft, &'a [u8], &'a [u8]) {
        let mut draft = ffi::Draft::default();
        let mut put_rows = |rows: Option<u64>, compact: Option<bool>| {
            (draft.hasrows, draft.rows) = (rows.is_some(), rows.unwrap_or(0));
            (draft.hascompact, draft.compact) = (compact.is_some(), compact.unwrap_or(false));
        };
        let (mut body, mut fields): (&[u8], &[u8]) = (&[], &[]);
        let (kind, stmt, cursor, operation) = match *self {
            ClientMessage::Reset => (6, 0, 0, 0),
            ClientMessage::SessionClose => (7, 0, 0, 0),
            ClientMessage::Prepare { statement, operation, body: encoded } => {
                body = encoded;
                (40, statement, 0, operation as u64)
            }
            ClientMessage::Execute { statement, args, compact_metadata } => {
                put_rows(None, compact_metadata);
                fields = args.as_bytes();
                (41, statement, 0, 0)
            }
            ClientMessage::Deallocate { statement } => (42, statement, 0, 0),
            ClientMessage::Open { cursor, statement, args, compact_metadata, fetch_rows } => {
                put_rows(fetch_rows, compact_metadata);
                fields = args.as_bytes();
                (43, statement, cursor, 0)
            }
            ClientMessage::Close { cursor } => (44, 0, cursor, 0),
            ClientMessage::Fetch { cursor, fetch_rows } => {
                put_rows(fetch_rows, None);
                (45, 0, cursor, 0)
            }
        };
        (draft.kind, draft.stmt, draft.cursor, draft.operation) = (kind, stmt, cursor, operation);
        (draft, body, fields)
    }

    /// Writes the frame at the front of `buf` and answers its length. A refusal writes nothing.
    pub fn write_to(&self, buf: &mut [u8]) -> Result<usize, Refusal> {
        let (draft, body, args) = self.raw();
        // SAFETY: pointers and lengths are those of slices, and the buffer is borrowed uniquely.
        let sent = unsafe {
            ffi::karramotx_write(
                draft,
                body.as_ptr(),
                body.len(),
                args.as_ptr(),
                args.len(),
                buf.as_mut_ptr(),
                buf.len(),
            )
        };
        accepted(sent.reason).map(|()| sent.len)
    }

    /// The frame.
    pub fn to_vec(&self) -> Result<Vec<u8>, Refusal> {
        let mut frame = vec![0; MAX_FRAME];
        let len = self.write_to(&mut frame)?;
        frame.truncate(len);
        Ok(frame)
    }
}

/// The body of an [`Operation::StmtExecute`] that carries this SQL: field 1, bytes.
///
/// This is plain Rust, outside the proofs; the library judges the body when it writes or reads it.
pub fn sql_body(sql: &[u8]) -> Vec<u8> {
    let mut body = vec![0x0a];
    let mut left = sql.len();
    while left >= 0x80 {
        body.push((left % 0x80) as u8 | 0x80);
        left /= 0x80;
    }
    body.push(left as u8);
    body.extend_from_slice(sql);
    body
}
