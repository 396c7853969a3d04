//! The library's own structs and functions, as `include/karramotx.h` has them.
//!
//! The rest of this crate wraps them. They are public for hosts that keep a session in memory of their
//! own; the header documents each field and function.

/// One place of the statement table. Its id stands in the session's `stmt_ids`, at the same place.
#[repr(C)]
#[derive(Debug, Clone, Copy, Default, PartialEq, Eq)]
pub struct Stmt {
    /// How many placeholders the engine reported.
    pub placeholders: u32,
    /// Whether the place is taken: 0 no, anything else yes. The library writes 1.
    pub live: u32,
}

/// One place of the cursor table.
#[repr(C)]
#[derive(Debug, Clone, Copy, Default, PartialEq, Eq)]
pub struct Cursor {
    /// The cursor id.
    pub id: u32,
    /// The id of its statement.
    pub stmt: u32,
    /// Rows that the engine reported.
    pub rows: u32,
    /// Rows sent so far.
    pub sent: u32,
    /// Whether the place is taken: 0 no, anything else yes. The library writes 1.
    pub live: u32,
}

/// The places of the statement table.
pub const MAX_STMTS: usize = 64;
/// The places of the cursor table.
pub const MAX_CURSORS: usize = 16;

/// A session: 273 words without gaps. A free place is not live and all 0.
///
/// Every bit pattern is a session; the library trusts none of it. But what FetchDone stands for is promised
/// only of one that came from [`karramotx_fresh`] or, accepted, from [`karramotx_restore`], and was changed by
/// [`karramotx_step`] alone.
#[repr(C)]
#[derive(Debug, Clone, Copy, PartialEq, Eq)]
pub struct Session {
    /// The ids of the statement table.
    pub stmt_ids: [u32; MAX_STMTS],
    /// The statement table.
    pub stmts: [Stmt; MAX_STMTS],
    /// The cursor table.
    pub cursors: [Cursor; MAX_CURSORS],
    /// Whether the session is closed: 0 no, anything else yes. The library writes 1.
    pub closed: u32,
}

/// What a session holds, counted.
#[repr(C)]
#[derive(Debug, Clone, Copy, Default, PartialEq, Eq)]
pub struct Counts {
    /// Live statements.
    pub stmts: u64,
    /// Live cursors.
    pub cursors: u64,
    /// Rows that the cursors have still to send.
    pub owed: u64,
}

/// What a look answers.
#[repr(C)]
#[derive(Debug, Clone, Copy, Default, PartialEq, Eq)]
pub struct Look {
    /// 0, or why a step will refuse the frame.
    pub reason: u64,
    /// The work wanted: 0 none, 1 prepare, 2 execute, 3 open, 4 fetch.
    pub work: u64,
    /// Of a Fetch, the first row to send.
    pub first: u64,
    /// Of a Fetch, how many rows to send.
    pub count: u64,
    /// Whether a varint that was read in the payload is padded; not where the frame is refused 1 to 6.
    pub padded: bool,
}

/// What the engine did: 0 none, 1 prepared, 2 result, 3 done, 4 failed. What its kind does not have is ignored.
#[repr(C)]
#[derive(Debug, Clone, Copy, Default, PartialEq, Eq)]
pub struct Report {
    /// The kind of the report; another number is refused.
    pub kind: u64,
    /// Placeholders, of kind 1.
    pub placeholders: u64,
    /// Columns, of kind 2.
    pub columns: u64,
    /// Rows, of kind 2.
    pub rows: u64,
    /// The error code, of kind 4.
    pub code: u64,
}

/// What a step answers.
#[repr(C)]
#[derive(Debug, Clone, Copy, Default, PartialEq, Eq)]
pub struct Answer {
    /// 0, or why the frame is refused.
    pub reason: u64,
    /// Bytes of the frame.
    pub used: usize,
    /// Bytes of the reply.
    pub reply: usize,
    /// Whether columns go out.
    pub columns: bool,
    /// Whether a varint that was read in the payload is padded; not where the frame is refused 1 to 6.
    pub padded: bool,
    /// The first row to send.
    pub first: u64,
    /// How many rows to send.
    pub count: u64,
}

/// A field that may be absent.
#[repr(C)]
#[derive(Debug, Clone, Copy, Default, PartialEq, Eq)]
pub struct Optional {
    /// Whether it is there.
    pub present: bool,
    /// Its value, 0 where it is absent.
    pub value: u64,
}

/// Some bytes of a frame.
#[repr(C)]
#[derive(Debug, Clone, Copy, Default, PartialEq, Eq)]
pub struct Part {
    /// Their place.
    pub start: usize,
    /// Their length.
    pub len: usize,
}

/// The arguments of a message, all together.
#[repr(C)]
#[derive(Debug, Clone, Copy, Default, PartialEq, Eq)]
pub struct Arguments {
    /// Whether each one is good.
    pub good: bool,
    /// How many there are.
    pub count: usize,
    /// The first object (2) or array (3) among them; 0 where there is none.
    pub kind: u64,
    /// Its index.
    pub index: usize,
    /// The place of the message that holds the arguments.
    pub start: usize,
    /// The place behind that message.
    pub end: usize,
}

/// What a frame holds.
#[repr(C)]
#[derive(Debug, Clone, Copy, Default, PartialEq, Eq)]
pub struct Message {
    /// 0, or why the frame is refused whatever the session: 1, 2, 5, 6 or 17.
    pub reason: u64,
    /// The frame's length.
    pub used: usize,
    /// The message type.
    pub kind: u64,
    /// The statement id.
    pub stmt: u64,
    /// The cursor id.
    pub cursor: u64,
    /// fetch_rows.
    pub rows: Optional,
    /// compact_metadata, 0 or 1.
    pub compact: Optional,
    /// The type of a Prepare's statement.
    pub operation: u64,
    /// The chosen body.
    pub body: Part,
    /// The arguments.
    pub args: Arguments,
    /// Whether a varint that was read in the payload is padded; not where the frame is refused 1, 2, 5 or 6.
    pub padded: bool,
}

/// All of a frame before its step, from one reading.
#[repr(C)]
#[derive(Debug, Clone, Copy, Default, PartialEq, Eq)]
pub struct Inspection {
    /// What a look answers.
    pub look: Look,
    /// What the frame holds.
    pub message: Message,
    /// Where the request's statement stands, or a Prepare's will stand; `MAX_STMTS` where there is no place.
    pub stmt_place: usize,
    /// Where the request's cursor stands, or an Open's will stand; `MAX_CURSORS` where there is no place.
    pub cursor_place: usize,
    /// Bit i: the cursor at place i is live, and the frame ends it once it is accepted.
    pub ends: u64,
}

/// One argument.
#[repr(C)]
#[derive(Debug, Clone, Copy, Default, PartialEq, Eq)]
pub struct Value {
    /// 0, or why it is refused.
    pub reason: u64,
    /// The Scalar type, 1 to 8; 0 where it is refused.
    pub kind: u64,
    /// Its number or its bits.
    pub value: u64,
    /// The place of its bytes.
    pub start: usize,
    /// Their length.
    pub len: usize,
    /// The place behind the argument, in a pass over all of them.
    pub next: usize,
}

/// A client message to write.
#[repr(C)]
#[derive(Debug, Clone, Copy, Default, PartialEq, Eq)]
pub struct Draft {
    /// The message type; a number that is none of the eight is refused.
    pub kind: u64,
    /// The statement id.
    pub stmt: u32,
    /// The cursor id.
    pub cursor: u32,
    /// Whether fetch_rows is present.
    pub hasrows: bool,
    /// fetch_rows.
    pub rows: u64,
    /// Whether compact_metadata is present.
    pub hascompact: bool,
    /// compact_metadata.
    pub compact: bool,
    /// The type of a Prepare's statement; an unlisted number is refused.
    pub operation: u64,
}

/// What writing comes to.
#[repr(C)]
#[derive(Debug, Clone, Copy, Default, PartialEq, Eq)]
pub struct Sent {
    /// 0, or why nothing is written.
    pub reason: u64,
    /// Bytes of the frame, the stretch or the image.
    pub len: usize,
}

/// A scalar to write as an argument.
#[repr(C)]
#[derive(Debug, Clone, Copy, Default, PartialEq, Eq)]
pub struct Scalar {
    /// The Scalar type, 1 to 8; another number is refused.
    pub kind: u64,
    /// Its number or its bits.
    pub value: u64,
}

/// The bytes of a reader's store.
pub const STORE: usize = 65_536;
/// Bytes that the image of any session fits.
pub const MAX_IMAGE: usize = 1_044;

/// A reader of arrivals: the bytes held are those of its store from `start` up to `end`.
#[repr(C)]
#[derive(Debug, Clone, Copy, Default, PartialEq, Eq)]
pub struct Reader {
    /// Their place in the store.
    pub start: usize,
    /// The place behind them.
    pub end: usize,
}

/// What pushing an arrival comes to.
#[repr(C)]
#[derive(Debug, Clone, Copy, Default, PartialEq, Eq)]
pub struct Pushed {
    /// The reader after it.
    pub reader: Reader,
    /// What stands first now: 0 a whole frame, 2 a bad length, 1 neither.
    pub reason: u64,
    /// Bytes taken.
    pub count: usize,
}

/// A frame handed out, or none.
#[repr(C)]
#[derive(Debug, Clone, Copy, Default, PartialEq, Eq)]
pub struct NextFrame {
    /// The reader after it.
    pub reader: Reader,
    /// 0 a frame is handed out; 1 wait for more; 2 a bad length stands first.
    pub reason: u64,
    /// Its place in the store.
    pub start: usize,
    /// Its length, the four bytes included.
    pub len: usize,
    /// Its type byte, of any type.
    pub kind: u64,
}

extern "C" {
    /// A session with nothing in it.
    pub fn karramotx_fresh() -> Session;
    /// Live statements, live cursors, rows owed.
    pub fn karramotx_counts(session: *const Session) -> Counts;
    /// The work that a frame wants.
    pub fn karramotx_look(session: *const Session, frame: *const u8, len: usize) -> Look;
    /// Look and message from one reading, and what the frame touches in the tables.
    pub fn karramotx_inspect(session: *const Session, frame: *const u8, len: usize) -> Inspection;
    /// A step in place.
    pub fn karramotx_step(
        session: *mut Session,
        frame: *const u8,
        len: usize,
        report: Report,
        reply: *mut u8,
        reply_len: usize,
    ) -> Answer;
    /// What a frame holds.
    pub fn karramotx_read(frame: *const u8, len: usize) -> Message;
    /// The chosen body.
    pub fn karramotx_body(frame: *const u8, len: usize) -> Part;
    /// The argument with an index.
    pub fn karramotx_argument(frame: *const u8, len: usize, index: usize) -> Value;
    /// The next argument at or behind a place.
    pub fn karramotx_next_argument(frame: *const u8, end: usize, at: usize) -> Value;
    /// A message at the front of a buffer.
    pub fn karramotx_write(
        draft: Draft,
        body: *const u8,
        body_len: usize,
        args: *const u8,
        args_len: usize,
        buf: *mut u8,
        buf_len: usize,
    ) -> Sent;
    /// A scalar as an args field behind the first `at` bytes of a buffer.
    pub fn karramotx_append(
        scalar: Scalar,
        bytes: *const u8,
        bytes_len: usize,
        buf: *mut u8,
        buf_len: usize,
        at: usize,
    ) -> Sent;
    /// The image of a session at the front of a buffer.
    pub fn karramotx_image(session: *const Session, buf: *mut u8, buf_len: usize) -> Sent;
    /// The session of an image in the place of another. Answers 0, or 18 where the image is not acceptable.
    pub fn karramotx_restore(session: *mut Session, image: *const u8, image_len: usize) -> u64;
    /// A reader that holds nothing.
    pub fn karramotx_start_over() -> Reader;
    /// Bytes that arrived, taken as far as there is room. `store` has `STORE` bytes.
    pub fn karramotx_push(reader: Reader, bytes: *const u8, len: usize, store: *mut u8) -> Pushed;
    /// The frame that stands first, handed out. `store` has `STORE` bytes.
    pub fn karramotx_next_frame(reader: Reader, store: *const u8) -> NextFrame;
}
