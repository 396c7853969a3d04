//! Why the library refuses something.

use std::error::Error;
use std::fmt;

/// Why a frame, a report, an argument, a draft or an image is refused. The numbers are those of the wire's
/// `Refused (N).` texts.
#[derive(Debug, Clone, Copy, PartialEq, Eq, Hash, PartialOrd, Ord)]
pub enum Refusal {
    /// The frame is not all there: read more.
    NotAllThere = 1,
    /// The frame's length is 0 or above 65,532.
    BadLength = 2,
    /// The reply buffer is below 128 bytes, or a buffer to write to is too small.
    NoRoom = 3,
    /// The session is closed.
    Closed = 4,
    /// The message type is unknown.
    UnknownType = 5,
    /// The payload is bad.
    BadPayload = 6,
    /// The statement id is not live.
    NoStatement = 7,
    /// An argument is an object or an array.
    NotScalar = 8,
    /// There are fewer arguments than placeholders, or none with the index asked for.
    FewArguments = 9,
    /// The cursor id is not live.
    NoCursor = 10,
    /// All rows are already sent.
    AllSent = 11,
    /// The statement carries a cursor of another id.
    OtherCursor = 12,
    /// 64 statements are live, the id not among them.
    StatementsFull = 13,
    /// 16 cursors are live, the id not among them.
    CursorsFull = 14,
    /// The report is of the wrong kind or outside its limits.
    BadReport = 15,
    /// The engine failed.
    EngineFailed = 16,
    /// The body that a Prepare's type chooses, or an Open's Execute, comes
    /// [more than once](crate#messages-in-parts). It stands behind [`Refusal::BadPayload`] and ahead of
    /// [`Refusal::NoStatement`] in the order of the refusals.
    BodyTwice = 17,
    /// An [image](crate#handing-a-session-over) is not acceptable. No frame is refused so.
    BadImage = 18,
}

use Refusal::*;

const ALL: [Refusal; 18] = [
    NotAllThere,
    BadLength,
    NoRoom,
    Closed,
    UnknownType,
    BadPayload,
    NoStatement,
    NotScalar,
    FewArguments,
    NoCursor,
    AllSent,
    OtherCursor,
    StatementsFull,
    CursorsFull,
    BadReport,
    EngineFailed,
    BodyTwice,
    BadImage,
];

impl Refusal {
    /// The reason's number, 1 to 18.
    pub fn number(self) -> u64 {
        self as u64
    }

    /// The refusal with a number.
    pub fn from_number(number: u64) -> Option<Refusal> {
        ALL.into_iter().find(|r| r.number() == number)
    }
}

impl fmt::Display for Refusal {
    fn fmt(&self, f: &mut fmt::Formatter<'_>) -> fmt::Result {
        f.write_str(match self {
            NotAllThere => "the frame is not all there",
            BadLength => "the frame's length is 0 or above 65,532",
            NoRoom => "the buffer is too small",
            Closed => "the session is closed",
            UnknownType => "the message type is unknown",
            BadPayload => "the payload is bad",
            NoStatement => "the statement id is not live",
            NotScalar => "an argument is an object or an array",
            FewArguments => "there are too few arguments",
            NoCursor => "the cursor id is not live",
            AllSent => "all rows are already sent",
            OtherCursor => "the statement carries a cursor of another id",
            StatementsFull => "64 statements are live",
            CursorsFull => "16 cursors are live",
            BadReport => "the report is of the wrong kind or outside its limits",
            EngineFailed => "the engine failed",
            BodyTwice => "the chosen body comes more than once",
            BadImage => "the image is not acceptable",
        })
    }
}

impl Error for Refusal {}

/// A reason that the library gave: 0 is accepted.
pub(crate) fn accepted(reason: u64) -> Result<(), Refusal> {
    if reason == 0 {
        return Ok(());
    }
    Err(Refusal::from_number(reason).expect("the library's reasons are 0 to 18"))
}
