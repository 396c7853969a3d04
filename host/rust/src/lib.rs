//! A keeper of MySQL X Protocol sessions.
//!
//! This crate wraps a library whose every function is proved to meet its contract: it reads the frames
//! of one session, keeps its prepared statements and cursors, and writes the replies. An engine of yours
//! runs the statements and sends columns and rows; the library says which rows. What FetchDone stands
//! for is part of the proof: the reply to an Open or a Fetch holds it exactly when all rows that the
//! engine reported for that opening have been sent, each once and in order.
//!
//! The wrappers are plain Rust: they turn numbers into enums and pointers into slices, and decide
//! nothing.
//!
//! ```
//! use karramotx::{Report, Session, Work, MIN_REPLY};
//!
//! fn serve(session: &mut Session, frame: &[u8]) -> Vec<u8> {
//!     let report = match session.look(frame).work {
//!         Ok(Work::Prepare) => Report::Prepared { placeholders: 0 },
//!         Ok(Work::Execute | Work::Open) => Report::Result { columns: 3, rows: 1_000 },
//!         Ok(Work::Fetch(_rows)) => Report::Done,
//!         Ok(Work::None) | Err(_) => Report::None,
//!     };
//!     let mut reply = [0; MIN_REPLY];
//!     let step = session.step(frame, report, &mut reply);
//!     if let Ok(_rows) = &step.outcome {
//!         // send columns and rows here, ahead of the reply
//!     }
//!     step.reply.to_vec()
//! }
//!
//! let mut session = Session::new();
//! let reset = [1, 0, 0, 0, 6];
//! assert_eq!(serve(&mut session, &reset), [1, 0, 0, 0, 0]); // Ok
//! ```
//!
//! A host that reads arguments, or keeps results for its cursors, calls [`Session::inspect`] in place of
//! [`Session::look`]: it tells all of a frame from one reading, and what an accepted step ends.
//!
//! Bytes of a network arrive cut anywhere. [`Frames`] takes them and hands out whole frames; it shows a
//! server's loop.
//!
//! # Messages in parts
//!
//! A message inside another may come in several parts, such as a statement's type in one and its body in
//! the next: the statement of a Prepare or an Open, the scalar of an argument, the octets or the string of
//! a scalar. The fields of all parts count as if they stood in one, and of a field that is not repeated the
//! last occurrence counts. Each part that is read must be a good list of fields by itself, and what is
//! required may stand in any of them. What the type does not choose is skipped unread, in every part; the
//! type is the one that all parts together have. Arguments are repeated: each is one of its own.
//!
//! The body that a Prepare's type chooses and an Open's Execute are handed out as one part of the frame, so
//! they must not come twice. A frame in which one does, and which is otherwise good, is refused as
//! [`Refusal::BodyTwice`].
//!
//! ```
//! use karramotx::{Message, Operation};
//!
//! // Prepare of statement 1: the type in one part of its statement, an empty Find in the next
//! let frame = [11, 0, 0, 0, 40, 8, 1, 18, 2, 8, 0, 18, 2, 18, 0];
//! assert_eq!(Message::read(&frame)?.operation(), Some(Operation::Find));
//! # Ok::<(), karramotx::Refusal>(())
//! ```
//!
//! # Padded numbers
//!
//! The tags, lengths and numbers of a payload are varints. A varint is padded if its bytes are not the
//! ones that the library's writer would write for its 64-bit value, which are the shortest. A padded
//! number is good and means what it would mean without padding; but a host may want to find the clients
//! that write so.
//!
//! ```
//! use karramotx::{Refusal, Session};
//!
//! let fetch = [7, 0, 0, 0, 45, 8, 0x81, 0x80, 0x80, 0x80, 0]; // Fetch of cursor 1, its id in five bytes
//! let look = Session::new().look(&fetch);
//! assert!(look.padded);
//! assert_eq!(look.work, Err(Refusal::NoCursor));
//! ```
//!
//! A look, an inspection, a step and a [`Message`] say whether any varint that they read in the payload
//! is padded. The tag of every field counts, known or not, and so does its length or its number; of a
//! group the start tag; of an Execute or Open also all that is read of the arguments. A message that comes
//! in several parts counts in each of them. The rest of a group does not count, nor do the bytes inside a
//! Prepare's body, nor those inside a part that is skipped unread, which is one that the type does not
//! choose, the one that all parts together have. The tag and the length of such a part count.
//!
//! Of a frame refused as [`Refusal::NotAllThere`] to [`Refusal::BadPayload`], numbers 1 to 6, they say
//! no; of any other, refused or accepted, what was read. So a look and a step say the same, unless the
//! step is refused as [`Refusal::NoRoom`]. A [`Message`] knows of no session: in a closed one the look
//! of an inspection says no, and its message what was read. Of a frame refused as [`Refusal::BodyTwice`]
//! there is no [`Message`]; its look and its step say what was read.
//!
//! # Handing a session over
//!
//! A session goes on in another server, as a standby, from its image: some bytes that say all it holds.
//!
//! ```
//! use karramotx::{Frames, Refusal, Session};
//!
//! fn hand_over(session: &Session, frames: &Frames) -> (Vec<u8>, Vec<u8>) {
//!     (session.image(), frames.held().to_vec())
//! }
//!
//! fn take_over(image: &[u8], held: &[u8]) -> Result<(Session, Frames), Refusal> {
//!     let (mut session, mut frames) = (Session::new(), Frames::new());
//!     session.restore(image)?;
//!     assert_eq!(frames.push(held), held.len()); // a store has room for what another holds
//!     // let the engine make plans and results anew here, each at the place of its entry
//!     Ok((session, frames))
//! }
//!
//! let (image, held) = hand_over(&Session::new(), &Frames::new());
//! let (session, _frames) = take_over(&image, &held)?;
//! assert_eq!(session, Session::new());
//! # Ok::<(), Refusal>(())
//! ```
//!
//! The session that is restored is the one that the image was written from, so it goes on exactly as that
//! would have, and what FetchDone stands for holds of it too. The image holds nothing else. Yours to hand over
//! beside it are the bytes that arrived and were not stepped on, which [`Frames::held`] has; the replies that
//! were not sent yet; and what the engine keeps: [`Session::statements`] and [`Session::cursors`] say for which
//! entries, and at which places. The result of a cursor must have as many rows as before.
//!
//! An image may come from disk or from the network: it is judged, byte for byte, and refused as
//! [`Refusal::BadImage`] where it is not acceptable. `include/karramotx.h` lays it out. It has no checksum, and
//! damage that keeps its rules gives another session: carry it in a way that finds damage.
#![deny(missing_docs)]

mod argument;
pub mod ffi;
mod frames;
mod message;
mod refusal;
mod session;
mod writer;

pub use argument::{Args, Argument, Arguments};
pub use frames::{BadLength, Frame, Frames};
pub use message::{Kind, Message, Operation};
pub use refusal::Refusal;
pub use session::{
    Cursor, Ends, Inspection, Look, Report, Rows, Session, Statement, Step, Work, MAX_CURSORS, MAX_IMAGE,
    MAX_STATEMENTS, MIN_REPLY,
};
pub use writer::{sql_body, ClientMessage, MAX_FRAME};
