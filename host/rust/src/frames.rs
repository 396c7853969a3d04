//! Frames as they arrive.

use crate::ffi;
use crate::refusal::{accepted, Refusal};
use std::error::Error;
use std::fmt;
use std::ops::Deref;

/// A reader of one connection: bytes are pushed as they arrive, cut anywhere, and whole frames are
/// handed out. It keeps a store of 65,536 bytes, which the longest frame fills.
///
/// A server's loop:
///
/// ```
/// use karramotx::{BadLength, Frames, Report, Session, MIN_REPLY};
/// use std::io::{self, Read, Write};
///
/// fn serve(mut client: impl Read, mut replies: impl Write) -> io::Result<()> {
///     let mut session = Session::new();
///     let mut frames = Frames::new();
///     let mut bytes = [0; 1460];
///     loop {
///         let mut arrival = match client.read(&mut bytes)? {
///             0 if frames.held().is_empty() => return Ok(()),
///             0 => return Err(io::ErrorKind::UnexpectedEof.into()), // cut in mid-frame
///             got => &bytes[..got],
///         };
///         while !arrival.is_empty() {
///             let taken = frames.push(arrival);
///             arrival = &arrival[taken..];
///             while let Some(frame) = frames.next_frame().map_err(io::Error::other)? {
///                 // look and let the engine work here; see the crate's first example
///                 let mut reply = [0; MIN_REPLY];
///                 let step = session.step(&frame, Report::None, &mut reply);
///                 replies.write_all(step.reply)?;
///                 if session.is_closed() {
///                     return Ok(());
///                 }
///             }
///         }
///     }
/// }
///
/// // Reset and Session close, in arrivals of six bytes and four
/// let mut replies = Vec::new();
/// serve((&[1, 0, 0, 0, 6, 1][..]).chain(&[0, 0, 0, 7][..]), &mut replies)?;
/// assert_eq!(replies, [1, 0, 0, 0, 0, 1, 0, 0, 0, 0]); // Ok, Ok
///
/// // a bad length behind a Reset: the Reset is answered first
/// replies.clear();
/// let error = serve(&[1, 0, 0, 0, 6, 0, 0, 0, 0][..], &mut replies).unwrap_err();
/// assert!(error.get_ref().is_some_and(|e| e.is::<BadLength>()));
/// assert_eq!(replies, [1, 0, 0, 0, 0]);
/// # Ok::<(), io::Error>(())
/// ```
///
/// `Ok(None)` means wait: nothing is wrong, and the next arrival may bring the rest of the frame. There
/// is then room for at least one byte, so the loop always goes on.
///
/// [`BadLength`] means that nothing behind that length can be read. The frames ahead of it have been
/// handed out. Close the connection, or [`start_over`](Frames::start_over) where you know that the next
/// byte begins a frame; until then a push takes nothing.
///
/// After a Session close send its reply and close the connection, as above. A reader knows no session: it
/// hands out the frames behind a Session close too, and a step on them is refused as
/// [`Refusal::Closed`], unless you have begun a new [`Session`](crate::Session).
///
/// A frame borrows the reader, so it lasts until the next push, next_frame or start_over; the compiler sees
/// to that. A step that was refused as [`Refusal::NoRoom`] can be made again while you have it.
///
/// ```compile_fail,E0499
/// let mut frames = karramotx::Frames::new();
/// let frame = frames.next_frame();
/// let _ = frames.push(&[1, 0, 0, 0, 6]);
/// println!("{frame:?}"); // too late
/// ```
///
/// Handing out a frame copies nothing, and a push moves the held bytes at most once. In a loop like the
/// one above the cost is linear in the bytes that arrive.
#[derive(Clone)]
pub struct Frames {
    reader: ffi::Reader,
    store: Box<[u8; ffi::STORE]>,
}

/// A whole frame, which a step never refuses as [`Refusal::NotAllThere`] or [`Refusal::BadLength`].
#[derive(Debug, Clone, Copy, PartialEq, Eq)]
pub struct Frame<'s> {
    /// The type byte, of any type: see [`Kind::from_number`](crate::Kind::from_number).
    pub kind: u8,
    /// The frame itself, its four bytes of length included.
    pub bytes: &'s [u8],
}

impl Deref for Frame<'_> {
    type Target = [u8];

    fn deref(&self) -> &[u8] {
        self.bytes
    }
}

/// A frame's length is 0 or above 65,532: nothing behind it can be read.
#[derive(Debug, Clone, Copy, PartialEq, Eq, Hash)]
pub struct BadLength;

impl fmt::Display for BadLength {
    fn fmt(&self, f: &mut fmt::Formatter<'_>) -> fmt::Result {
        Refusal::BadLength.fmt(f)
    }
}

impl Error for BadLength {}

impl From<BadLength> for Refusal {
    fn from(_: BadLength) -> Refusal {
        Refusal::BadLength
    }
}

impl Frames {
    /// A reader that holds nothing.
    pub fn new() -> Frames {
        let store = vec![0; ffi::STORE].into_boxed_slice();
        Frames { reader: empty(), store: store.try_into().expect("the store has its length") }
    }

    /// Takes an arrival as far as there is room beside the held bytes, and answers how many bytes it
    /// took. Push the others again once frames were handed out. 0 for bytes that are some means that the
    /// store is full or a bad length stands first; [`next_frame`](Frames::next_frame) tells which.
    #[must_use = "bytes that were not taken must be pushed again"]
    pub fn push(&mut self, bytes: &[u8]) -> usize {
        // SAFETY: the pointer and the length are those of a slice, the store has its length and is
        // borrowed uniquely.
        let pushed =
            unsafe { ffi::karramotx_push(self.reader, bytes.as_ptr(), bytes.len(), self.store.as_mut_ptr()) };
        self.reader = pushed.reader;
        pushed.count
    }

    /// Hands out the frame that stands first. `Ok(None)` is to wait for the next arrival.
    pub fn next_frame(&mut self) -> Result<Option<Frame<'_>>, BadLength> {
        // SAFETY: the store has its length and is only read.
        let next = unsafe { ffi::karramotx_next_frame(self.reader, self.store.as_ptr()) };
        self.reader = next.reader;
        match accepted(next.reason) {
            Ok(()) => {
                let bytes = &self.store[next.start..][..next.len];
                Ok(Some(Frame { kind: next.kind as u8, bytes }))
            }
            Err(Refusal::NotAllThere) => Ok(None),
            Err(Refusal::BadLength) => Err(BadLength),
            Err(other) => unreachable!("the library's reader refuses 1 or 2, not {}", other.number()),
        }
    }

    /// Empties the reader: what is pushed next begins a frame.
    pub fn start_over(&mut self) {
        self.reader = empty();
    }

    /// The bytes that were taken and are not handed out. Once a bad length stands first, its four bytes
    /// alone.
    pub fn held(&self) -> &[u8] {
        &self.store[self.reader.start..self.reader.end]
    }
}

fn empty() -> ffi::Reader {
    // SAFETY: it takes nothing.
    unsafe { ffi::karramotx_start_over() }
}

impl Default for Frames {
    fn default() -> Frames {
        Frames::new()
    }
}

/// The held bytes by their count: they may be many.
impl fmt::Debug for Frames {
    fn fmt(&self, f: &mut fmt::Formatter<'_>) -> fmt::Result {
        f.debug_struct("Frames").field("held", &self.held().len()).finish()
    }
}
