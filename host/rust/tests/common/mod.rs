//! Varints longer than they need be, and whether a frame is padded, asked in every way.

pub mod sessions;

use karramotx::{ffi, ClientMessage, Refusal, Report, Session, MIN_REPLY};
use sessions::{busy, stepped, suited};

/// How many bytes the shortest form of a number has.
pub fn shortest(number: u64) -> usize {
    (64 - number.leading_zeros() as usize).div_ceil(7).max(1)
}

/// A number in so many bytes, seven bits in each.
pub fn in_bytes(number: u64, len: usize) -> Vec<u8> {
    let group = |i: usize| (number >> (7 * i)) as u8;
    (0..len).map(|i| if i + 1 < len { group(i) | 0x80 } else { group(i) & 0x7f }).collect()
}

/// What a look, an inspection and a step say of a frame.
fn said(session: &Session, frame: &[u8]) -> [bool; 3] {
    let look = session.look(frame);
    let step_padded = session.clone().step(frame, suited(&look.work), &mut [0; MIN_REPLY]).padded;
    [look.padded, session.inspect(frame).padded, step_padded]
}

/// What reading the frame by itself says, where it is refused too.
pub fn read_alone(frame: &[u8]) -> ffi::Message {
    // SAFETY: the pointer and the length are those of a slice.
    unsafe { ffi::karramotx_read(frame.as_ptr(), frame.len()) }
}

/// Whether a frame that is good by itself, or by itself refused 17, is padded. All must say the same of it,
/// whether it is accepted or not; a closed session and a step whose reply buffer is too small must say no.
pub fn is_padded(frame: &[u8], alone: Result<(), Refusal>) -> bool {
    let read = read_alone(frame);
    assert_eq!(read.reason, alone.map_or_else(Refusal::number, |()| 0), "{frame:02x?}");
    for mut session in [Session::new(), busy()] {
        assert_eq!(said(&session, frame), [read.padded; 3], "{frame:02x?}");
        let mut reply = [0; MIN_REPLY - 1];
        let short = session.step(frame, Report::None, &mut reply);
        assert_eq!((short.outcome, short.padded), (Err(Refusal::NoRoom), false), "{frame:02x?}");
    }
    let closed = stepped(busy(), ClientMessage::SessionClose);
    assert_eq!(said(&closed, frame), [false; 3], "{frame:02x?}");
    assert_eq!(closed.look(frame).work, Err(Refusal::Closed));
    let told = closed.inspect(frame).message.map(|m| m.is_padded());
    assert_eq!(told, alone.map(|()| read.padded), "{frame:02x?}");
    read.padded
}
