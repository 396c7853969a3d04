//! What is promised of a frame that is refused by itself: by its length, its
//! type or its payload, or for a body that comes more than once.

use super::promises::Stepped;
use crate::implementation::*;

const TWICE: u8 = 17;
/// Indexes of arguments to ask for.
const ASKED: [u64; 4] = [0, 1, 40, u64::MAX];

/// It holds nothing, its body is empty, its arguments are refused alike, and
/// neither a look nor a step says anything but its reason, 4 or 3.
pub fn holds_nothing<I: Implementation>(
    who: &I,
    frame: &[u8],
    message: &Message,
    stepped: &Stepped,
) -> Result<(), String> {
    let says = |good: bool, what: &str| good.then_some(()).ok_or_else(|| format!("{what}: {message:?}"));
    let reason = message.reason;
    let (look, answer) = (stepped.look.reason, stepped.answer.reason);
    if reason == 0 {
        let refused = |told: u8| matches!(told, 1 | 2 | 5 | 6 | TWICE);
        return says(!refused(look) && !refused(answer), "refused for what it holds, though a read is not");
    }
    let rest = Message { padded: message.padded, ..Message::refused(reason, message.used) };
    says(*message == rest, "a refused message holds something")?;
    says(who.body(frame).is_empty(), "a refused frame has a body")?;
    says(ASKED.iter().all(|at| who.argument(frame, *at) == Err(reason)), "an argument is refused otherwise")?;
    says(who.pass(frame) == [Err(reason)], "arguments in one pass are refused otherwise")?;
    says(stepped.inspection.touched == Touched::default(), "a refused frame touches something")?;
    says([reason, 4].contains(&look), "a look gives another reason")?;
    says([reason, 3, 4].contains(&answer), "a step gives another reason")?;
    if reason == TWICE {
        says([PREPARE, CURSOR_OPEN].contains(&frame[4]), "a message without bodies has two")?;
        says(message.used == HEAD + length(frame), "not all of the frame is used")?;
        let error = &stepped.buffer[..stepped.answer.reply];
        says(answer != TWICE || *error == refused_17(), "the Error frame is another")?;
    }
    Ok(())
}

fn length(frame: &[u8]) -> usize {
    frame.first_chunk::<4>().map_or(0, |head| u32::from_le_bytes(*head) as usize)
}

/// Severity 0, code 6017, the text, and the state, as document 01 lays them out.
fn refused_17() -> Vec<u8> {
    let head: &[u8] = &[28, 0, 0, 0, 1, 8, 0, 0x10, 0x81, 0x2f, 0x1a, 13];
    [head, b"Refused (17).", &[0x22, 5], b"HY000"].concat()
}
