//! What is promised of the flag that tells of padded numbers.

use crate::implementation::*;

/// A frame refused 1 to 6 says no, any other what was read. So a look and a
/// step say the same, unless the step is refused 3.
pub fn flags_agree(
    message: &Message,
    look: &Look,
    inspection: &Inspection,
    answer: &Answer,
) -> Result<(), String> {
    let says = |good: bool, what: &str| {
        let print = || format!("{what}: {message:?} {look:?} {inspection:?} {answer:?}");
        good.then_some(()).ok_or_else(print)
    };
    let refused = |reason: u8| (1..=6).contains(&reason);
    says(!(refused(message.reason) && message.padded), "a message refused by itself says padded")?;
    says(!(refused(look.reason) && look.padded), "a look refused 1 to 6 says padded")?;
    says(!(refused(answer.reason) && answer.padded), "a step refused 1 to 6 says padded")?;
    says(refused(look.reason) || look.padded == message.padded, "a look says what was not read")?;
    says(answer.reason == 3 || answer.padded == look.padded, "look and step differ in padded")?;
    says(inspection.look == *look, "the look of an inspection is another one")?;
    says(inspection.padded == message.padded, "the message of an inspection says otherwise")
}
