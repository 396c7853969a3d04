//! Padded varints: their forms, and frames in which one stands alone.

use super::encode::{Encoder, Noise};
use super::frames::Intent;
use super::random::Random;

const LONGEST_VARINT: usize = 10;

/// A form that no writer has: `len` bytes, or one more than are needed if that
/// is more, and of ten bytes the last with these bits past the 64 kept.
#[derive(Clone, Copy, Debug)]
pub struct Form {
    pub len: usize,
    pub past: u8,
}

/// One zero byte more, five bytes as one cart has them, nine, and ten bytes
/// that end in 0, in 2 or 3, and in 7E or 7F.
pub const FORMS: [Form; 6] = [
    Form { len: 0, past: 0 },
    Form { len: 5, past: 0 },
    Form { len: 9, past: 0 },
    Form { len: 10, past: 0 },
    Form { len: 10, past: 0x02 },
    Form { len: 10, past: 0x7e },
];

impl Form {
    pub fn any(random: &mut Random) -> Form {
        if random.permille(700) {
            return random.pick(&FORMS);
        }
        Form { len: random.range(2, LONGEST_VARINT), past: random.word() as u8 & 0x7e }
    }
}

/// Which varints are padded.
#[derive(Clone, Copy, Debug)]
pub enum Padding {
    /// Each so many times out of a thousand.
    Often(usize),
    /// The one with this number, counted from 0 in the order of writing.
    Nth(usize, Form),
}

impl Default for Padding {
    fn default() -> Padding {
        Padding::Often(0)
    }
}

/// A padded varint. What needs ten bytes has no longer form, so bits past 64
/// are then never all 0.
pub fn lengthened(value: u64, form: Form) -> Vec<u8> {
    let needed = (64 - value.leading_zeros() as usize).div_ceil(7).max(1);
    let len = form.len.max(needed + 1).min(LONGEST_VARINT);
    let mut out: Vec<u8> = (0..len).map(|group| (value >> (7 * group)) as u8 | 0x80).collect();
    out[len - 1] &= 0x7f;
    if len == LONGEST_VARINT {
        let past = if needed == LONGEST_VARINT { form.past.max(2) } else { form.past };
        out[len - 1] |= past;
    }
    out
}

/// A frame written twice, the second time with one of its varints padded: so
/// that one alone decides what is to be told.
pub fn one_padded(random: &mut Random, noise: Noise, intent: &Intent) -> Vec<u8> {
    let form = Form::any(random);
    let write = |random: &mut Random, nth: usize| {
        let mut encoder = Encoder::new(random, Noise { pad: Padding::Nth(nth, form), ..noise });
        (encoder.frame(intent), encoder.varints)
    };
    let mut same = random.clone();
    let (_, varints) = write(random, usize::MAX);
    write(&mut same, random.below(varints)).0
}
