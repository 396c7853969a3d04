//! What happens to frames on the way: cuts, flips, bytes lost and added,
//! lengths and types that are not theirs.

use super::random::Random;
use crate::implementation::LONGEST;

/// Damages a frame in one of many ways.
pub fn damaged(random: &mut Random, mut frame: Vec<u8>) -> Vec<u8> {
    match random.below(9) {
        // The relay cuts frames at odd places.
        0 => frame.truncate(random.below(frame.len())),
        1 => frame.truncate(random.below(6)),
        2 => set_length(&mut frame, random.pick(&[0, LONGEST as u32 + 1, u32::MAX, LONGEST as u32])),
        3 => {
            let length = u32::from_le_bytes([frame[0], frame[1], frame[2], frame[3]]);
            set_length(&mut frame, random.pick(&[length - 1, length + 1, 1]));
        }
        4 => frame[4] = random.pick(&[0, 1, 5, 8, 24, 39, 46, 128, 255, random_type(frame[4])]),
        _ => {
            payload_damage(random, &mut frame);
            let length = frame.len() as u32 - 4;
            set_length(&mut frame, length);
        }
    }
    frame
}

/// The same payload under a neighbouring type.
fn random_type(kind: u8) -> u8 {
    if kind == 45 {
        40
    } else {
        kind + 1
    }
}

fn set_length(frame: &mut [u8], length: u32) {
    frame[..4].copy_from_slice(&length.to_le_bytes());
}

/// Flips, deletes, inserts or doubles a byte behind the type; the caller puts
/// the length right, so that the payload's own rules are met.
fn payload_damage(random: &mut Random, frame: &mut Vec<u8>) {
    for _ in 0..random.range(1, 2) {
        if frame.len() == 5 {
            frame.push(random.word() as u8);
            continue;
        }
        let at = random.range(5, frame.len() - 1);
        match random.below(5) {
            0 => frame[at] ^= 1 << random.below(8),
            1 => frame[at] = random.pick(&[0, 1, 0x7f, 0x80, 0xff]),
            2 => drop(frame.remove(at)),
            3 => frame.insert(at, random.word() as u8),
            _ => frame.truncate(at),
        }
    }
}
