//! Embedded messages of each layer cut in two and in three at every byte, and
//! bodies that come more than once.

use super::layers::*;

/// Messages to cut. Each has a group, types that are not listed or not the
/// last, or what is not chosen with bytes that are no field list.
const LAYERS: [(Around, &[&[u8]]); 9] = [
    (
        PREPARE_STMT,
        &[
            &[8, 5, 8, 3, 0x1a, 1, 0xff, 0x32, 3, 10, 1, 83, 0x7b, 8, 1, 0x7c],
            &[0x12, 0, 8, 1, 8, 0, 0x1a, 2, 0xff, 8],
        ],
    ),
    (OPEN_STMT, &[&[8, 0, 0x12, 2, 8, 1, 8, 1, 0x7b, 0x7c]]),
    (
        SCALAR,
        &[
            &[8, 4, 0x2a, 3, 10, 1, 7, 0x4a, 1, 0xff, 0x7b, 0x7c],
            &[8, 3, 8, 8, 0x4a, 2, 10, 0, 0x4a, 2, 16, 1, 8, 9],
            &[16, 2, 16, 3, 8, 2, 8, 1],
        ],
    ),
    (OCTETS, &[&[10, 1, 7, 16, 1, 10, 2, 8, 9]]),
    (STRING, &[&[10, 1, 7, 0x7b, 0x7c, 10, 0]]),
    (BESIDE_NULL, &[&[10, 1, 7]]),
    (STMT_EXECUTE, &[&[10, 1, 83, 0x12, 2, 8, 2, 0x12, 2, 8, 3], &[]]),
    (FIND, &[&[8, 1, 0x7b, 0x7c], &[]]),
    (OPEN_EXECUTE, &[&[8, 1, 0x12, 2, 8, 2, 0x12, 6, 8, 1, 0x12, 2, 8, 3], &[]]),
];

/// Everything in one part, in two and in three.
pub fn every_cut() -> Vec<Vec<u8>> {
    let mut all = Vec::new();
    for (around, messages) in LAYERS {
        for message in messages {
            for second in 0..=message.len() {
                all.extend((0..=second).map(|first| {
                    let parts = [&message[..first], &message[first..second], &message[second..]];
                    around.of(&parts)
                }));
                all.push(around.of(&[&message[..second], &message[second..]]));
            }
            all.extend([around.of(&[message]), around.of(&[message, message])]);
        }
    }
    all.extend(far_apart());
    all
}

/// As many parts of a statement as a frame can hold: with no bytes, with a type
/// in each, and with a body in the first and the last.
fn far_apart() -> Vec<Vec<u8>> {
    const PARTS: usize = 16_000;
    let stmt: &[u8] = &[0x12, 4, 8, 0, 0x12, 0];
    let [none, types] = [&[0x12, 0][..], &[0x12, 2, 8, 1][..]].map(|part| part.repeat(PARTS));
    let execute: &[u8] = &[0x22, 6, 8, 0, 0x12, 2, 8, 1];
    let nothing = [0x22, 0].repeat(PARTS);
    vec![
        prepare([&[8, 1], stmt, &none].concat()),
        prepare([&[8, 1], &types[..], stmt].concat()),
        prepare([&[8, 1], stmt, &none, stmt].concat()),
        open([&[8, 1], execute, &nothing].concat()),
        open([&[8, 1], execute, &nothing, execute].concat()),
    ]
}

#[cfg(test)]
mod tests {
    use super::*;
    use crate::implementation::Implementation;
    use crate::model::{Layer, Model};

    /// Accepted, bad and refused 17 are all among them, and every layer in parts.
    #[test]
    fn all_sides_are_met() {
        let frames = every_cut();
        let reasons: Vec<u8> = frames.iter().map(|frame| Model::reference().read(frame).reason).collect();
        assert!([0, 6, 17].iter().all(|reason| reasons.contains(reason)));
        for (at, layer) in Layer::IN_PARTS.iter().enumerate() {
            let met = |wanted: bool| {
                let judged = frames.iter().zip(&reasons).filter(|(_, reason)| (**reason != 6) == wanted);
                judged.filter(|(frame, _)| Model::reference().layers_in_parts(frame)[at]).count()
            };
            assert!(met(true) > 0 && met(false) > 0, "{layer:?}");
        }
    }
}
