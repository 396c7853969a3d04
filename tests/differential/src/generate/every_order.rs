//! A few fields of each layer in every order, some of them again, and cut into
//! parts in every way between them.

use super::layers::{Around, OCTETS, OPEN_STMT, PREPARE_STMT, SCALAR};

/// A field, or the start or the end of a group.
type Token = &'static [u8];

const START: Token = &[0x7b];
const END: Token = &[0x7c];

/// Of these first ones there are orders of four, and of three of all.
const FIRST: usize = 5;

const LAYERS: [(Around, &[Token]); 4] = [
    (
        PREPARE_STMT,
        &[
            &[8, 0],
            &[8, 5],
            &[0x12, 0],
            &[0x32, 3, 10, 1, 83],
            &[0x32, 4, 0x12, 2, 8, 2],
            &[8, 3],
            &[0x1a, 1, 0xff],
            &[0x32, 1, 0xff],
            START,
            END,
        ],
    ),
    (
        OPEN_STMT,
        &[
            &[8, 0],
            &[0x12, 2, 8, 1],
            &[0x12, 4, 0x12, 2, 8, 2],
            &[0x12, 0],
            &[8, 1],
            &[0x12, 3, 8, 1, 0xff],
            START,
            END,
        ],
    ),
    (
        SCALAR,
        &[
            &[8, 1],
            &[8, 4],
            &[16, 2],
            &[0x2a, 3, 10, 1, 7],
            &[0x2a, 2, 16, 1],
            &[8, 9],
            &[0x4a, 1, 0xff],
            &[0x2a, 1, 0xff],
            START,
            END,
        ],
    ),
    (OCTETS, &[&[10, 1, 7], &[10, 0], &[16, 1], START, END, &[10, 2]]),
];

pub fn every_order() -> Vec<Vec<u8>> {
    let mut all = Vec::new();
    for (around, tokens) in LAYERS {
        (1..=3).for_each(|len| orders(&around, tokens, len, &mut all));
        orders(&around, &tokens[..FIRST], 4, &mut all);
    }
    all
}

/// All orders of so many tokens, each cut in all ways.
fn orders(around: &Around, tokens: &[Token], len: usize, all: &mut Vec<Vec<u8>>) {
    let count = tokens.len();
    for order in 0..count.pow(len as u32) {
        let chosen: Vec<Token> = (0..len).map(|at| tokens[order / count.pow(at as u32) % count]).collect();
        all.extend((0..1 << (len - 1)).map(|cuts| around.of(&cut(&chosen, cuts))));
    }
}

/// Cut behind each token whose bit is set.
fn cut(tokens: &[Token], cuts: usize) -> Vec<Vec<u8>> {
    let mut parts = vec![Vec::new()];
    for (at, token) in tokens.iter().enumerate() {
        if let Some(part) = parts.last_mut() {
            part.extend(*token);
        }
        if cuts >> at & 1 == 1 {
            parts.push(Vec::new());
        }
    }
    parts
}

#[cfg(test)]
mod tests {
    use super::*;
    use crate::implementation::*;
    use crate::model::Model;

    #[test]
    fn all_sides_are_met() {
        let frames = every_order();
        for kind in [PREPARE, CURSOR_OPEN, EXECUTE] {
            let of_kind = frames.iter().filter(|frame| frame[4] == kind);
            let reasons: Vec<u8> = of_kind.map(|frame| Model::reference().read(frame).reason).collect();
            let met = |reason: u8| reasons.iter().filter(|r| **r == reason).count();
            assert!(met(0) > 100 && met(6) > 100, "{kind}: {} and {}", met(0), met(6));
            assert_eq!(met(17) > 100, kind != EXECUTE, "{kind}: {}", met(17));
        }
    }
}
