//! Samples as text.

/// Bytes in hex. `(` and `)` stand around bytes whose length goes in front of them. `!` puts the number below
/// 128 behind it, which may be such a length, into five bytes.
pub fn bytes(text: &str) -> Vec<u8> {
    let spaced: String =
        text.chars().flat_map(|c| if "()!".contains(c) { vec![' ', c, ' '] } else { vec![c] }).collect();
    let mut words = spaced.split_whitespace();
    let all = bytes_to_end(&mut words);
    assert_eq!(words.next(), None, "{text}: a bracket too many");
    all
}

/// Up to a closing bracket or the end.
fn bytes_to_end(words: &mut std::str::SplitWhitespace) -> Vec<u8> {
    let mut all = Vec::new();
    let mut long = false;
    while let Some(word) = words.next() {
        let (number, inside) = match word {
            "!" => {
                long = true;
                continue;
            }
            ")" => break,
            "(" => {
                let inside = bytes_to_end(words);
                assert!(inside.len() < 0x80, "a length has one byte");
                (inside.len() as u8, inside)
            }
            hex => (u8::from_str_radix(hex, 16).expect("a byte in hex"), Vec::new()),
        };
        assert!(!long || number < 0x80, "a number to pad has one byte");
        all.extend(if long { vec![number | 0x80, 0x80, 0x80, 0x80, 0] } else { vec![number] });
        all.extend(inside);
        long = false;
    }
    all
}

pub fn frame(kind: u8, text: &str) -> Vec<u8> {
    let payload = bytes(text);
    let length = u32::try_from(payload.len() + 1).expect("a sample is short");
    [&length.to_le_bytes(), &[kind][..], &payload].concat()
}
