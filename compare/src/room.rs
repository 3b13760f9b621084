//! The proved library with too little room for its text, with just enough, and with more.

const UNTOUCHED: u8 = 0xA5;

/// With any room up to two bytes more than the text takes.
pub fn every(input: &[u8], expected: &[u8]) -> Result<(), String> {
    (0..=expected.len() + 2).try_for_each(|room| check(input, expected, room))
}

/// With a byte too few and with just enough.
pub fn edge(input: &[u8], expected: &[u8]) -> Result<(), String> {
    (expected.len() - 1..=expected.len()).try_for_each(|room| check(input, expected, room))
}

/// The answer must be the length of the whole text. Where there is room for it, it must stand at the front, and nothing behind it may be touched;
/// where there is none, nothing at all.
fn check(input: &[u8], expected: &[u8], room: usize) -> Result<(), String> {
    let mut out = vec![UNTOUCHED; room + expected.len()];
    let length = proved::call(input, &mut out[..room]);
    let written = if room < expected.len() {
        0
    } else {
        expected.len()
    };
    let right = length == expected.len()
        && out[..written] == expected[..written]
        && out[written..].iter().all(|byte| *byte == UNTOUCHED);
    if !right {
        return Err(format!("with room for {room} bytes the library is wrong"));
    }
    Ok(())
}
