//! A key as it stands among the command's arguments (PROTOCOL.md, "The command").

/// The key; nothing if the word is none.
pub fn key(word: &[u8]) -> Option<u8> {
    match word {
        [key] => Some(*key),
        [_, _] | [_, _, _] if word.iter().all(u8::is_ascii_digit) => {
            let number = word.iter().fold(0, |sum, digit| 10 * sum + u32::from(digit - b'0'));
            u8::try_from(number).ok()
        }
        _ => None,
    }
}

/// The words for a key in turn: one byte, two digits, three digits. A byte 0 cannot stand in an argument, and two
/// digits are not enough for every key.
pub fn word(key: u8, turn: usize) -> Vec<u8> {
    match turn % 3 {
        0 if key != 0 => vec![key],
        1 if key < 100 => format!("{key:02}").into_bytes(),
        _ => format!("{key:03}").into_bytes(),
    }
}
