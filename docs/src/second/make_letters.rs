//! Letters of the other case, put into seeded lines and books.

use crate::letters::Letters;
use crate::make_book::Macros;
use crate::rng::Rng;

/// The same letter in its other case; nothing if the key is no letter.
pub fn other_case(key: u8) -> Option<u8> {
    match key {
        b'A'..=b'Z' => Some(key + 32),
        b'a'..=b'z' => Some(key - 32),
        _ => None,
    }
}

/// Gives about half of the letters their other case.
pub fn mix(rng: &mut Rng, keys: &mut [u8]) {
    for key in keys {
        if rng.chance(50) {
            *key = other_case(*key).unwrap_or(*key);
        }
    }
}

/// The same for the keys of a book.
pub fn mix_book(rng: &mut Rng, macros: &mut Macros) {
    for item in macros.iter_mut().flatten() {
        if let Ok(key) = u8::try_from(*item) {
            let mut keys = [key];
            mix(rng, &mut keys);
            *item = u16::from(keys[0]);
        }
    }
}

/// Mixes a line and moves one key by 32, letter or not: often with case ignored, otherwise seldom.
pub fn change_case(rng: &mut Rng, letters: Letters, line: &mut [u8]) {
    let percent = match letters {
        Letters::Apart => 6,
        Letters::Alike => 60,
    };
    if rng.chance(percent) {
        mix(rng, line);
    }
    if !line.is_empty() && rng.chance(percent / 4) {
        let place = rng.below(line.len());
        line[place] ^= 32;
    }
}
