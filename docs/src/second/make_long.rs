//! Unsound books as long as the longest sound one and longer, with the refusal of each.

use crate::make_book::call;
use crate::refusal::*;

const MILLION: usize = 1_000_000;

/// A book and the number it is refused with.
pub type Refused = (Vec<u8>, Refusal);

/// `sound` is a book of 133,127 bytes: 1,024 macros of 64 items.
pub fn long_books(sound: &[u8]) -> Vec<Refused> {
    let length = sound.len();
    let last_macro = length - 2 * 64;
    vec![
        (filled(sound, length + 1, 0), BROKEN_BODY),
        (filled(sound, length + 2, 1), BROKEN_BODY),
        (filled(sound, MILLION, b'a'), BROKEN_BODY),
        (sound[..length - 1].to_vec(), BROKEN_BODY),
        (with(sound, last_macro, &[0, 0]), DEAD_KEY),
        (with(sound, length - 1, &[255]), FORWARD_CALL),
        (filled(&with(sound, 0, b"MBL"), MILLION, 0), NO_BOOK),
    ]
}

/// Faults met before the bytes left over, and long files refused by their first bytes.
pub fn more_long_books(sound: &[u8]) -> Vec<Refused> {
    let length = sound.len();
    let last_count = length - 2 * 64 - 2;
    let last_item = length - 2;
    let own = call(1023).to_le_bytes();
    let one_item_more = filled(&with(sound, last_count, &[65, 0]), length + 2, 1);
    let one_macro_more = [&with(sound, 5, &[1, 4])[..], &[64, 0], &[b'a', 0].repeat(64)].concat();
    vec![
        (filled(&with(sound, last_item, &[0, 0]), length + 1, 0), DEAD_KEY),
        (filled(&with(sound, last_item, &own), MILLION, 0), FORWARD_CALL),
        (one_item_more, BROKEN_BODY),
        (one_macro_more, MACRO_COUNT),
        (filled(&with(sound, 3, &[3, 0]), MILLION, 0), STRANGE_VERSION),
        (vec![0; 1 << 20], NO_BOOK),
    ]
}

fn filled(book: &[u8], length: usize, byte: u8) -> Vec<u8> {
    let mut longer = book.to_vec();
    longer.resize(length, byte);
    longer
}

fn with(book: &[u8], at: usize, bytes: &[u8]) -> Vec<u8> {
    let mut changed = book.to_vec();
    changed[at..at + bytes.len()].copy_from_slice(bytes);
    changed
}
