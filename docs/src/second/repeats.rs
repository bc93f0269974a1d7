//! Books of version 2 before they are written down (document 02, S-8), and the forms of a version 1 book.

use crate::book::{MARK, REPEATING_VERSION};
use crate::make_book::named;

/// The items of each macro, each with its repeat count.
pub type Repeats = Vec<Vec<(u16, u16)>>;

/// The book's bytes.
pub fn write(macros: &[Vec<(u16, u16)>]) -> Vec<u8> {
    let mut bytes = MARK.to_vec();
    let mut put = |number: u16| bytes.extend_from_slice(&number.to_le_bytes());
    put(REPEATING_VERSION);
    put(macros.len() as u16);
    for items in macros {
        put(items.len() as u16);
        for &(item, repeat) in items {
            put(item);
            put(repeat);
        }
    }
    bytes
}

/// The same items, each with the repeat count 1.
pub fn single(macros: &[Vec<u16>]) -> Repeats {
    macros.iter().map(|items| items.iter().map(|&item| (item, 1)).collect()).collect()
}

/// Equal items that stand one behind the other are one item with their number as its repeat count.
pub fn gathered(macros: &[Vec<u16>]) -> Repeats {
    let gather = |items: &Vec<u16>| {
        let same = items.chunk_by(|one, other| one == other);
        same.map(|chunk| (chunk[0], chunk.len() as u16)).collect()
    };
    macros.iter().map(gather).collect()
}

/// The macros that such texts stand for. A word is a key, by a letter or a name, or the number of the macro it
/// calls; behind it `*` and the repeat count, if that is not 1.
pub fn macros(texts: &[&str]) -> Repeats {
    let item = |word: &str| match word.split_once('*') {
        Some((item, repeat)) => (named(item), repeat.parse().unwrap_or(0)),
        None => (named(word), 1),
    };
    texts.iter().map(|text| text.split(' ').map(item).collect()).collect()
}
