//! The depths of a macro's run (document 02, S-6) with the refusals in their order: 18 before the book is read,
//! then the book's own, 10, 11 and 19.

use crate::book::{self, MOST_MACROS};
use crate::depth_figures::{figures, Figures};
use crate::operations::sound;
use crate::refusal::*;

/// Run length, end depth, lowest depth.
pub const WORDS_A_MACRO: usize = 3;
/// Enough for every book.
pub const DEPTH_WORDS: usize = WORDS_A_MACRO * MOST_MACROS;
/// What stands in the words of a macro whose run is too long.
const TOO_LONG: [u64; WORDS_A_MACRO] = [u64::MAX, 0, 0];

#[derive(Clone, Copy, Debug, PartialEq, Eq)]
pub struct Keys {
    pub opening: u8,
    pub closing: u8,
}

impl Keys {
    /// "The two keys are equal, or one is 0 or 10."
    pub fn check(self) -> Result<(), Refusal> {
        let bad = |key| key == 0 || key == 10;
        if self.opening == self.closing || bad(self.opening) || bad(self.closing) {
            return Err(BAD_KEYS);
        }
        Ok(())
    }
}

/// End and lowest depth; the first work words hold the figures of macros 0 to m afterwards, also after
/// refusal 19.
pub fn book_depths(
    number: usize,
    keys: Keys,
    bytes: &[u8],
    work: &mut [u64],
) -> Result<(i128, i128), Refusal> {
    keys.check()?;
    let book = book::read(bytes)?;
    if number >= book.macros.len() {
        return Err(NO_SUCH_MACRO);
    }
    if work.len() < WORDS_A_MACRO * (number + 1) {
        return Err(SHORT_WORK);
    }
    let all = figures(&book, keys, number);
    for (place, word) in work.iter_mut().zip(all.iter().flat_map(words)) {
        *place = word;
    }
    all[number].map(|own| (own.end, own.lowest)).ok_or(LONG_RUN)
}

/// The same for the command, of the last macro if none is asked for; there are always words enough. The keys are
/// looked at before the book, also where the book must tell its last macro.
pub fn asked_depths(asked: Option<usize>, keys: Keys, bytes: &[u8]) -> Result<(i128, i128), Refusal> {
    keys.check()?;
    let number = match asked {
        Some(number) => number,
        None => sound(bytes)? - 1,
    };
    book_depths(number, keys, bytes, &mut vec![0; DEPTH_WORDS])
}

pub fn words(figures: &Option<Figures>) -> [u64; WORDS_A_MACRO] {
    match figures {
        Some(own) => [own.length, own.end, own.lowest].map(word),
        None => TOO_LONG,
    }
}

/// Two's complement: the number from 0 to 2^64 - 1 that differs from this one by a multiple of 2^64.
fn word(number: i128) -> u64 {
    number.rem_euclid(1 << 64) as u64
}

pub fn depth_line(result: Result<(i128, i128), Refusal>) -> String {
    match result {
        Ok((end, lowest)) => format!("end {end} lowest {lowest}"),
        Err(refusal) => format!("refused {refusal}"),
    }
}
