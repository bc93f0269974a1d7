//! Cases over the largest books of version 2, with any repeat counts; each needs a stream of its own (document 02,
//! S-8).

use crate::book::{MOST_ITEMS, MOST_MACROS};
use crate::case::Case;
use crate::depth::{Keys, DEPTH_WORDS};
use crate::letters::Letters;
use crate::make_deep::full;
use crate::make_large::{busy_upper, BUSY};
use crate::make_repeats_book::{with_counts, Hand};
use crate::make_repeats_damage::damage;
use crate::operations::COUNT_WORDS;
use crate::question::Question;
use crate::repeats::write;
use crate::rng::Rng;

/// 1,024 macros of 64 items: mostly keys, and mostly calls.
pub fn books(rng: &mut Rng) -> Vec<Vec<u8>> {
    let mut book = |percent: usize, hand: Hand| {
        let macros = full(rng, MOST_MACROS, MOST_ITEMS, percent);
        let book = write(&with_counts(rng, &macros, hand));
        assert_eq!(book.len(), 264_199);
        book
    };
    vec![book(2, Hand::Rare), book(30, Hand::Heavy), book(80, Hand::Top)]
}

pub fn cases(seed: u64) -> Vec<Case> {
    let rng = &mut Rng::new(seed ^ 0x1A9);
    let number = MOST_MACROS - 1;
    let keys = Keys { opening: b'a', closing: b'b' };
    let mut cases = Vec::new();
    for book in books(rng) {
        let busy = Question::new(Letters::Apart, BUSY);
        let upper = Question::new(Letters::Alike, &busy_upper());
        cases.push(Case::Count { number, words: COUNT_WORDS, question: busy, book: book.clone() });
        cases.push(Case::Count { number: 500, words: COUNT_WORDS, question: upper, book: book.clone() });
        cases.push(Case::Reach { number, entries: MOST_MACROS, book: book.clone() });
        cases.push(Case::Depth { number, words: DEPTH_WORDS, keys, book: book.clone() });
        cases.push(Case::Body { number: 700, book: book.clone() });
        let mut damaged = book;
        damage(rng, &mut damaged);
        cases.push(Case::Sound { book: damaged });
    }
    cases
}
