//! The largest and the deepest sound books, and cases over them.

use crate::case::Case;
use crate::depth::{Keys, DEPTH_WORDS};
use crate::letters::Letters;
use crate::make_book::{write, Macros};
use crate::make_damage::damage_book;
use crate::make_deep::{chain, full};
use crate::make_letters::mix_book;
use crate::make_reach::full_books;
use crate::operations::COUNT_WORDS;
use crate::question::Question;
use crate::rng::Rng;

/// 29 atoms that stay busy over the letters of full books.
pub const BUSY: &[u8] = b"(a|b)*(a.b|b.a)+c?(aab|bba|[^c])*x?(a|b|c)(ac|ca|bc|cb).$";

/// The same in letters of the other case, for questions with case ignored.
pub fn busy_upper() -> Vec<u8> {
    BUSY.to_ascii_uppercase()
}

/// 1,024 macros of 64 items, with few calls so that the count can be told.
pub fn longest_book(rng: &mut Rng) -> Vec<u8> {
    let longest = write(&full(rng, 1024, 64, 1));
    assert_eq!(longest.len(), 133_127);
    longest
}

/// The longest, another with so many calls that the count cannot be told, and 1,024 macros that each call
/// the one below.
pub fn largest_books(rng: &mut Rng) -> Vec<Vec<u8>> {
    largest(rng).iter().map(|macros| write(macros)).collect()
}

/// Books as large, with letters of both cases.
pub fn mixed_books(rng: &mut Rng) -> Vec<Vec<u8>> {
    let mut books = largest(rng);
    for macros in books.iter_mut() {
        mix_book(rng, macros);
    }
    books.iter().map(|macros| write(macros)).collect()
}

fn largest(rng: &mut Rng) -> Vec<Macros> {
    vec![full(rng, 1024, 64, 1), full(rng, 1024, 64, 12), chain(rng, 1024)]
}

/// One of them with faults somewhere.
pub fn damaged_large(rng: &mut Rng) -> Vec<u8> {
    let mut books = largest_books(rng);
    let mut book = books.swap_remove(rng.below(books.len()));
    damage_book(rng, &mut book);
    book
}

pub fn large_cases(seed: u64) -> Vec<Case> {
    let mut cases = Vec::new();
    for book in largest_books(&mut Rng::new(seed ^ 0x1A6)) {
        let question = Question::new(Letters::Apart, BUSY);
        cases.push(count(1023, COUNT_WORDS, &question, &book));
        cases.push(count(1023, COUNT_WORDS - 1, &question, &book));
        cases.push(count(600, COUNT_WORDS, &question, &book));
        cases.push(Case::Reach { number: 1023, entries: 1024, book: book.clone() });
        cases.push(Case::Reach { number: 1023, entries: 1023, book: book.clone() });
        cases.push(Case::Reach { number: 700, entries: 1100, book: book.clone() });
        for (number, words) in [(1023, DEPTH_WORDS), (1023, DEPTH_WORDS - 1), (600, 4_096)] {
            let keys = Keys { opening: b'a', closing: b'b' };
            cases.push(Case::Depth { number, words, keys, book: book.clone() });
        }
        cases.push(Case::Body { number: 1023, book: book.clone() });
        cases.push(Case::Body { number: 1024, book: book.clone() });
        cases.push(Case::Sound { book });
    }
    for book in mixed_books(&mut Rng::new(seed ^ 0x1A7)) {
        let question = Question::new(Letters::Alike, &busy_upper());
        cases.push(count(1023, COUNT_WORDS, &question, &book));
        cases.push(count(1023, COUNT_WORDS - 1, &question, &book));
    }
    for book in full_books(&mut Rng::new(seed ^ 0x1A8)) {
        for (number, entries) in [(1023, 1024), (1023, 1023), (800, 801)] {
            cases.push(Case::Reach { number, entries, book: book.clone() });
        }
    }
    cases
}

fn count(number: usize, words: usize, question: &Question, book: &[u8]) -> Case {
    Case::Count { number, words, question: question.clone(), book: book.to_vec() }
}
