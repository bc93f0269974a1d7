//! Fixed cases of the largest books of version 2: 1,024 macros of 64 items, 264,199 bytes (document 02, S-8). Two of
//! them are longer than a stream may be, so each goes in a run of its own.

use crate::book::{MOST_ITEMS, MOST_MACROS};
use crate::case::Case;
use crate::depth::Keys;
use crate::fixed::Fixed;
use crate::fixed_depth;
use crate::fixed_reach;
use crate::fixed_repeats::told;
use crate::hash::hash;
use crate::letters::Letters;
use crate::make_book::call;
use crate::operations::COUNT_WORDS;
use crate::question::Question;
use crate::repeats::{write, Repeats};

/// What one macro has of the one below.
const PASSES: i128 = 64 * 65_535;
const LAST: usize = MOST_MACROS - 1;
const A: u16 = b'a' as u16;

/// Macro i has macro i - 1 65,535 times, 64 times over.
fn over(first: Vec<(u16, u16)>) -> Repeats {
    let mut macros = vec![first];
    macros.extend((0..LAST).map(|below| vec![(call(below), 65_535); MOST_ITEMS]));
    macros
}

/// Over 32 lines `a`.
pub fn of_lines() -> Vec<u8> {
    let book = write(&over([(A, 1), (10, 1)].repeat(32)));
    assert_eq!(book.len(), 264_199);
    book
}

/// Over 64 times 65,535 keys `a`.
pub fn of_keys() -> Vec<u8> {
    write(&over(vec![(A, 65_535); MOST_ITEMS]))
}

pub fn largest() -> Vec<Fixed> {
    [sound_ones(), counts(), others()].concat()
}

/// Whole, and with one fault at the end, which is met last.
fn sound_ones() -> Vec<Fixed> {
    let whole = of_lines();
    let is = |book: Vec<u8>, stated: &str| Fixed::new(Case::Sound { book }, stated);
    let with_last = |item: u16, repeat: u16| {
        let mut book = whole.clone();
        let at = book.len() - 4;
        book[at..at + 2].copy_from_slice(&item.to_le_bytes());
        book[at + 2..].copy_from_slice(&repeat.to_le_bytes());
        book
    };
    let mut as_plain = whole.clone();
    as_plain[3] = 1;
    vec![
        is(whole.clone(), "sound 1024"),
        is(of_keys(), "sound 1024"),
        is(with_last(A, 0), "refused 20"),
        is(with_last(0, 0), "refused 5"),
        is(with_last(call(LAST), 0), "refused 6"),
        is(whole[..whole.len() - 1].to_vec(), "refused 4"),
        is([&whole[..], &[0]].concat(), "refused 4"),
        // The repeat counts of its first items are keys, and what should be the second item count is `a`, 97.
        is(as_plain, "refused 4"),
    ]
}

fn counts() -> Vec<Fixed> {
    let of = |book: Vec<u8>, letters: Letters, pattern: &[u8], number: usize, stated: &str| {
        let question = Question::new(letters, pattern);
        Fixed::new(Case::Count { number, words: COUNT_WORDS, question, book }, stated)
    };
    let lines = |passes: u32| told(32 * (PASSES as u64).pow(passes));
    vec![
        of(of_lines(), Letters::Apart, b"a", LAST, "refused 12"),
        of(of_lines(), Letters::Apart, b"b", LAST, &told(0)),
        of(of_lines(), Letters::Apart, b"a", 2, &lines(2)),
        of(of_lines(), Letters::Alike, b"^A$", 1, &lines(1)),
        of(of_lines(), Letters::Apart, b"a", 3, "refused 12"),
        of(of_lines(), Letters::Apart, b"a", LAST + 1, "refused 10"),
        of(of_keys(), Letters::Apart, b"a", LAST, &told(1)),
        of(of_keys(), Letters::Apart, b"^(aa)*$", LAST, &told(1)),
        of(of_keys(), Letters::Alike, b"^(AAAAAAA)*$", LAST, &told(0)),
    ]
}

/// The reach list falls from the last macro to the first; from macro 3 on the runs are longer than 2^62.
fn others() -> Vec<Fixed> {
    let falling: Vec<String> = (0..MOST_MACROS).rev().map(|number| number.to_string()).collect();
    let body = hash([254, 4, 255, 255].repeat(MOST_ITEMS).into_iter());
    let keys = Keys { opening: b'a', closing: b'b' };
    let row = |level: u32| Some((64 * PASSES.pow(level), 32 * PASSES.pow(level), 0));
    let mut rows = vec![None; MOST_MACROS];
    for level in 0..3 {
        rows[level as usize] = row(level);
    }
    let depth = |number: usize, words: usize| {
        fixed_depth::asked(number, words, keys, of_lines(), &fixed_depth::stated(&rows[..=number], words))
    };
    vec![
        fixed_reach::asked(
            LAST,
            MOST_MACROS,
            of_lines(),
            &fixed_reach::stated(&falling.join(" "), MOST_MACROS),
        ),
        fixed_reach::asked(LAST, LAST, of_lines(), &fixed_reach::refused(11, LAST)),
        Fixed::new(Case::Body { number: LAST, book: of_lines() }, &format!("body 256 {body}")),
        depth(LAST, 3 * MOST_MACROS),
        depth(2, 9),
        depth(3, 4_096),
    ]
}
