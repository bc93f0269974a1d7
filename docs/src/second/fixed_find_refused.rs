//! Fixed refusals of a line that is sought (document 02, S-3), in their order: 1 to 6 and 20 for the book, 7 to 9, 10, 11,
//! 15, 16, 17. Up to 11 the work words stay as they were, and the buffer always does.

use crate::answer::work_words;
use crate::case::Case;
use crate::fixed::Fixed;
use crate::fixed_find::{book, refused};
use crate::fixed_repeats_refused::numbers;
use crate::hash::hash;
use crate::letters::{Letters, BOTH};
use crate::question::Question;
use crate::refusal::*;

pub fn refusals() -> Vec<Fixed> {
    [books(), patterns_and_numbers(), orders()].concat()
}

/// Nothing lent is changed.
fn unchanged(case: Case, refusal: Refusal) -> Fixed {
    let stated = match &case {
        Case::Find { words, buffer, .. } => {
            format!("{} work {}", refused(refusal, *buffer), hash(work_words(*words).into_iter()))
        }
        _ => String::new(),
    };
    Fixed::new(case, &stated)
}

/// Each with the refusal of its first fault.
fn damaged() -> Vec<(Vec<u8>, Refusal)> {
    vec![
        (Vec::new(), NO_BOOK),
        (b"MBK\x01\0\x01".to_vec(), NO_BOOK),
        (b"MBL\x01\0\x01\0\x01\0a\0".to_vec(), NO_BOOK),
        (numbers(&[0, 1, 1, 97]), STRANGE_VERSION),
        (numbers(&[3, 1, 1, 97, 1]), STRANGE_VERSION),
        (numbers(&[1, 0]), MACRO_COUNT),
        (numbers(&[2, 1_025, 1, 97, 1]), MACRO_COUNT),
        (numbers(&[1, 1, 0]), BROKEN_BODY),
        (numbers(&[1, 1, 65, 97]), BROKEN_BODY),
        (numbers(&[1, 1, 2, 97]), BROKEN_BODY),
        (numbers(&[1, 1, 1, 97, 97]), BROKEN_BODY),
        (numbers(&[2, 1, 1, 97]), BROKEN_BODY),
        ([numbers(&[2, 1, 1, 97]), vec![1]].concat(), BROKEN_BODY),
        (numbers(&[1, 1, 2, 97, 0]), DEAD_KEY),
        (numbers(&[2, 1, 1, 0, 0]), DEAD_KEY),
        (numbers(&[1, 1, 1, 256]), FORWARD_CALL),
        (numbers(&[2, 2, 1, 97, 1, 1, 257, 0]), FORWARD_CALL),
        (numbers(&[2, 1, 1, 97, 0]), NO_REPEAT),
        (numbers(&[2, 2, 1, 97, 3, 2, 256, 2, 98, 0]), NO_REPEAT),
    ]
}

/// The book comes first, whatever else is asked.
fn books() -> Vec<Fixed> {
    let patterns: [&[u8]; 4] = [b"a", b"", b"(", &[b'a'; 30]];
    let mut fixed = Vec::new();
    for (place, (book, refusal)) in damaged().into_iter().enumerate() {
        for (turn, (number, words, buffer, k)) in
            [(0, 14, 4, 1), (9, 0, 0, 0), (0, 3, 2, 0), (1, 43_008, 1, u64::MAX)].into_iter().enumerate()
        {
            let letters = BOTH[(place + turn) % 2];
            let question = Question::new(letters, patterns[(place + turn) % 4]);
            let case = Case::Find { number, words, buffer, k, question, book: book.clone() };
            fixed.push(unchanged(case, refusal));
        }
    }
    fixed
}

/// 7 to 11, each also where everything behind it is wrong, too.
fn patterns_and_numbers() -> Vec<Fixed> {
    let long = [b'a'; 129];
    let many = [b'a'; 30];
    let faulty = [&many[..], b"("].concat();
    let table: [(&[u8], usize, usize, Refusal); 22] = [
        (b"", 1, 43_008, PATTERN_LENGTH),
        (b"", 2, 0, PATTERN_LENGTH),
        (&long, 1, 43_008, PATTERN_LENGTH),
        (&long, 9, 0, PATTERN_LENGTH),
        (b"a**", 1, 43_008, BAD_PATTERN),
        (b"a||b", 2, 0, BAD_PATTERN),
        (b"()", 0, 0, BAD_PATTERN),
        (b"[z-a]", 1, 28, BAD_PATTERN),
        (b"a\nb", 1, 28, BAD_PATTERN),
        (b"a\0", 1, 28, BAD_PATTERN),
        (&faulty, 9, 0, BAD_PATTERN),
        (&many, 1, 43_008, TOO_MANY_ATOMS),
        (&many, 2, 0, TOO_MANY_ATOMS),
        (b"a", 2, 43_008, NO_SUCH_MACRO),
        (b"a", 2, 0, NO_SUCH_MACRO),
        (b"a", 65_536, 43_008, NO_SUCH_MACRO),
        (b"a", 65_537, 0, NO_SUCH_MACRO),
        (b"a", 16_777_215, 28, NO_SUCH_MACRO),
        (b"a", 1, 27, SHORT_WORK),
        (b"a", 0, 13, SHORT_WORK),
        (b"^$", 1, 25, SHORT_WORK),
        (&many[..29], 1, 83, SHORT_WORK),
    ];
    table
        .into_iter()
        .flat_map(|(pattern, number, words, refusal)| asked(pattern, number, words, refusal))
        .collect()
}

/// With a k that is there, with 0, and with one in a book of version 2.
fn asked(pattern: &[u8], number: usize, words: usize, refusal: Refusal) -> Vec<Fixed> {
    let ask = |(k, buffer, letters, top): (u64, usize, Letters, &str)| {
        let question = Question::new(letters, pattern);
        let case = Case::Find { number, words, buffer, k, question, book: book(&["a LF", top]) };
        unchanged(case, refusal)
    };
    let [apart, alike] = BOTH;
    [(1, 5, apart, "0 0"), (0, 0, alike, "0 0"), (9, 0, apart, "0*400")].map(ask).to_vec()
}

/// The words that are just enough; and 15, 16, 17, the first of them that holds.
fn orders() -> Vec<Fixed> {
    let many = [b'a'; 29];
    let ends = ["LF", "0*65535 0", "1*65535 1", "2*65535 2", "3*65535 3", "4 a a"];
    let ask = |pattern: &[u8], texts: &[&str], words: usize, buffer: usize, k: u64, refusal: Refusal| {
        let question = Question::new(Letters::Apart, pattern);
        let case = Case::Find { number: texts.len() - 1, words, buffer, k, question, book: book(texts) };
        Fixed::new(case, &refused(refusal, buffer))
    };
    vec![
        ask(b"a", &["a LF", "0 0"], 28, 0, 0, NO_SUCH_LINE),
        ask(b"^$", &["a LF", "0 0"], 26, 0, 1, NO_SUCH_LINE),
        ask(&many, &["a LF", "0 0"], 84, 0, 1, NO_SUCH_LINE),
        ask(b"b", &["a LF", "0 0"], 28, 0, 1, NO_SUCH_LINE),
        ask(b"a", &["a LF", "0 0"], 28, 0, 2, SHORT_BUFFER),
        ask(b"a", &["a LF", "0 0"], 28, 0, 3, NO_SUCH_LINE),
        ask(b"aa", &ends, 90, 0, 0, NO_SUCH_LINE),
        ask(b"aa", &ends, 90, 0, 2, NO_SUCH_LINE),
        ask(b"aa", &ends, 90, 0, 1, LINE_NUMBER),
        ask(b"aa", &ends, 90, 1, 1, LINE_NUMBER),
        ask(b"aa", &ends, 90, 2, 1, LINE_NUMBER),
        ask(b"aa", &ends, 89, 2, 1, SHORT_WORK),
        ask(b"aa", &ends, 89, 2, 0, SHORT_WORK),
    ]
}
