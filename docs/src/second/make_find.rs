//! Seeded cases of a line that is sought (document 02, S-3): books of both versions, small, deep and huge, with k near
//! the edges of what there is, buffers near the line's length, and words near those needed.

use crate::book::{self, Item, MOST_MACROS};
use crate::case::Case;
use crate::find::{find_words, FIND_WORDS, MOST_BUFFER};
use crate::make::{macros_for, number_near};
use crate::make_book::{shallow, write};
use crate::make_damage::damage_book;
use crate::make_large::{largest_books, BUSY};
use crate::make_question::{question, some_letters};
use crate::make_repeats_book::{at_seams, for_question};
use crate::make_repeats_damage::damage;
use crate::make_repeats_large;
use crate::make_returns;
use crate::measures::Measured;
use crate::question::Question;
use crate::refusal::LINE_NUMBER;
use crate::repeats;
use crate::report::words_needed;
use crate::rng::Rng;
use crate::seek::Seeker;
use crate::states::States;

const TOP: u128 = u64::MAX as u128;

pub fn cases(seed: u64, count: u64) -> impl Iterator<Item = Case> {
    (0..count).map(move |number| case(&mut Rng::for_case(seed ^ 0xF12D, number)))
}

/// Patterns that some lines of most books match.
const EASY: [&[u8]; 12] =
    [b".", b"^", b"$", b"a", b"^$", b"[^a]", b"b$", b"^a", b"^.?$", b"a|b", b"^[^b]*$", b"[[:cntrl:]]$"];

pub fn case(rng: &mut Rng) -> Case {
    let mut question = question(rng, 85);
    if rng.chance(12) {
        question.pattern = make_returns::pattern(rng);
    }
    let (mut book, version, count) = some_book(rng, &question);
    let number = if rng.chance(30) { number_near(rng, count) } else { count - 1 };
    if rng.chance(20) || nothing_matches(number, &question, &book) && rng.chance(75) {
        question.pattern = rng.pick(&EASY).to_vec();
    }
    let words = words_near(rng, number, &question);
    let (k, buffer) = near_a_line(rng, number, &question, &book);
    if rng.chance(7) {
        match version {
            1 => damage_book(rng, &mut book),
            _ => damage(rng, &mut book),
        }
    }
    Case::Find { number, words, buffer, k, question, book }
}

/// Its bytes, its version and its macros.
pub fn some_book(rng: &mut Rng, question: &Question) -> (Vec<u8>, u16, usize) {
    if rng.chance(45) {
        let macros = if rng.chance(60) { shallow(rng, question) } else { macros_for(rng, question) };
        return (write(&macros), 1, macros.len());
    }
    let repeats = if rng.chance(30) { at_seams(rng, question) } else { for_question(rng, question) };
    (repeats::write(&repeats), 2, repeats.len())
}

/// Exactly as many words as needed, one fewer, as many as a count needs, more, or none.
pub fn words_near(rng: &mut Rng, number: usize, question: &Question) -> usize {
    let atoms = question.read().map_or(1, |tree| tree.atoms());
    let number = number.min(MOST_MACROS - 1);
    let needed = find_words(number, atoms);
    let words = match rng.below(40) {
        0..=23 => needed,
        24 => needed - 1,
        25 => words_needed(number, atoms),
        26 => rng.below(needed),
        _ => needed + rng.below(20),
    };
    words.min(FIND_WORDS)
}

/// Asks a seeker of the macro's run, where there is such a macro and the pattern is sound.
fn with_seeker<T>(
    number: usize,
    question: &Question,
    bytes: &[u8],
    ask: impl FnOnce(&mut Seeker) -> T,
) -> Option<T> {
    let (book, tree) = (book::read(bytes).ok()?, question.read().ok()?);
    if number >= book.macros.len() {
        return None;
    }
    let (measured, states) = (Measured::of(&book, number), States::of(&tree));
    Some(ask(&mut Seeker::new(&book, &states, &measured, number)))
}

fn nothing_matches(number: usize, question: &Question, bytes: &[u8]) -> bool {
    with_seeker(number, question, bytes, |seeker| seeker.matches()) == Some(0)
}

/// Some k, and a buffer near the length of that line. Without a line any will do.
fn near_a_line(rng: &mut Rng, number: usize, question: &Question, bytes: &[u8]) -> (u64, usize) {
    let any = (rng.below(6) as u64, rng.below(30));
    let passes = passed(rng, number, question, bytes).filter(|_| rng.chance(20));
    let near = |seeker: &mut Seeker| {
        let last = last_number(seeker).filter(|_| rng.chance(50));
        let k = match (passes, last) {
            (Some(passes), _) => (passes + rng.below(3) as u128).saturating_sub(1).min(TOP) as u64,
            (None, Some(last)) => last + rng.below(2) as u64,
            (None, None) => some_k(rng, seeker.matches()),
        };
        let buffer = match seeker.line(k) {
            Ok(line) => buffer_near(rng, line.length.word()),
            Err(_) if rng.chance(40) => 0,
            Err(_) => any.1,
        };
        (k, buffer)
    };
    with_seeker(number, question, bytes, near).unwrap_or(any)
}

/// How many lines match in some passes of an item of the macro.
fn passed(rng: &mut Rng, number: usize, question: &Question, bytes: &[u8]) -> Option<u128> {
    let book = book::read(bytes).ok()?;
    let items: Vec<(Item, u16)> = (number < book.macros.len()).then(|| book.repeated(number).collect())?;
    match rng.pick(&items) {
        (Item::Key(_), repeat) => Some(u128::from(repeat)),
        (Item::Call(called), repeat) => {
            let once = with_seeker(called, question, bytes, |seeker| seeker.matches())?;
            Some(once * rng.pick(&[1, u128::from(repeat), u128::from(repeat) - 1, u128::from(repeat / 2)]))
        }
    }
}

/// The last k whose line has a number that can be told, if the next one's cannot.
fn last_number(seeker: &mut Seeker) -> Option<u64> {
    let (mut low, mut high) = (0, u64::try_from(seeker.matches()).unwrap_or(u64::MAX));
    if seeker.line(high) != Err(LINE_NUMBER) {
        return None;
    }
    while high - low > 1 {
        let middle = low + (high - low) / 2;
        match seeker.line(middle) {
            Ok(_) => low = middle,
            Err(_) => high = middle,
        }
    }
    Some(low)
}

/// One of the first, one of the last, near what repeated items have, near 2^64, or any; seldom one that is not there.
fn some_k(rng: &mut Rng, matches: u128) -> u64 {
    let (low, near) = (rng.below(3) as u128, rng.below(4) as u128);
    let k = match rng.below(20) {
        0..=3 => 1 + low,
        4..=7 => matches.saturating_sub(low),
        8..=9 => TOP - low,
        10..=11 => (1 << (16 * rng.between(1, 4))) + near - 2,
        12 => 65_535u128.pow(rng.between(1, 4) as u32) + near - 1,
        13 => (1 << rng.below(64)) + near - 1,
        _ => 1 + u128::from(rng.next()) % matches.max(1),
    };
    match rng.below(20) {
        0 => 0,
        1 => (matches + 1).min(TOP) as u64,
        2 => k.min(TOP) as u64,
        _ => k.min(matches).min(TOP) as u64,
    }
}

/// Shorter by one, exact, longer; a buffer has a highest length.
fn buffer_near(rng: &mut Rng, length: u64) -> usize {
    let length = length.min(MOST_BUFFER as u64) as usize;
    let buffer = match rng.below(12) {
        0..=1 => length.saturating_sub(1),
        2 => rng.below(length + 1),
        3 => 0,
        4..=6 => length + rng.below(9),
        _ => length,
    };
    buffer.min(MOST_BUFFER)
}

/// Over the largest books of both versions, with the longest buffer; each needs a stream of its own.
pub fn large_cases(seed: u64) -> Vec<Case> {
    let rng = &mut Rng::new(seed ^ 0xF12E);
    let books = [largest_books(rng), make_repeats_large::books(rng)].concat();
    let mut cases = Vec::new();
    for book in books {
        for (number, pattern) in [(MOST_MACROS - 1, BUSY), (700, b"^[ab]*$"), (1_000, b"c|^x")] {
            let question = Question::new(some_letters(rng), pattern);
            let k = near_a_line(rng, number, &question, &book).0;
            let (words, buffer) = (FIND_WORDS, MOST_BUFFER);
            cases.push(Case::Find { number, words, buffer, k, question, book: book.clone() });
        }
    }
    cases
}
