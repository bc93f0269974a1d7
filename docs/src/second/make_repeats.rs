//! Seeded cases about repeat counts, of all kinds (document 02, S-8).

use crate::case::Case;
use crate::depth::Keys;
use crate::make::{entries_near, macro_count, number_near, words_near};
use crate::make_depth;
use crate::make_question::question;
use crate::make_reach;
use crate::make_repeats_book::{at_seams, for_depths, for_question, with_counts, HANDS};
use crate::make_repeats_damage::damage;
use crate::make_returns;
use crate::repeats::{write, Repeats};
use crate::rng::Rng;

pub fn cases(seed: u64, count: u64) -> impl Iterator<Item = Case> {
    (0..count).map(move |number| case(&mut Rng::for_case(seed ^ 0x2E9E, number)))
}

pub fn case(rng: &mut Rng) -> Case {
    match rng.below(100) {
        0..=49 => count_case(rng),
        50..=66 => depth_case(rng),
        67..=78 => reach_case(rng),
        79..=92 => Case::Sound { book: some_book(rng, 70) },
        _ => body_case(rng),
    }
}

fn count_case(rng: &mut Rng) -> Case {
    let mut question = question(rng, 70);
    let macros = if rng.chance(14) {
        question.pattern = make_returns::pattern(rng);
        at_seams(rng, &question)
    } else {
        for_question(rng, &question)
    };
    let number = number_near(rng, macros.len());
    let words = words_near(rng, number, &question);
    let mut book = write(&macros);
    if rng.chance(8) {
        damage(rng, &mut book);
    }
    Case::Count { number, words, question, book }
}

fn depth_case(rng: &mut Rng) -> Case {
    let keys = make_depth::some_pair(rng);
    let macros = for_depths(rng, keys);
    let number = match rng.below(10) {
        0..=1 => rng.below(macros.len()),
        _ => number_near(rng, macros.len()),
    };
    let words = make_depth::words_near(rng, number);
    let mut book = write(&macros);
    if rng.chance(8) {
        damage(rng, &mut book);
    }
    Case::Depth { number, words, keys: make_depth::asked_keys(rng, keys), book }
}

fn reach_case(rng: &mut Rng) -> Case {
    let mut book = write(&for_reach(rng));
    let number = number_near(rng, macro_count(&book).max(1));
    let entries = entries_near(rng, number);
    if rng.chance(8) {
        damage(rng, &mut book);
    }
    Case::Reach { number, entries, book }
}

pub fn for_reach(rng: &mut Rng) -> Repeats {
    let count = match rng.below(20) {
        0 => rng.between(61, 300),
        _ => rng.between(2, 60),
    };
    let macros = make_reach::macros(rng, count);
    let hand = rng.pick(&HANDS);
    with_counts(rng, &macros, hand)
}

/// Of any kind, damaged in so many percent.
pub fn some_book(rng: &mut Rng, percent: usize) -> Vec<u8> {
    let macros = match rng.below(10) {
        0..=5 => {
            let question = question(rng, 100);
            for_question(rng, &question)
        }
        6..=7 => for_depths(rng, Keys { opening: b'(', closing: b')' }),
        _ => for_reach(rng),
    };
    let mut book = write(&macros);
    if rng.chance(percent) {
        damage(rng, &mut book);
    }
    book
}

fn body_case(rng: &mut Rng) -> Case {
    let book = some_book(rng, 20);
    let count = macro_count(&book).max(1);
    let number = if rng.chance(80) { rng.below(count) } else { number_near(rng, count) };
    Case::Body { number, book }
}
