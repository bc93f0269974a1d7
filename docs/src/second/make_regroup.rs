//! Seeded regroupings of sound books, and such as break one condition (document 02, S-7).

use crate::book::{MOST_ITEMS, MOST_MACROS};
use crate::case::Case;
use crate::fixed::Fixed;
use crate::line_ends::{CR, LF};
use crate::make::macros_for;
use crate::make_book::{call, some_keys, write, Macros};
use crate::make_deep::{chain, full};
use crate::make_question::{question, some_letters, sound_question};
use crate::make_repeats_book::for_question;
use crate::question::Question;
use crate::regroup::{lowest, regrouped, Cut, Entry, Regrouping};
use crate::rng::Rng;

pub fn regroupings(seed: u64, count: u64) -> impl Iterator<Item = Regrouping> {
    (0..count).map(move |number| regrouping(&mut Rng::for_case(seed ^ 0x2E62, number)))
}

/// So many of version 2 books.
pub fn repeated_ones(seed: u64, count: u64) -> impl Iterator<Item = Regrouping<(u16, u16)>> {
    (0..count).map(move |number| repeated(&mut Rng::for_case(seed ^ 0x2E64, number)))
}

/// So many that break one condition, each with its refusal.
pub fn refused_ones(seed: u64, count: u64) -> impl Iterator<Item = Fixed> {
    (0..count).map(move |number| refused(&mut Rng::for_case(seed ^ 0x2E63, number)))
}

pub fn regrouping(rng: &mut Rng) -> Regrouping {
    let letters = some_letters(rng);
    let (question, _) = sound_question(rng, letters);
    let mut macros = book(rng, &question);
    macros.truncate(MOST_MACROS - 1);
    let cut = cut(rng, &macros);
    let more_words = rng.pick(&[0, 0, 1, 40, 40_000]);
    Regrouping { why: String::from("seeded"), macros, cut, question, more_words, stated: None }
}

fn repeated(rng: &mut Rng) -> Regrouping<(u16, u16)> {
    let letters = some_letters(rng);
    let (question, _) = sound_question(rng, letters);
    let mut macros = for_question(rng, &question);
    macros.truncate(MOST_MACROS - 1);
    let cut = cut(rng, &macros);
    let more_words = rng.pick(&[0, 0, 1, 40, 40_000]);
    Regrouping { why: String::from("seeded, version 2"), macros, cut, question, more_words, stated: None }
}

/// Those of counts, some with a longer macro or with as many as fit.
fn book(rng: &mut Rng, question: &Question) -> Macros {
    match rng.below(100) {
        0 => full(rng, MOST_MACROS - 1, 4, 8),
        1..=2 => chain(rng, MOST_MACROS - 1),
        3..=32 => {
            let mut macros = macros_for(rng, question);
            let length = rng.pick(&[MOST_ITEMS, MOST_ITEMS, 20, 9]);
            lengthen(rng, question, &mut macros, length);
            macros
        }
        _ => macros_for(rng, question),
    }
}

/// One more macro of so many items: keys, and calls of low macros, so that its run stays short if theirs are.
fn lengthen(rng: &mut Rng, question: &Question, macros: &mut Macros, length: usize) {
    let mut items = Vec::new();
    while items.len() < length {
        match rng.below(4) {
            0 => items.push(call(rng.below(macros.len().min(6)))),
            _ => items.extend(some_keys(rng, question)),
        }
    }
    items.truncate(length);
    macros.push(items);
}

/// Where Y begins and ends, and where it goes; any macro, mostly the last or one with some items.
fn cut<E: Entry>(rng: &mut Rng, macros: &[Vec<E>]) -> Cut {
    let mut number = if rng.chance(60) { macros.len() - 1 } else { rng.below(macros.len()) };
    for _ in 0..3 {
        if macros[number].len() < 2 {
            number = rng.below(macros.len());
        }
    }
    let (from, to) = middle(rng, &macros[number]);
    let low = lowest(macros, number, from, to);
    let into = match rng.below(5) {
        0..=1 => low,
        2 => number,
        _ => rng.between(low, number),
    };
    Cut { number, from, to, into }
}

/// At least one item: all of them, one, some, or from a place where a CR or an LF stands.
fn middle<E: Entry>(rng: &mut Rng, items: &[E]) -> (usize, usize) {
    let length = items.len();
    let (one, other) = (rng.below(length), rng.below(length));
    let ends: Vec<usize> =
        (0..length).filter(|&place| [CR, LF].map(u16::from).contains(&items[place].item())).collect();
    match rng.below(10) {
        0 => (0, length),
        1..=2 => (one, one + 1),
        3..=5 if !ends.is_empty() => {
            let place = rng.pick(&ends);
            let at_end = (one.min(place), place + 1);
            let at_front = (place, one.max(place) + 1);
            rng.pick(&[at_end, at_front])
        }
        _ => (one.min(other), one.max(other) + 1),
    }
}

/// Too many macros, no items, or a number that is not above a macro that Y calls.
fn refused(rng: &mut Rng) -> Fixed {
    let question = question(rng, 100);
    let mut macros = macros_for(rng, &question);
    if rng.chance(20) {
        // Whatever else is wrong, the macros are counted first.
        macros.resize(MOST_MACROS, some_keys(rng, &question));
        let mut cut = cut(rng, &macros);
        if rng.chance(50) {
            cut.to = cut.from;
        }
        return stated(&macros, &cut, "refused 3");
    }
    let mut cut = cut(rng, &macros);
    let low = lowest(&macros, cut.number, cut.from, cut.to);
    if low == 0 || rng.chance(35) {
        cut.to = cut.from;
        return stated(&macros, &cut, "refused 4");
    }
    cut.into = if rng.chance(50) { low - 1 } else { rng.below(low) };
    stated(&macros, &cut, "refused 6")
}

pub fn stated(macros: &[Vec<u16>], cut: &Cut, stated: &str) -> Fixed {
    Fixed::new(Case::Sound { book: write(&regrouped(macros, cut)) }, stated)
}
