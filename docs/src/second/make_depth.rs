//! Seeded cases about depths (document 02, S-6): books in which the two keys stand often, small and large.

use crate::book::{MOST_ITEMS, MOST_MACROS};
use crate::case::Case;
use crate::depth::{Keys, WORDS_A_MACRO};
use crate::make::{number_near, some_book};
use crate::make_book::{call, write, Macros};
use crate::make_damage::damage_book;
use crate::make_depth_long;
use crate::rng::Rng;

/// So many words a case has at most.
const MOST_WORDS: usize = 4_096;
const PAIRS: [(u8, u8); 9] = [
    (b'(', b')'),
    (b')', b'('),
    (b'a', b'b'),
    (1, 255),
    (255, 1),
    (13, b'x'),
    (b'x', 13),
    (9, 11),
    (200, 13),
];

/// How the keys of a macro are picked.
#[derive(Clone, Copy)]
enum Lean {
    /// As many openings as closings.
    Even,
    Up,
    Down,
    /// Closings in front and openings behind.
    Pit,
    /// Openings in front and closings behind.
    Hill,
    /// Hardly any of both.
    Rare,
}

const LEANS: [Lean; 8] =
    [Lean::Even, Lean::Even, Lean::Up, Lean::Down, Lean::Pit, Lean::Pit, Lean::Hill, Lean::Rare];

pub fn cases(seed: u64, count: u64) -> impl Iterator<Item = Case> {
    (0..count).map(move |number| case(&mut Rng::for_case(seed ^ 0xDE9, number)))
}

pub fn case(rng: &mut Rng) -> Case {
    let keys = some_pair(rng);
    let macros = macros(rng, keys);
    let number = match rng.below(10) {
        0..=1 => rng.below(macros.len()),
        _ => number_near(rng, macros.len()),
    };
    let words = words_near(rng, number);
    let book = book(rng, &macros);
    Case::Depth { number, words, keys: asked_keys(rng, keys), book }
}

pub fn some_pair(rng: &mut Rng) -> Keys {
    let (opening, closing) = rng.pick(&PAIRS);
    Keys { opening, closing }
}

/// Mostly sound.
fn book(rng: &mut Rng, macros: &[Vec<u16>]) -> Vec<u8> {
    let mut book = write(macros);
    match rng.below(100) {
        0..=7 => damage_book(rng, &mut book),
        8..=9 => book = some_book(rng),
        _ => {}
    }
    book
}

pub fn macros(rng: &mut Rng, keys: Keys) -> Macros {
    match rng.below(200) {
        0 => grown(rng, keys, MOST_MACROS, MOST_ITEMS, 1),
        1..=3 => grown(rng, keys, MOST_MACROS, 3, 30),
        4..=23 => {
            let (count, items) = (rng.between(13, 90), rng.between(2, 64));
            let percent = rng.pick(&[2, 6, 20, 60]);
            grown(rng, keys, count, items, percent)
        }
        24..=53 => {
            let count = rng.between(3, 60);
            wrapped(rng, keys, count)
        }
        54..=109 => make_depth_long::macros(rng, keys),
        _ => small(rng, keys),
    }
}

pub fn small(rng: &mut Rng, keys: Keys) -> Macros {
    let (count, items) = (rng.between(1, 12), rng.between(1, 8));
    let percent = rng.pick(&[30, 50, 80]);
    grown(rng, keys, count, items, percent)
}

/// Up to so many items a macro; `percent` of them call any lower macro.
fn grown(rng: &mut Rng, keys: Keys, count: usize, items: usize, percent: usize) -> Macros {
    let mut macros = Macros::new();
    for number in 0..count {
        let lean = rng.pick(&LEANS);
        let length = if rng.chance(30) { items } else { rng.between(1, items) };
        let item = |place: usize| match number {
            0 => key(rng, keys, lean, 2 * place < length),
            _ if rng.chance(percent) => call(rng.below(number)),
            _ => key(rng, keys, lean, 2 * place < length),
        };
        macros.push((0..length).map(item).collect());
    }
    macros
}

/// Each macro calls the one below, or one not far below, between keys.
fn wrapped(rng: &mut Rng, keys: Keys, count: usize) -> Macros {
    let mut macros: Macros = vec![some_keys(rng, keys)];
    for number in 1..count {
        let below = if rng.chance(85) { number - 1 } else { number - rng.between(1, number.min(5)) };
        let mut items = if rng.chance(70) { some_keys(rng, keys) } else { Vec::new() };
        items.push(call(below));
        if rng.chance(70) {
            items.extend(some_keys(rng, keys));
        }
        if rng.chance(8) {
            items.push(call(rng.below(number)));
        }
        macros.push(items);
    }
    macros
}

/// One to six keys.
pub fn some_keys(rng: &mut Rng, keys: Keys) -> Vec<u16> {
    let (lean, length) = (rng.pick(&LEANS), rng.between(1, 6));
    (0..length).map(|place| key(rng, keys, lean, 2 * place < length)).collect()
}

fn key(rng: &mut Rng, keys: Keys, lean: Lean, front: bool) -> u16 {
    let opens = match lean {
        Lean::Even | Lean::Rare => 50,
        Lean::Up => 80,
        Lean::Down => 20,
        Lean::Pit if front => 5,
        Lean::Hill if !front => 5,
        Lean::Pit | Lean::Hill => 95,
    };
    let other = if matches!(lean, Lean::Rare) { 90 } else { 20 };
    if rng.chance(other) {
        return u16::from(rng.pick(&[b'k', b'k', b'K', 10, 10, 13, 1, 255, b'(', b')']));
    }
    u16::from(if rng.chance(opens) { keys.opening } else { keys.closing })
}

/// Mostly those that stand in the book, sometimes the other way round or others, sometimes refused ones.
pub fn asked_keys(rng: &mut Rng, keys: Keys) -> Keys {
    let Keys { opening, closing } = keys;
    let (opening, closing) = match rng.below(100) {
        0..=1 => (opening, opening),
        2 => (rng.pick(&[0, 10]), closing),
        3 => (opening, rng.pick(&[0, 10])),
        4 => (rng.byte(), rng.byte()),
        5..=9 => (closing, opening),
        10..=13 => (opening, b'k'),
        14..=15 => (b'k', closing),
        _ => (opening, closing),
    };
    Keys { opening, closing }
}

/// Exactly as many words as needed, one less, more, or none.
pub fn words_near(rng: &mut Rng, number: usize) -> usize {
    let needed = WORDS_A_MACRO * (number.min(MOST_MACROS - 1) + 1);
    let words = match rng.below(20) {
        0..=9 => needed,
        10 => needed - rng.between(1, 3),
        11 => rng.below(needed),
        12 => rng.pick(&[0, 0, number + 1]),
        13 => MOST_WORDS,
        _ => needed + rng.below(20),
    };
    words.min(MOST_WORDS)
}
