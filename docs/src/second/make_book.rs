//! Seeded books whose runs can be written out: lines of the pattern cut into macros.

use crate::book::{FIRST_CALL, MARK, MOST_ITEMS};
use crate::make_line;
use crate::make_returns;
use crate::question::Question;
use crate::rng::Rng;

/// A book before it is written down: the items of each macro.
pub type Macros = Vec<Vec<u16>>;

/// So long may the run of one macro be in a shallow book.
const MOST_KEYS: usize = 1500;

pub fn call(number: usize) -> u16 {
    FIRST_CALL + number as u16
}

/// The item that a word stands for: a key, by a letter or a name, or the call of a macro, by its number.
pub fn named(word: &str) -> u16 {
    match word {
        "LF" => 10,
        "CR" => 13,
        "ONE" => 1,
        "TOP" => 255,
        _ => word.parse().map_or_else(|_| u16::from(word.as_bytes()[0]), call),
    }
}

pub fn keys(text: &[u8]) -> Vec<u16> {
    text.iter().map(|&key| u16::from(key)).collect()
}

/// The book's bytes.
pub fn write(macros: &[Vec<u16>]) -> Vec<u8> {
    let mut bytes = MARK.to_vec();
    bytes.extend_from_slice(&[1, 0]);
    bytes.extend_from_slice(&(macros.len() as u16).to_le_bytes());
    for items in macros {
        bytes.extend_from_slice(&(items.len() as u16).to_le_bytes());
        for item in items {
            bytes.extend_from_slice(&item.to_le_bytes());
        }
    }
    bytes
}

pub fn shallow(rng: &mut Rng, question: &Question) -> Macros {
    if rng.chance(40) {
        cut_run(rng, question)
    } else {
        grown(rng, question)
    }
}

/// A run cut into small macros which higher ones call in order, so that lines and their ends cross several
/// calls.
fn cut_run(rng: &mut Rng, question: &Question) -> Macros {
    let mut run = make_line::run(rng, question);
    if run.is_empty() {
        run.push(10);
    }
    let mut macros: Macros = Vec::new();
    let mut level: Vec<u16> = Vec::new();
    let mut left = &run[..];
    while !left.is_empty() {
        let (part, rest) = left.split_at(make_returns::cut(rng, left, 6));
        level.push(call(macros.len()));
        macros.push(keys(part));
        left = rest;
    }
    while level.len() > 1 {
        level = bundle(rng, level, &mut macros);
    }
    macros
}

/// New macros that call the given ones in order, some of them two or more at a time.
fn bundle(rng: &mut Rng, level: Vec<u16>, macros: &mut Macros) -> Vec<u16> {
    let mut higher = Vec::new();
    let mut left = &level[..];
    while !left.is_empty() {
        let (part, rest) = left.split_at(rng.between(2, 5).min(left.len()));
        higher.push(call(macros.len()));
        macros.push(part.to_vec());
        left = rest;
    }
    higher
}

/// Each macro holds parts of lines and calls of any lower macros.
pub fn grown(rng: &mut Rng, question: &Question) -> Macros {
    let count = rng.between(1, 9);
    let mut macros: Macros = Vec::new();
    let mut lengths: Vec<usize> = Vec::new();
    for number in 0..count {
        let mut items = Vec::new();
        let mut length = 0;
        for _ in 0..rng.between(1, 5) {
            let called = if number > 0 { lower(rng, number) } else { 0 };
            if number > 0 && rng.chance(50) && length + lengths[called] < MOST_KEYS {
                items.push(call(called));
                length += lengths[called];
            } else {
                let part = some_keys(rng, question);
                length += part.len();
                items.extend(part);
            }
        }
        items.truncate(MOST_ITEMS);
        macros.push(items);
        lengths.push(length);
    }
    macros
}

/// A macro below, often the one just below.
fn lower(rng: &mut Rng, number: usize) -> usize {
    if rng.chance(40) {
        number - 1
    } else {
        rng.below(number)
    }
}

/// At least one key: a line end or half of one, or a part of some line with or without its end.
pub fn some_keys(rng: &mut Rng, question: &Question) -> Vec<u16> {
    if rng.chance(22) {
        return keys(make_returns::lone(rng));
    }
    let mut line = make_line::line(rng, question);
    if rng.chance(45) {
        line.extend_from_slice(make_returns::any_end(rng));
    }
    make_returns::stray(rng, &mut line);
    if line.is_empty() {
        line.push(b'a');
    }
    let from = if rng.chance(50) { 0 } else { rng.below(line.len()) };
    let to = if rng.chance(50) { line.len() } else { rng.between(from + 1, line.len()) };
    keys(&line[from..to.min(from + 12)])
}
