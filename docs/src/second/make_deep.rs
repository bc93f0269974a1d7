//! Seeded books whose runs are too long to write out: chains that double, counts at the top of the
//! 64-bit range, full books, and chains as deep as books allow.

use crate::book::{MOST_ITEMS, MOST_MACROS};
use crate::line_ends::closed;
use crate::make_book::{call, grown, keys, some_keys, Macros};
use crate::make_line;
use crate::make_returns::any_end;
use crate::operations::line_test;
use crate::question::Question;
use crate::rng::Rng;

pub fn deep(rng: &mut Rng, question: &Question) -> Macros {
    if rng.chance(45) {
        near_top(rng, question)
    } else {
        doubling(rng, question)
    }
}

/// Each macro calls the one below two or three times, with something else in between.
fn doubling(rng: &mut Rng, question: &Question) -> Macros {
    let mut macros = grown(rng, question);
    for _ in 0..rng.between(10, 80) {
        let number = macros.len();
        let mut items = vec![call(number - 1); rng.between(2, 3)];
        if rng.chance(40) {
            items.insert(rng.below(items.len() + 1), call(rng.below(number)));
        }
        if rng.chance(25) {
            let place = rng.below(items.len() + 1);
            items.splice(place..place, some_keys(rng, question));
        }
        macros.push(items);
    }
    add_short_end(rng, question, &mut macros);
    macros
}

/// A last macro that reaches only low ones, whatever overflows between.
fn add_short_end(rng: &mut Rng, question: &Question, macros: &mut Macros) {
    if rng.chance(30) {
        let mut items = some_keys(rng, question);
        items.push(call(rng.below(6.min(macros.len()))));
        items.extend(some_keys(rng, question));
        macros.push(items);
    }
}

/// A line that matches, and one that does not if such a line is met.
pub fn two_lines(rng: &mut Rng, question: &Question) -> (Vec<u8>, Vec<u8>) {
    let (mut good, mut bad) = (vec![b'a'], Vec::new());
    for _ in 0..20 {
        let line = make_line::line(rng, question);
        match line_test(question, &line) {
            Ok(true) if line.len() < 40 => good = line,
            Ok(false) if line.len() < 20 => bad = line,
            _ => {}
        }
    }
    (good, bad)
}

/// The matching line once, with an end, cut within it, or with its CR at the end and an LF at the front.
pub fn one_line(rng: &mut Rng, good: &[u8]) -> Macros {
    match rng.below(6) {
        0 => vec![keys(&[good, b"\r"].concat()), keys(b"\n"), vec![call(0), call(1)]],
        1 if !good.is_empty() => vec![keys(good), keys(b"\r"), keys(b"\n"), vec![call(0), call(1), call(2)]],
        2 => vec![keys(&[b"\n", good, b"\r"].concat())],
        3 => vec![keys(&[good, b"\r\n"].concat())],
        _ => vec![keys(&closed(good))],
    }
}

/// Macro i behind the first ones holds 2^i matching lines; the one behind them calls as many as make a number
/// just below, at or above 2^64 - 1; the last ones put keys before and behind.
fn near_top(rng: &mut Rng, question: &Question) -> Macros {
    let (good, mut bad) = two_lines(rng, question);
    bad.extend_from_slice(any_end(rng));
    let mut macros = one_line(rng, &good);
    let first = macros.len() - 1;
    for number in first + 1..=first + 64 {
        macros.push(vec![call(number - 1), call(number - 1)]);
    }
    let wanted = (1u128 << 64) - 4 + rng.below(7) as u128;
    let places = (0..=64).filter(|place| wanted >> place & 1 == 1);
    let mut items: Vec<u16> = places.map(|place| call(first + place)).collect();
    if rng.chance(50) {
        items.reverse();
    }
    items.truncate(MOST_ITEMS);
    macros.push(items);
    around(rng, question, &bad, &mut macros);
    add_short_end(rng, question, &mut macros);
    macros
}

/// Keys or lines before and behind the last macro, sometimes none.
fn around(rng: &mut Rng, question: &Question, bad: &[u8], macros: &mut Macros) {
    for _ in 0..rng.below(3) {
        let number = macros.len() - 1;
        let mut items = Vec::new();
        if rng.chance(50) {
            items.extend(some_keys(rng, question));
        }
        items.push(call(number));
        if rng.chance(40) {
            items.extend(keys(bad));
        }
        if rng.chance(40) {
            items.extend(some_keys(rng, question));
        }
        if rng.chance(15) {
            items.push(call(number));
        }
        macros.push(items);
    }
}

/// As many macros of as many items as asked for; `percent` of the items call any lower macro.
pub fn full(rng: &mut Rng, count: usize, items: usize, percent: usize) -> Macros {
    let count = count.min(MOST_MACROS);
    let mut macros: Macros = Vec::new();
    for number in 0..count {
        let one = (0..items).map(|_| {
            if number > 0 && rng.chance(percent) {
                call(rng.below(number))
            } else {
                u16::from(rng.pick(b"aaaabbbbcccx\r\n\n\n"))
            }
        });
        macros.push(one.collect());
    }
    macros
}

/// Macro i calls macro i - 1, with a key before or behind: as deep as there are macros.
pub fn chain(rng: &mut Rng, count: usize) -> Macros {
    let mut macros: Macros = vec![vec![u16::from(b'a')]];
    for number in 1..count.min(MOST_MACROS) {
        let mut items = vec![call(number - 1)];
        if rng.chance(30) {
            items.insert(rng.below(2), u16::from(rng.pick(b"aabc\r\n\n")));
        }
        macros.push(items);
    }
    macros
}
