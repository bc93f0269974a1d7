//! Seeded books of version 2 at their limits (document 02, S-8): counts about 2^64 - 1, and runs of about 2^62 keys.

use crate::depth::Keys;
use crate::make_book::{call, keys, some_keys};
use crate::make_deep::{one_line, two_lines};
use crate::make_depth;
use crate::make_returns::any_end;
use crate::question::Question;
use crate::repeats::{single, Repeats};
use crate::rng::Rng;

/// Three macros above the last one, each 2^16 times the one below; a whole pass stands before or behind the others.
fn add_powers(rng: &mut Rng, repeats: &mut Repeats) {
    for _ in 0..3 {
        let below = call(repeats.len() - 1);
        let (many, rest) = rng.pick(&[(65_535, 1), (32_768, 32_768), (65_000, 536)]);
        let items = [(below, many), (below, rest)];
        repeats.push(if rng.chance(50) { items.to_vec() } else { vec![items[1], items[0]] });
    }
}

/// Items that have the macro below the powers so many times; its number is `first`.
fn as_many(rng: &mut Rng, first: usize, wanted: u128) -> Vec<(u16, u16)> {
    let mut items = Vec::new();
    let mut left = wanted;
    for place in (0..4).rev() {
        let unit = 1u128 << (16 * place);
        let mut times = left / unit;
        left %= unit;
        while times > 0 {
            let part = times.min(65_535);
            let part = if part > 1 && rng.chance(20) { rng.between(1, part as usize) as u128 } else { part };
            items.push((call(first + place), part as u16));
            times -= part;
        }
    }
    if rng.chance(50) {
        items.reverse();
    }
    items.truncate(64);
    items
}

/// A line that matches, just fewer, exactly or just more than 2^64 - 1 times; the last macros put keys before and
/// behind.
pub fn near_top(rng: &mut Rng, question: &Question) -> Repeats {
    let (good, mut bad) = two_lines(rng, question);
    bad.extend_from_slice(any_end(rng));
    let mut repeats = single(&one_line(rng, &good));
    let first = repeats.len() - 1;
    add_powers(rng, &mut repeats);
    let wanted = (1u128 << 64) - 4 + rng.pick(&[0, 1, 2, 3, 3, 3, 4, 5, 6]);
    let items = as_many(rng, first, wanted);
    repeats.push(items);
    for _ in 0..rng.pick(&[0, 0, 1, 1, 2]) {
        around(rng, question, &bad, &mut repeats);
    }
    if rng.chance(25) {
        let low = call(rng.below(first + 2));
        let more = some_keys(rng, question).into_iter().map(|key| (key, 1));
        repeats.push(more.chain([(low, 300)]).collect());
    }
    repeats
}

/// Keys or lines before and behind the last macro, sometimes none.
fn around(rng: &mut Rng, question: &Question, bad: &[u8], repeats: &mut Repeats) {
    let number = repeats.len() - 1;
    let mut items: Vec<(u16, u16)> = Vec::new();
    let once = |list: Vec<u16>| list.into_iter().map(|key| (key, 1));
    if rng.chance(50) {
        items.extend(once(some_keys(rng, question)));
    }
    items.push((call(number), rng.pick(&[1, 1, 1, 1, 1, 2, 65_535])));
    if rng.chance(40) {
        items.extend(once(keys(bad)));
    }
    if rng.chance(40) {
        items.extend(once(some_keys(rng, question)));
    }
    repeats.push(items);
}

/// Some keys so often that there are just fewer, exactly or just more than 2^62 of them.
pub fn long(rng: &mut Rng, keys: Keys) -> Repeats {
    let first = make_depth::some_keys(rng, keys);
    let length = first.len() as u128;
    let mut repeats = single(&[first]);
    add_powers(rng, &mut repeats);
    let wanted = (1u128 << 62) - 3 + rng.pick(&[0, 1, 2, 3, 3, 3, 4, 5, 1 << 40]);
    let mut items = as_many(rng, 0, wanted / length);
    for _ in 0..wanted % length {
        items.insert(rng.below(items.len() + 1), (make_depth::some_keys(rng, keys)[0], 1));
    }
    repeats.push(items);
    for _ in 0..rng.below(3) {
        let below = repeats.len() - rng.between(1, 2);
        let mut items = vec![(call(below), rng.pick(&[1, 1, 1, 2, 65_535]))];
        if rng.chance(40) {
            items.push((make_depth::some_keys(rng, keys)[0], rng.pick(&[1, 2, 65_535])));
        }
        repeats.push(items);
    }
    repeats
}
