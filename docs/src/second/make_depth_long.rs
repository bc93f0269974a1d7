//! Seeded books for depths whose runs are about 2^62 keys long (document 02, S-6): below, exactly, and above.

use crate::book::MOST_ITEMS;
use crate::depth::Keys;
use crate::make_book::{call, Macros};
use crate::make_depth::some_keys;
use crate::rng::Rng;

/// So often each first run is doubled.
const DOUBLINGS: usize = 62;

pub fn macros(rng: &mut Rng, keys: Keys) -> Macros {
    let mut macros = match rng.below(10) {
        0..=1 => doubled(rng, keys),
        _ => summed(rng, keys),
    };
    for _ in 0..rng.pick(&[0, 0, 0, 1, 2]) {
        let more = above(rng, keys, macros.len());
        macros.push(more);
    }
    macros
}

/// Each macro calls the one below two or three times, with something else between.
fn doubled(rng: &mut Rng, keys: Keys) -> Macros {
    let mut macros: Macros = vec![some_keys(rng, keys)];
    for number in 1..rng.between(30, 75) {
        let mut items = vec![call(number - 1); rng.pick(&[2, 2, 2, 3])];
        if rng.chance(30) {
            items.insert(rng.below(items.len() + 1), call(rng.below(number)));
        }
        if rng.chance(25) {
            let place = rng.below(items.len() + 1);
            items.splice(place..place, some_keys(rng, keys));
        }
        macros.push(items);
    }
    macros
}

/// Two first runs, each doubled again and again, and a macro that calls as much of both as makes a length near
/// 2^62, in mixed order.
fn summed(rng: &mut Rng, keys: Keys) -> Macros {
    let mut macros = Macros::new();
    let wanted = wanted(rng);
    let share = wanted / 1000 * rng.below(1001) as u128;
    let mut calls = part(rng, keys, &mut macros, share);
    let left = wanted - calls.length;
    let other = part(rng, keys, &mut macros, left);
    let single = (wanted - calls.length - other.length) as usize;
    calls.items.extend(other.items);
    if rng.chance(60) {
        mix(rng, &mut calls.items);
    }
    // What neither of the first runs can fill, one key each.
    calls.items.extend((0..single).map(|_| some_keys(rng, keys)[0]));
    bundled(rng, calls.items, &mut macros);
    macros
}

/// 2^62 or a few keys off, or something of about that size.
fn wanted(rng: &mut Rng) -> u128 {
    let longest = 1u128 << DOUBLINGS;
    match rng.below(10) {
        0..=2 => longest,
        3..=4 => longest + 1,
        5 => longest - 1,
        6..=7 => longest - 4 + rng.below(9) as u128,
        8 => (longest >> rng.below(4)) + u128::from(rng.next() >> 20),
        _ => longest + u128::from(rng.next() >> 2),
    }
}

/// Calls, and how many keys they have together.
struct Part {
    items: Vec<u16>,
    length: u128,
}

/// A first run doubled as often as needed, and calls that have together as many keys as fit into `most`.
fn part(rng: &mut Rng, keys: Keys, macros: &mut Macros, most: u128) -> Part {
    let first = some_keys(rng, keys);
    let (start, size) = (macros.len(), first.len() as u128);
    macros.push(first);
    for _ in 0..DOUBLINGS {
        let below = call(macros.len() - 1);
        macros.push(vec![below, below]);
    }
    let times = (most / size).min((2 << DOUBLINGS) - 1);
    let places = (0..=DOUBLINGS).rev().filter(|place| times >> place & 1 == 1);
    Part { items: places.map(|place| call(start + place)).collect(), length: times * size }
}

fn mix(rng: &mut Rng, items: &mut [u16]) {
    for place in (1..items.len()).rev() {
        items.swap(place, rng.below(place + 1));
    }
}

/// The items in order, in as many macros as it takes, and a last one that calls these.
fn bundled(rng: &mut Rng, items: Vec<u16>, macros: &mut Macros) {
    let size = rng.between(8, MOST_ITEMS);
    let first = macros.len();
    for part in items.chunks(size) {
        macros.push(part.to_vec());
    }
    macros.push((first..macros.len()).map(call).collect());
}

/// A macro behind the long one: it calls it, or another one, with keys or without.
fn above(rng: &mut Rng, keys: Keys, number: usize) -> Vec<u16> {
    let any = rng.below(number);
    let called = rng.pick(&[number - 1, number - 1, number / 2, any]);
    let mut items = vec![call(called)];
    if rng.chance(40) {
        items.splice(0..0, some_keys(rng, keys));
    }
    if rng.chance(30) {
        items.extend(some_keys(rng, keys));
    }
    if rng.chance(20) {
        items.push(call(rng.below(number)));
    }
    items
}
