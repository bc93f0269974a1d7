//! Seeded cases about the order of reach lists (document 02, S-5): books with many calls shared between macros,
//! deep nestings, long chains, and macros that nothing calls.

use crate::book::{MOST_ITEMS, MOST_MACROS};
use crate::case::Case;
use crate::make::{entries_near, number_near};
use crate::make_book::{call, write, Macros};
use crate::make_damage::damage_book;
use crate::rng::Rng;

/// What a macro calls.
#[derive(Clone, Copy)]
enum Shape {
    /// Any lower macros.
    Shared,
    /// Macros a few numbers below.
    Near,
    /// The macro just below, at the front or behind others.
    Nested,
    /// At the front always a call, so that many are entered at the same key.
    Fronts,
    /// Macros of the layer below.
    Layers,
    /// The second or third one below, so that many are left out.
    Skipping,
    /// A few calls, but as many as there is room for in the last macros.
    Crowd,
}

const SHAPES: [Shape; 7] =
    [Shape::Shared, Shape::Near, Shape::Nested, Shape::Fronts, Shape::Layers, Shape::Skipping, Shape::Crowd];

pub fn case(rng: &mut Rng) -> Case {
    let count = match rng.below(100) {
        0..=3 => MOST_MACROS,
        4..=11 => rng.between(61, 300),
        _ => rng.between(5, 60),
    };
    let mut book = write(&macros(rng, count));
    let number = match rng.below(10) {
        0..=1 => rng.below(count),
        2..=3 => rng.between(count / 2, count - 1),
        _ => number_near(rng, count),
    };
    let entries = entries_near(rng, number);
    if rng.chance(5) {
        damage_book(rng, &mut book);
    }
    Case::Reach { number, entries, book }
}

pub fn macros(rng: &mut Rng, count: usize) -> Macros {
    let (shape, hidden) = (rng.pick(&SHAPES), rng.pick(&[0, 0, 10, 30]));
    // The last ones are kept, so that there is something to reach.
    let called: Vec<bool> = (0..count).map(|number| number + 3 > count || !rng.chance(hidden)).collect();
    let width = rng.between(2, 8);
    let mut macros = Macros::new();
    for number in 0..count {
        let mut calls = match shape {
            Shape::Crowd if number + 3 > count => crowd(rng, number),
            _ => calls(rng, shape, number, width),
        };
        calls.retain(|&lower| called[lower]);
        macros.push(among_keys(rng, shape, &calls));
    }
    macros
}

/// 1,024 macros of 64 items, nearly all of them calls: of any lower macros, and of those not far below.
pub fn full_books(rng: &mut Rng) -> Vec<Vec<u8>> {
    [MOST_MACROS, 90].iter().map(|&reach| write(&full_macros(rng, reach))).collect()
}

fn full_macros(rng: &mut Rng, reach: usize) -> Macros {
    let item = |rng: &mut Rng, number: usize| {
        if number == 0 || rng.chance(4) {
            key(rng)
        } else {
            call(number - rng.between(1, reach.min(number)))
        }
    };
    (0..MOST_MACROS).map(|number| (0..MOST_ITEMS).map(|_| item(rng, number)).collect()).collect()
}

/// The macros that one calls, in their order; some of them more than once.
fn calls(rng: &mut Rng, shape: Shape, number: usize, width: usize) -> Vec<usize> {
    if number == 0 {
        return Vec::new();
    }
    let many = match shape {
        Shape::Nested | Shape::Skipping | Shape::Crowd => rng.below(3),
        _ => rng.between(1, 5),
    };
    let mut calls: Vec<usize> = (0..many).map(|_| lower(rng, shape, number, width)).collect();
    match shape {
        Shape::Nested => calls.insert(rng.below(calls.len() + 1), number - 1),
        Shape::Skipping => calls.insert(rng.below(calls.len() + 1), number - rng.between(1, 3).min(number)),
        Shape::Fronts => calls.insert(0, number - rng.between(1, 4).min(number)),
        _ => {}
    }
    calls
}

fn lower(rng: &mut Rng, shape: Shape, number: usize, width: usize) -> usize {
    match shape {
        Shape::Near => number - rng.between(1, 8).min(number),
        Shape::Skipping => number - rng.between(2, 3).min(number),
        Shape::Layers => {
            let layer = number / width;
            (layer.max(1) - 1) * width + rng.below(width.min(number))
        }
        _ => rng.below(number),
    }
}

/// Lower macros in mixed order, each once, as many as there is room for.
fn crowd(rng: &mut Rng, number: usize) -> Vec<usize> {
    let mut calls: Vec<usize> = (0..number).collect();
    for place in (1..calls.len()).rev() {
        calls.swap(place, rng.below(place + 1));
    }
    calls.truncate(MOST_ITEMS);
    calls
}

/// The calls with keys before, between and behind them; a macro has an item at least.
fn among_keys(rng: &mut Rng, shape: Shape, calls: &[usize]) -> Vec<u16> {
    let bare = matches!(shape, Shape::Fronts) || rng.chance(30);
    let mut items = Vec::new();
    for &number in calls {
        if !bare && rng.chance(35) {
            items.push(key(rng));
        }
        items.push(call(number));
    }
    if items.is_empty() || rng.chance(25) {
        items.push(key(rng));
    }
    items.truncate(MOST_ITEMS);
    items
}

fn key(rng: &mut Rng) -> u16 {
    u16::from(rng.pick(b"abcx\r\n\xff"))
}
