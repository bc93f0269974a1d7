//! Seeded books of version 2 (document 02, S-8): those of version 1 with repeat counts, small ones whose runs can be
//! written out, and passes in which CR and LF meet.

use crate::book::{FIRST_CALL, MOST_MACROS};
use crate::depth::Keys;
use crate::make::macros_for;
use crate::make_book::{call, grown, keys, shallow, some_keys, Macros};
use crate::make_deep::{chain, full};
use crate::make_depth;
use crate::make_line;
use crate::make_repeats_deep::{long, near_top};
use crate::make_returns;
use crate::question::Question;
use crate::repeats::{gathered, single, Repeats};
use crate::rng::Rng;

/// So long may the run of one macro be in a book with a light hand.
const MOST_KEYS: u64 = 3_000;
/// At the edges of one byte, of 15 bits and of two bytes.
const EDGES: [u16; 10] = [1, 2, 3, 255, 256, 257, 32_767, 32_768, 65_534, 65_535];

/// How repeat counts are picked.
#[derive(Clone, Copy)]
pub enum Hand {
    /// Low ones, as long as the runs stay short.
    Light,
    /// Mostly 1, now and then any.
    Rare,
    /// Any, often at the edges.
    Heavy,
    /// 65,535 everywhere.
    Top,
}

pub const HANDS: [Hand; 8] =
    [Hand::Light, Hand::Light, Hand::Light, Hand::Light, Hand::Rare, Hand::Heavy, Hand::Heavy, Hand::Top];

/// Any repeat count.
pub fn repeat(rng: &mut Rng) -> u16 {
    match rng.below(4) {
        0 => rng.between(1, 9) as u16,
        1..=2 => rng.pick(&EDGES),
        _ => rng.between(1, 65_535) as u16,
    }
}

/// A book of version 1 with repeat counts.
pub fn with_counts(rng: &mut Rng, macros: &[Vec<u16>], hand: Hand) -> Repeats {
    let mut lengths: Vec<u64> = Vec::new();
    let mut repeats = Repeats::new();
    for items in macros {
        let mut length: u64 = 0;
        let mut own = Vec::new();
        for &item in items {
            let once = if item < FIRST_CALL { 1 } else { lengths[usize::from(item - FIRST_CALL)] };
            let room = MOST_KEYS.saturating_sub(length) / once.max(1);
            let times = counted(rng, hand, room);
            length = length.saturating_add(once.saturating_mul(u64::from(times)));
            own.push((item, times));
        }
        lengths.push(length);
        repeats.push(own);
    }
    repeats
}

/// `room` is how many passes a short run still holds.
fn counted(rng: &mut Rng, hand: Hand, room: u64) -> u16 {
    match hand {
        Hand::Light => {
            let wanted = match rng.below(10) {
                0..=4 => 1,
                5..=7 => rng.between(2, 4),
                8 => rng.between(5, 40),
                _ => rng.between(1, 300),
            };
            (wanted as u64).min(room).max(1) as u16
        }
        Hand::Rare if rng.chance(85) => 1,
        Hand::Rare | Hand::Heavy => repeat(rng),
        Hand::Top => 65_535,
    }
}

/// For counts.
pub fn for_question(rng: &mut Rng, question: &Question) -> Repeats {
    match rng.below(100) {
        0..=39 => {
            let macros = shallow(rng, question);
            with_counts(rng, &macros, Hand::Light)
        }
        40..=54 => {
            let macros = grown(rng, question);
            let hand = rng.pick(&HANDS);
            with_counts(rng, &macros, hand)
        }
        55..=71 => at_seams(rng, question),
        72..=84 => near_top(rng, question),
        85..=92 => {
            let macros = macros_for(rng, question);
            form(rng, &macros)
        }
        93 => {
            let (count, items) = (rng.between(2, 90), rng.between(1, 64));
            let percent = rng.pick(&[4, 12, 60]);
            let macros = full(rng, count, items, percent);
            let hand = rng.pick(&HANDS);
            with_counts(rng, &macros, hand)
        }
        94 => {
            let count = rng.between(2, 200);
            let macros = chain(rng, count);
            let hand = rng.pick(&HANDS);
            with_counts(rng, &macros, hand)
        }
        _ => tower(rng, question),
    }
}

/// One of the forms of a version 1 book.
fn form(rng: &mut Rng, macros: &Macros) -> Repeats {
    if rng.chance(30) {
        single(macros)
    } else {
        gathered(macros)
    }
}

/// Books whose passes tell by what ends one and begins the next.
pub fn at_seams(rng: &mut Rng, question: &Question) -> Repeats {
    if rng.chance(50) {
        seams(rng, question)
    } else {
        meeting(rng, question)
    }
}

/// A few keys, repeated; that among others, repeated, and so on: what ends one pass meets what begins the next.
fn seams(rng: &mut Rng, question: &Question) -> Repeats {
    let mut below = some_keys(rng, question);
    if rng.chance(50) {
        below.extend(keys(make_returns::lone(rng)));
    }
    if rng.chance(50) {
        below.splice(0..0, keys(make_returns::lone(rng)));
    }
    let mut repeats = vec![below.into_iter().map(|key| (key, passes(rng, 12))).collect()];
    for number in 0..rng.between(1, 3) {
        let mut items = Vec::new();
        if rng.chance(30) {
            items.extend(some_keys(rng, question).into_iter().map(|key| (key, passes(rng, 10))));
        }
        items.push((call(number), passes(rng, 60)));
        if rng.chance(45) {
            items.extend(keys(make_returns::lone(rng)).into_iter().map(|key| (key, passes(rng, 25))));
        }
        if rng.chance(20) {
            items.push((call(rng.below(number + 1)), passes(rng, 60)));
        }
        repeats.push(items);
    }
    repeats
}

/// Lines between an LF in front and a CR behind, so that a CR and an LF meet at every seam.
fn meeting(rng: &mut Rng, question: &Question) -> Repeats {
    let mut line = make_line::line(rng, question);
    line.truncate(40);
    let below = match rng.below(4) {
        0 => keys(&line),
        _ => keys(&[b"\n", &line[..], b"\r"].concat()),
    };
    let mut repeats = vec![below.into_iter().map(|key| (key, 1)).collect::<Vec<_>>()];
    if repeats[0].is_empty() || rng.chance(20) {
        repeats[0].push((13, passes(rng, 30)));
    }
    for number in 0..rng.between(1, 3) {
        let times = rng.pick(&[2, 2, 3, 4, 9, 40]);
        let end: &[u8] = rng.pick(&[b"", b"", b"\n", b"\r", b"\r\n"]);
        let behind = keys(end).into_iter().map(|key| (key, passes(rng, 20)));
        repeats.push([(call(number), times)].into_iter().chain(behind).collect());
    }
    repeats
}

/// More than once in so many percent.
fn passes(rng: &mut Rng, percent: usize) -> u16 {
    if rng.chance(percent) {
        rng.pick(&[2, 2, 2, 3, 3, 4, 7, 16, 17])
    } else {
        1
    }
}

/// Each macro has the one below, repeated, with something before or behind it now and then.
fn tower(rng: &mut Rng, question: &Question) -> Repeats {
    let mut repeats = single(&grown(rng, question));
    let always = rng.chance(50).then_some(65_535);
    for _ in 0..rng.between(1, 41) {
        let number = repeats.len();
        let mut items = vec![(call(number - 1), always.unwrap_or_else(|| repeat(rng)))];
        if rng.chance(20) {
            let place = rng.below(2);
            let more: Vec<(u16, u16)> =
                some_keys(rng, question).into_iter().map(|key| (key, repeat(rng))).collect();
            items.splice(place..place, more);
        }
        if rng.chance(10) {
            items.push((call(rng.below(number)), repeat(rng)));
        }
        repeats.push(items);
    }
    if rng.chance(25) {
        repeats.push(vec![(call(rng.below(2.min(repeats.len()))), 2), (97, 2)]);
    }
    repeats
}

/// For depths.
pub fn for_depths(rng: &mut Rng, keys: Keys) -> Repeats {
    if rng.chance(35) {
        return long(rng, keys);
    }
    let macros = make_depth::macros(rng, keys);
    // The largest are asked in runs of their own.
    let few = macros.len() < MOST_MACROS || macros.iter().map(Vec::len).max() < Some(9);
    let hand = rng.pick(&HANDS);
    with_counts(rng, if few { &macros } else { &macros[..40] }, hand)
}
