//! Seeded patterns about as long as they may be, whose last atom is a bracket that closes at or near their end,
//! or is cut off or damaged there (document 02, S-2).

use crate::make_pattern::damage;
use crate::make_rows::{bracket, Bracket, FAULTS};
use crate::make_tree::{tree, Taste};
use crate::rng::Rng;

/// Elements that fill a bracket up; the first four are single bytes.
const FILLS: [&[u8]; 9] = [b"a", b"b", b"~", b"x", b"0-9", b"b-d", b"[:digit:]", b"[:xdigit:]", b"[:space:]"];
/// What parentheses stand around.
const CORES: [&[u8]; 7] = [b"a", b"ab", b"a|b", b"[]]", b"[[]", b"[^]a]", b"[a-]"];

/// Mostly 126 to 129 bytes.
fn length(rng: &mut Rng) -> usize {
    match rng.below(100) {
        0..=14 => 126,
        15..=29 => 127,
        30..=74 => 128,
        75..=84 => 129,
        _ => rng.between(120, 130),
    }
}

pub fn pattern(rng: &mut Rng) -> Vec<u8> {
    let length = length(rng);
    let mut last = bracket(rng);
    spoil(rng, &mut last);
    let Bracket { opening, rest } = last;
    let missing = length - opening.len() - rest.len();
    let mut text = if rng.chance(30) {
        let inside = rng.pick(&[missing, missing, missing / 2]);
        [front(rng, missing - inside), opening, filling(rng, inside), rest].concat()
    } else {
        [front(rng, missing), opening, rest].concat()
    };
    if rng.chance(8) {
        damage(rng, &mut text, FAULTS);
    }
    text
}

/// Cuts the bracket off, damages it, puts something behind it, or leaves it as it is.
fn spoil(rng: &mut Rng, last: &mut Bracket) {
    match rng.below(100) {
        0..=19 => last.rest.truncate(rng.below(last.rest.len())),
        20..=31 => damage(rng, &mut last.rest, FAULTS),
        32..=41 => last.rest.push(rng.pick(b"*+?$]")),
        _ => {}
    }
}

/// Elements of so many bytes together.
fn filling(rng: &mut Rng, bytes: usize) -> Vec<u8> {
    let mut text = Vec::new();
    let fills = if rng.chance(50) { &FILLS[..4] } else { &FILLS[..] };
    while text.len() < bytes {
        let fill = rng.pick(fills);
        text.extend_from_slice(if text.len() + fill.len() <= bytes { fill } else { b"a" });
    }
    text
}

/// A first part of so many bytes.
fn front(rng: &mut Rng, bytes: usize) -> Vec<u8> {
    match rng.below(8) {
        _ if bytes < 5 => vec![b'a'; bytes],
        0..=2 => wide(rng, bytes),
        3..=4 => nested(rng, bytes),
        5..=6 => several(rng, bytes),
        _ => branch(rng, bytes),
    }
}

/// One bracket with many elements is one atom.
fn wide(rng: &mut Rng, bytes: usize) -> Vec<u8> {
    let opening: &[u8] = rng.pick(&[b"[".as_slice(), b"[", b"[^", b"[]"]);
    [opening, &filling(rng, bytes - opening.len() - 1), b"]"].concat()
}

fn nested(rng: &mut Rng, bytes: usize) -> Vec<u8> {
    let core = rng.pick(&CORES);
    let depth = (bytes - core.len()) / 2;
    let odd = bytes - core.len() - 2 * depth;
    [&b"a"[..odd], &vec![b'('; depth], core, &vec![b')'; depth]].concat()
}

/// Several brackets; a small rest goes to the last one.
fn several(rng: &mut Rng, bytes: usize) -> Vec<u8> {
    let part = rng.between(5, 40);
    if bytes < part + 5 {
        return wide(rng, bytes);
    }
    [wide(rng, part), several(rng, bytes - part)].concat()
}

/// A branch of another pattern before, as far as there is room.
fn branch(rng: &mut Rng, bytes: usize) -> Vec<u8> {
    let atoms = rng.between(1, 3);
    let mut text = tree(rng, atoms, Taste::Rich).text();
    text.push(b'|');
    if text.len() + 5 > bytes {
        return wide(rng, bytes);
    }
    let left = bytes - text.len();
    [text, wide(rng, left)].concat()
}
