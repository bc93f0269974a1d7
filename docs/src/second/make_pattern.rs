//! Seeded pattern texts: most of them sound, some at the limits, some damaged, some mere soup.

use crate::make_tree::{mark, tree, Taste};
use crate::meaning::line_matches;
use crate::parser::MOST_BYTES;
use crate::rng::Rng;
use crate::tree::*;

const SOUP: &[u8] = b"aaAb()|*+?[]^$-.\\{}:=";
const BRACKET_SOUP: &[u8] = b"aaAbZ]]^-[.:=\\z%";
const NAMES: [&[u8]; 10] = [
    b"[:alpha:]",
    b"[:digit:]",
    b"[:space:]",
    b"[:foo:]",
    b"[.a.]",
    b"[=a=]",
    b"[:alpha]",
    b"[:cntrl:]",
    b"[:upper:]",
    b"[:UPPER:]",
];

pub fn pattern(rng: &mut Rng, taste: Taste) -> Vec<u8> {
    match rng.below(100) {
        0..=71 => sound_pattern(rng, taste),
        72..=79 => damaged_pattern(rng, taste),
        80..=83 => soup(rng, SOUP),
        84..=87 => bracket_soup(rng),
        88..=91 => near_most_atoms(rng, taste),
        92..=94 => near_most_bytes(rng, taste),
        95..=97 => nested(rng),
        _ => odd_pattern(rng, taste),
    }
}

pub fn sound_pattern(rng: &mut Rng, taste: Taste) -> Vec<u8> {
    sound_tree(rng, taste).text()
}

/// A tree whose text fits; richer and larger ones are tried first.
pub fn sound_tree(rng: &mut Rng, taste: Taste) -> Pattern {
    let most = rng.pick(&[3, 5, 8, 14, 29]);
    loop {
        let atoms = rng.between(1, most);
        let made = tree(rng, atoms, taste);
        let telling = !takes_anything(&made) || rng.chance(20);
        if telling && made.text().len() <= MOST_BYTES {
            return made;
        }
    }
}

/// Under a pattern that takes the empty line and a line of a rare key, most lines match.
fn takes_anything(tree: &Pattern) -> bool {
    line_matches(tree, b"") && line_matches(tree, b"\x02")
}

/// 27 to 31 atoms, plain ones so that the text stays short enough.
fn near_most_atoms(rng: &mut Rng, taste: Taste) -> Vec<u8> {
    let atoms = rng.between(27, 31);
    let taste = if rng.chance(50) { Taste::Plain } else { taste };
    tree(rng, atoms, taste).text()
}

/// 127 to 130 bytes: one more branch, a bracket with as many elements as are missing.
fn near_most_bytes(rng: &mut Rng, taste: Taste) -> Vec<u8> {
    let wanted = rng.between(127, 130);
    let mut text = sound_pattern(rng, taste);
    if text.len() + 4 > wanted {
        return text;
    }
    text.extend_from_slice(b"|[");
    while text.len() + 1 < wanted {
        text.push(rng.pick(b"abcxyz09AZ"));
    }
    text.push(b']');
    text
}

/// A pattern's only branch put into as many parentheses as fit, some of them with marks.
fn nested(rng: &mut Rng) -> Vec<u8> {
    let atoms = rng.between(1, 6);
    let alternatives = tree(rng, atoms, Taste::Plain).branches;
    let inner: Vec<Vec<Piece>> = alternatives.into_iter().map(|branch| branch.pieces).collect();
    let inner = inner.into_iter().filter(|pieces| !pieces.is_empty()).collect();
    let mut pieces = vec![Piece { core: Core::Group(inner), mark: mark(rng) }];
    let wanted = rng.between(20, MOST_BYTES + 1);
    loop {
        let marked = if rng.chance(15) { mark(rng) } else { Mark::Once };
        let wrapped = vec![Piece { core: Core::Group(vec![pieces]), mark: marked }];
        let branch = Branch { start: false, end: false, pieces: wrapped };
        let text = Pattern { branches: vec![branch.clone()] }.text();
        if text.len() + 2 > wanted {
            return text;
        }
        pieces = branch.pieces;
    }
}

fn damaged_pattern(rng: &mut Rng, taste: Taste) -> Vec<u8> {
    let mut text = sound_pattern(rng, taste);
    for _ in 0..rng.between(1, 2) {
        damage(rng, &mut text, SOUP);
    }
    text
}

/// Changes, takes out, puts in or doubles one byte.
pub fn damage(rng: &mut Rng, text: &mut Vec<u8>, bytes: &[u8]) {
    let place = rng.below(text.len() + 1);
    let inside = place < text.len();
    match rng.below(5) {
        0 if inside => text[place] = rng.pick(bytes),
        1 if inside => {
            text.remove(place);
        }
        2 if inside => text[place] ^= 1 << rng.below(8),
        3 if inside => text.insert(place, text[place]),
        _ => text.insert(place, rng.pick(bytes)),
    }
}

fn soup(rng: &mut Rng, bytes: &[u8]) -> Vec<u8> {
    (0..rng.between(1, 9)).map(|_| rng.pick(bytes)).collect()
}

fn bracket_soup(rng: &mut Rng) -> Vec<u8> {
    let mut text = vec![b'['];
    for _ in 0..rng.between(1, 5) {
        if rng.chance(12) {
            text.extend_from_slice(rng.pick(&NAMES));
        } else {
            text.push(rng.pick(BRACKET_SOUP));
        }
    }
    text.push(b']');
    text
}

/// Empty, far too long, with dead bytes, or any bytes at all.
fn odd_pattern(rng: &mut Rng, taste: Taste) -> Vec<u8> {
    match rng.below(4) {
        0 => Vec::new(),
        1 => vec![b'a'; rng.pick(&[30, 128, 129, 200, 1000])],
        2 => {
            let mut text = sound_pattern(rng, taste);
            let place = rng.below(text.len() + 1);
            text.insert(place, rng.pick(&[0, 10]));
            text
        }
        _ => (0..rng.between(1, 6)).map(|_| rng.byte()).collect(),
    }
}
