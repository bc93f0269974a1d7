//! Seeded pattern trees of the form in document 01, "Patterns". Their sets are those without the choice of
//! document 02, S-1.

use crate::make_bracket::bracket_atom;
use crate::parser::{any_key, one_key, MARKS};
use crate::rng::Rng;
use crate::tree::*;

/// Plain bytes beyond the small alphabet.
const ODD: &[u8] = b"]}-/ :=,\t\r\r\r\r\"09AZz~\x01\x7f\x80\x9b\xc3\xff";
/// Letters of both cases, and plain bytes next to them or 32 away from others.
const CASED: &[u8] = b"aaabbbcckzAAABBBCCKZ";
const CASED_ODD: &[u8] = b"@@``]}_MNmnYy!:;\x7f\xc1\xc1\xe1\xe1\xda\xfa";
const CASED_MARKS: &[u8] = b"[[[{{{\\|^.$?";

/// How rich the atoms are: brackets and escapes make a pattern long. Cased atoms are rich ones about
/// letters of both cases and the bytes next to them.
#[derive(Clone, Copy, PartialEq)]
pub enum Taste {
    Plain,
    Rich,
    Cased,
}

pub fn tree(rng: &mut Rng, atoms: usize, taste: Taste) -> Pattern {
    let parts = split(rng, atoms, 25);
    let mut branches: Vec<Branch> = parts.into_iter().map(|part| branch(rng, part, taste)).collect();
    if rng.chance(6) {
        let place = rng.below(branches.len() + 1);
        branches.insert(place, bare_branch(rng));
    }
    Pattern { branches }
}

fn branch(rng: &mut Rng, atoms: usize, taste: Taste) -> Branch {
    let start = rng.chance(32);
    let end = rng.chance(38);
    Branch { start, end, pieces: pieces(rng, atoms, taste) }
}

/// No pieces, so at least one anchor.
fn bare_branch(rng: &mut Rng) -> Branch {
    let kind = rng.below(3);
    Branch { start: kind != 0, end: kind != 1, pieces: Vec::new() }
}

fn pieces(rng: &mut Rng, atoms: usize, taste: Taste) -> Vec<Piece> {
    let parts = split(rng, atoms, 70);
    parts.into_iter().map(|part| piece(rng, part, taste)).collect()
}

fn piece(rng: &mut Rng, atoms: usize, taste: Taste) -> Piece {
    let grouped = atoms > 1 || rng.chance(12);
    let core = if grouped {
        let parts = split(rng, atoms, 45);
        Core::Group(parts.into_iter().map(|part| pieces_of_alternative(rng, part, taste)).collect())
    } else {
        Core::Atom(atom(rng, taste))
    };
    Piece { core, mark: mark(rng) }
}

/// One atom alone must end the nesting at some time.
fn pieces_of_alternative(rng: &mut Rng, atoms: usize, taste: Taste) -> Vec<Piece> {
    if atoms == 1 {
        return vec![Piece { core: Core::Atom(atom(rng, taste)), mark: mark(rng) }];
    }
    pieces(rng, atoms, taste)
}

/// Cuts a number of atoms into parts of at least one; `percent` says how readily it cuts.
fn split(rng: &mut Rng, atoms: usize, percent: usize) -> Vec<usize> {
    let mut parts = vec![1];
    for _ in 1..atoms {
        if rng.chance(percent) {
            parts.push(1);
        } else if let Some(part) = parts.last_mut() {
            *part += 1;
        }
    }
    parts
}

pub fn mark(rng: &mut Rng) -> Mark {
    match rng.below(20) {
        0..=12 => Mark::Once,
        13..=15 => Mark::Star,
        16..=17 => Mark::Plus,
        _ => Mark::Maybe,
    }
}

fn atom(rng: &mut Rng, taste: Taste) -> Atom {
    let kind = if taste == Taste::Plain { 0 } else { rng.below(100) };
    let (common, odd, marks) = bytes_for(taste);
    match kind {
        0..=54 => plain(rng.pick(common)),
        55..=61 => Atom { text: vec![b'.'], set: any_key() },
        62..=68 => {
            let byte = rng.pick(marks);
            Atom { text: vec![b'\\', byte], set: one_key(byte) }
        }
        69..=91 => bracket_atom(rng, taste),
        _ => plain(rng.pick(odd)),
    }
}

/// Common plain bytes, rarer ones, and marks.
fn bytes_for(taste: Taste) -> (&'static [u8], &'static [u8], &'static [u8]) {
    match taste {
        Taste::Cased => (CASED, CASED_ODD, CASED_MARKS),
        Taste::Plain | Taste::Rich => (b"aaabbbc", ODD, MARKS),
    }
}

fn plain(byte: u8) -> Atom {
    Atom { text: vec![byte], set: one_key(byte) }
}
