//! Checks the choice of case (document 02, S-1): the sets by a second method, and what must hold of two
//! questions that differ in case or in the choice alone.

use crate::letters::{fold, Letters, BOTH};
use crate::make_letters::{mix, other_case};
use crate::make_line;
use crate::make_pattern::{pattern, sound_pattern};
use crate::make_question::taste_for;
use crate::make_tree::{tree, Taste};
use crate::meaning::line_matches;
use crate::parser;
use crate::question::Question;
use crate::rng::Rng;
use crate::selftest::Checks;
use crate::tree::*;

pub fn laws(rng: &mut Rng, checks: &mut Checks) {
    folding(rng, checks);
    refusals(rng, checks);
    let text = sound_pattern(rng, Taste::Cased);
    match BOTH.map(|letters| parser::read(&text, letters)) {
        [Ok(apart), Ok(alike)] => {
            sets(checks, &text, &apart, &alike);
            lines(rng, checks, &text, &apart, &alike);
        }
        _ => checks.check(false, || format!("refused: {}", text.escape_ascii())),
    }
    lowered(rng, checks);
}

/// Any set: nothing happens without the choice, a second folding does nothing, and only letters change.
fn folding(rng: &mut Rng, checks: &mut Checks) {
    let mut set = [false; 256];
    for holds in set.iter_mut() {
        *holds = rng.chance(20);
    }
    let folded = fold(set, Letters::Alike);
    let as_meant = (0..=255u8).all(|key| {
        let other = other_case(key).unwrap_or(key);
        folded[usize::from(key)] == (set[usize::from(key)] || set[usize::from(other)])
    });
    checks.check(as_meant, || String::from("folding: the letters, or a key that is none"));
    checks.check(fold(set, Letters::Apart) == set, || String::from("folding without the choice"));
    checks.check(fold(folded, Letters::Alike) == folded, || String::from("folding twice"));
}

/// Whether and how a pattern is refused, its form and its atoms do not depend on the choice.
fn refusals(rng: &mut Rng, checks: &mut Checks) {
    let taste = taste_for(rng, Letters::Alike);
    let text = pattern(rng, taste);
    let read = |letters| parser::read(&text, letters).map(|tree| (tree.text(), tree.atoms()));
    let same = read(Letters::Apart) == read(Letters::Alike);
    checks.check(same, || format!("the choice changes how this is read: {}", text.escape_ascii()));
}

/// A key is in the folded set if it or its other case was in it; behind a `^` if both were.
fn sets(checks: &mut Checks, text: &[u8], apart: &Pattern, alike: &Pattern) {
    for (one, folded) in atoms(apart).into_iter().zip(atoms(alike)) {
        let as_meant = (0..=255u8).all(|key| {
            let other = other_case(key).unwrap_or(key);
            let (here, there) = (one.set[usize::from(key)], one.set[usize::from(other)]);
            folded.set[usize::from(key)] == if negated(one) { here && there } else { here || there }
        });
        checks.check(as_meant, || format!("set of {} in {}", one.text.escape_ascii(), text.escape_ascii()));
    }
}

fn negated(atom: &Atom) -> bool {
    atom.text.starts_with(b"[^")
}

pub fn atoms(pattern: &Pattern) -> Vec<&Atom> {
    pattern.branches.iter().flat_map(|branch| atoms_of(&branch.pieces)).collect()
}

fn atoms_of(pieces: &[Piece]) -> Vec<&Atom> {
    pieces.iter().flat_map(atoms_of_piece).collect()
}

fn atoms_of_piece(piece: &Piece) -> Vec<&Atom> {
    match &piece.core {
        Core::Atom(atom) => vec![atom],
        Core::Group(alternatives) => alternatives.iter().flat_map(|pieces| atoms_of(pieces)).collect(),
    }
}

fn lines(rng: &mut Rng, checks: &mut Checks, text: &[u8], apart: &Pattern, alike: &Pattern) {
    let unturned = !atoms(apart).into_iter().any(negated);
    for letters in BOTH {
        let line = make_line::line(rng, &Question::new(letters, text));
        let shown = |what: &str| format!("{what}: {} on {}", text.escape_ascii(), line.escape_ascii());
        let [without, with] = [apart, alike].map(|tree| line_matches(tree, &line));
        let mut mixed = line.clone();
        mix(rng, &mut mixed);
        checks.check(with == line_matches(alike, &mixed), || shown("another case, another answer"));
        checks.check(with || !without || !unturned, || shown("the choice takes a match away"));
        let bare: Vec<u8> = line.iter().copied().filter(|&key| other_case(key).is_none()).collect();
        let same = line_matches(apart, &bare) == line_matches(alike, &bare);
        checks.check(same, || shown("the choice tells without letters"));
    }
}

/// A pattern of plain small letters, with case ignored, is that pattern on the line in small letters; and
/// the same pattern in capitals.
fn lowered(rng: &mut Rng, checks: &mut Checks) {
    let atoms = rng.between(1, 8);
    let plain = tree(rng, atoms, Taste::Plain);
    let text = plain.text();
    let question = Question::new(Letters::Alike, &text);
    let capitals = Question::new(Letters::Alike, &text.to_ascii_uppercase());
    let line = make_line::line(rng, &question);
    let expected = Ok(line_matches(&plain, &line.to_ascii_lowercase()));
    for asked in [question, capitals] {
        let answer = asked.read().map(|tree| line_matches(&tree, &line));
        checks.check(answer == expected, || {
            format!("in small letters: {} on {}", asked.pattern.escape_ascii(), line.escape_ascii())
        });
    }
}
