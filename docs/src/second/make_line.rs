//! Seeded lines and runs, mostly derived from the pattern they are meant for.

use crate::letters::Letters;
use crate::line_ends::CR;
use crate::make_letters::change_case;
use crate::make_pattern::damage;
use crate::make_returns;
use crate::meaning::line_matches;
use crate::question::Question;
use crate::rng::Rng;
use crate::tree::*;

const KEYS: &[u8] = b"aaabbbcc]-.x";
/// Letters of both cases, the keys next to them, and two that differ by 32, for questions with case ignored.
const CASED_KEYS: &[u8] = b"aaabbckzAAABBCKZ@[`{\xc1\xe1]-.x";
const ODD: &[u8] = b"\t\r\x01 /09AZz@[`{~\x7f\x80\x9b\xc3\xff\\^$()|*+?}=:,";

fn keys_for(letters: Letters) -> &'static [u8] {
    match letters {
        Letters::Apart => KEYS,
        Letters::Alike => CASED_KEYS,
    }
}

/// A line for a pattern, sound or not; never with LF or 0.
pub fn line(rng: &mut Rng, question: &Question) -> Vec<u8> {
    let keys = keys_for(question.letters);
    let mut line = match question.read() {
        Ok(tree) if rng.chance(45) => near_miss(rng, &tree, keys),
        Ok(tree) if rng.chance(75) => derived(rng, &tree, keys),
        _ => random_line(rng, keys),
    };
    if rng.chance(15) {
        damage(rng, &mut line, keys);
    }
    change_case(rng, question.letters, &mut line);
    if rng.chance(6) {
        line.push(CR);
    }
    line.retain(|&key| key != 0 && key != 10);
    line
}

/// A derived line, damaged until it no longer matches or some tries are over.
fn near_miss(rng: &mut Rng, tree: &Pattern, keys: &[u8]) -> Vec<u8> {
    let mut line = derived(rng, tree, keys);
    for _ in 0..12 {
        if !line_matches(tree, &line) {
            break;
        }
        damage(rng, &mut line, keys);
        if rng.chance(40) {
            let place = rng.below(line.len() + 1);
            line.truncate(place);
        }
    }
    line
}

fn random_line(rng: &mut Rng, keys: &[u8]) -> Vec<u8> {
    (0..rng.below(9)).map(|_| if rng.chance(10) { rng.pick(ODD) } else { rng.pick(keys) }).collect()
}

/// What one branch takes, with more keys around it, which an anchor may forbid.
fn derived(rng: &mut Rng, tree: &Pattern, keys: &[u8]) -> Vec<u8> {
    let branch = &tree.branches[rng.below(tree.branches.len())];
    let mut line = Vec::new();
    if rng.chance(if branch.start { 15 } else { 45 }) {
        line.extend(random_line(rng, keys));
    }
    taken(rng, &branch.pieces, keys, &mut line);
    if rng.chance(if branch.end { 15 } else { 45 }) {
        line.extend(random_line(rng, keys));
    }
    line
}

/// Some text that the pieces take.
fn taken(rng: &mut Rng, pieces: &[Piece], keys: &[u8], line: &mut Vec<u8>) {
    for piece in pieces {
        // Deep marks multiply; a line stays short.
        let most = if line.len() > 60 { 1 } else { 3 };
        let times = match piece.mark {
            Mark::Once => 1,
            Mark::Maybe => rng.below(2),
            Mark::Star => rng.below(most + 1),
            Mark::Plus => rng.between(1, most),
        };
        for _ in 0..times {
            match &piece.core {
                Core::Atom(atom) => line.push(key_of(rng, &atom.set, keys)),
                Core::Group(alternatives) => {
                    let chosen = rng.below(alternatives.len());
                    taken(rng, &alternatives[chosen], keys, line);
                }
            }
        }
    }
}

/// A key of the set, preferably a common one; any key if the set is empty.
fn key_of(rng: &mut Rng, set: &Set, keys: &[u8]) -> u8 {
    let common: Vec<u8> = keys.iter().copied().filter(|&key| set[usize::from(key)]).collect();
    if !common.is_empty() && rng.chance(80) {
        return rng.pick(&common);
    }
    let all: Vec<u8> = (1..=255u8).filter(|&key| set[usize::from(key)]).collect();
    if all.is_empty() {
        rng.pick(keys)
    } else {
        rng.pick(&all)
    }
}

/// Some lines, each closed, the last one sometimes not; sometimes empty, sometimes hardly more than a line end.
pub fn run(rng: &mut Rng, question: &Question) -> Vec<u8> {
    if rng.chance(4) {
        return make_returns::lone(rng).to_vec();
    }
    let style = make_returns::style(rng);
    let mut run = Vec::new();
    for _ in 0..rng.below(7) {
        if rng.chance(85) {
            run.extend(line(rng, question));
        }
        run.extend_from_slice(make_returns::end(rng, style));
    }
    if rng.chance(45) {
        run.extend(line(rng, question));
    }
    make_returns::stray(rng, &mut run);
    run
}
