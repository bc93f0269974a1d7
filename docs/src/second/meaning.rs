//! The line test by the meaning (document 01, "Patterns", last paragraph). No states here: a part of
//! the pattern is asked where it can end when it may begin at any of some places in the line.

use crate::line_ends::lines;
use crate::tree::*;
use std::collections::{BTreeSet, HashMap};

/// Places in a line, ascending, each once; place n stands behind n keys.
type Places = Vec<usize>;

pub fn line_matches(pattern: &Pattern, line: &[u8]) -> bool {
    pattern.branches.iter().any(|branch| branch_matches(branch, line))
}

fn branch_matches(branch: &Branch, line: &[u8]) -> bool {
    let starts: Places = if branch.start { vec![0] } else { (0..=line.len()).collect() };
    let ends = after_pieces(&branch.pieces, line, starts);
    if branch.end {
        ends.contains(&line.len())
    } else {
        !ends.is_empty()
    }
}

fn after_pieces(pieces: &[Piece], line: &[u8], starts: Places) -> Places {
    pieces.iter().fold(starts, |places, piece| after_piece(piece, line, places))
}

fn after_piece(piece: &Piece, line: &[u8], starts: Places) -> Places {
    match piece.mark {
        Mark::Once => after_core(&piece.core, line, &starts),
        Mark::Maybe => {
            let once = after_core(&piece.core, line, &starts);
            merged(starts, once)
        }
        Mark::Star => any_number(&piece.core, line, starts),
        Mark::Plus => {
            let once = after_core(&piece.core, line, &starts);
            any_number(&piece.core, line, once)
        }
    }
}

/// None, once, twice and so on, until one more time reaches no new place.
fn any_number(core: &Core, line: &[u8], starts: Places) -> Places {
    let mut seen: BTreeSet<usize> = starts.iter().copied().collect();
    let mut fresh = starts;
    while !fresh.is_empty() {
        let ends = after_core(core, line, &fresh);
        fresh = ends.into_iter().filter(|&end| seen.insert(end)).collect();
    }
    seen.into_iter().collect()
}

fn after_core(core: &Core, line: &[u8], starts: &Places) -> Places {
    match core {
        Core::Atom(atom) => starts
            .iter()
            .copied()
            .filter(|&start| start < line.len() && atom.set[usize::from(line[start])])
            .map(|start| start + 1)
            .collect(),
        Core::Group(alternatives) => alternatives
            .iter()
            .map(|pieces| after_pieces(pieces, line, starts.clone()))
            .fold(Vec::new(), merged),
    }
}

fn merged(one: Places, other: Places) -> Places {
    if one.is_empty() {
        return other;
    }
    let both: BTreeSet<usize> = one.into_iter().chain(other).collect();
    both.into_iter().collect()
}

/// Asks each different line once only: long runs repeat their lines.
pub struct Tester<'a> {
    pattern: &'a Pattern,
    known: HashMap<Vec<u8>, bool>,
}

impl<'a> Tester<'a> {
    pub fn new(pattern: &'a Pattern) -> Tester<'a> {
        Tester { pattern, known: HashMap::new() }
    }

    pub fn matches(&mut self, line: &[u8]) -> bool {
        if let Some(&known) = self.known.get(line) {
            return known;
        }
        let answer = line_matches(self.pattern, line);
        self.known.insert(line.to_vec(), answer);
        answer
    }

    /// How many lines of a run match.
    pub fn count(&mut self, run: &[u8]) -> u64 {
        lines(run).iter().map(|line| u64::from(self.matches(line))).sum()
    }
}
