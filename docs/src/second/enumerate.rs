//! What a pattern takes, listed text by text over a few keys: a slow third view of the meaning.

use crate::tree::*;
use std::collections::BTreeSet;

type Texts = BTreeSet<Vec<u8>>;

pub const KEYS: &[u8] = b"abAx";
pub const MOST: usize = 4;

/// All lines of at most MOST of the keys.
pub fn all_lines() -> Texts {
    let mut lines: Texts = BTreeSet::from([Vec::new()]);
    for _ in 0..MOST {
        let longer: Vec<Vec<u8>> =
            lines.iter().flat_map(|line| KEYS.iter().map(move |&key| [&line[..], &[key]].concat())).collect();
        lines.extend(longer);
    }
    lines
}

/// The texts that each branch takes, as far as they are short enough.
pub fn branch_texts(pattern: &Pattern) -> Vec<Texts> {
    pattern.branches.iter().map(|branch| of_pieces(&branch.pieces)).collect()
}

/// Whether a branch takes a part of the line that its anchors allow.
pub fn line_matches(pattern: &Pattern, texts: &[Texts], line: &[u8]) -> bool {
    pattern.branches.iter().zip(texts).any(|(branch, texts)| {
        texts.iter().any(|text| match (branch.start, branch.end) {
            (true, true) => line == &text[..],
            (true, false) => line.starts_with(text),
            (false, true) => line.ends_with(text),
            (false, false) => text.is_empty() || line.windows(text.len()).any(|part| part == &text[..]),
        })
    })
}

fn of_pieces(pieces: &[Piece]) -> Texts {
    pieces.iter().fold(BTreeSet::from([Vec::new()]), |texts, piece| behind(&texts, &of_piece(piece)))
}

/// Every text of the one list followed by every text of the other.
fn behind(first: &Texts, next: &Texts) -> Texts {
    let mut both = Texts::new();
    for one in first {
        for other in next.iter().filter(|other| one.len() + other.len() <= MOST) {
            both.insert([&one[..], &other[..]].concat());
        }
    }
    both
}

fn of_piece(piece: &Piece) -> Texts {
    let once = match &piece.core {
        Core::Atom(atom) => {
            KEYS.iter().filter(|&&key| atom.set[usize::from(key)]).map(|&key| vec![key]).collect()
        }
        Core::Group(alternatives) => alternatives.iter().flat_map(|pieces| of_pieces(pieces)).collect(),
    };
    let nothing: Texts = BTreeSet::from([Vec::new()]);
    match piece.mark {
        Mark::Once => once,
        Mark::Maybe => &once | &nothing,
        Mark::Plus => repeated(once.clone(), &once),
        Mark::Star => repeated(nothing, &once),
    }
}

/// Once more and once more, until nothing new is short enough.
fn repeated(mut texts: Texts, once: &Texts) -> Texts {
    loop {
        let more = &behind(&texts, once) | &texts;
        if more == texts {
            return texts;
        }
        texts = more;
    }
}
