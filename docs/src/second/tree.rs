//! The tree of a pattern (document 01, "Patterns"): branches, pieces, groups and atoms.

/// Yes or no for every byte value.
pub type Set = [bool; 256];

#[derive(Clone, Debug, PartialEq)]
pub struct Pattern {
    pub branches: Vec<Branch>,
}

#[derive(Clone, Debug, PartialEq)]
pub struct Branch {
    /// Has `^`.
    pub start: bool,
    /// Has `$`.
    pub end: bool,
    pub pieces: Vec<Piece>,
}

#[derive(Clone, Debug, PartialEq)]
pub struct Piece {
    pub core: Core,
    pub mark: Mark,
}

#[derive(Clone, Debug, PartialEq)]
pub enum Core {
    Atom(Atom),
    Group(Vec<Vec<Piece>>),
}

/// An atom keeps the bytes it was written with, so that a tree can be written down again.
#[derive(Clone, Debug, PartialEq)]
pub struct Atom {
    pub text: Vec<u8>,
    pub set: Set,
}

#[derive(Clone, Copy, Debug, PartialEq)]
pub enum Mark {
    Once,
    Star,
    Plus,
    Maybe,
}

pub fn atoms_in(alternatives: &[Vec<Piece>]) -> usize {
    alternatives.iter().flatten().map(atoms_of_piece).sum()
}

fn atoms_of_piece(piece: &Piece) -> usize {
    match &piece.core {
        Core::Atom(_) => 1,
        Core::Group(alternatives) => atoms_in(alternatives),
    }
}

impl Pattern {
    pub fn atoms(&self) -> usize {
        self.branches.iter().flat_map(|branch| &branch.pieces).map(atoms_of_piece).sum()
    }

    /// The pattern's bytes.
    pub fn text(&self) -> Vec<u8> {
        let mut text = Vec::new();
        for (number, branch) in self.branches.iter().enumerate() {
            if number > 0 {
                text.push(b'|');
            }
            if branch.start {
                text.push(b'^');
            }
            write_pieces(&branch.pieces, &mut text);
            if branch.end {
                text.push(b'$');
            }
        }
        text
    }
}

fn write_pieces(pieces: &[Piece], text: &mut Vec<u8>) {
    for piece in pieces {
        match &piece.core {
            Core::Atom(atom) => text.extend_from_slice(&atom.text),
            Core::Group(alternatives) => write_group(alternatives, text),
        }
        match piece.mark {
            Mark::Once => {}
            Mark::Star => text.push(b'*'),
            Mark::Plus => text.push(b'+'),
            Mark::Maybe => text.push(b'?'),
        }
    }
}

fn write_group(alternatives: &[Vec<Piece>], text: &mut Vec<u8>) {
    text.push(b'(');
    for (number, pieces) in alternatives.iter().enumerate() {
        if number > 0 {
            text.push(b'|');
        }
        write_pieces(pieces, text);
    }
    text.push(b')');
}
