//! What can come first, follow, end or match nothing, by the pattern's form alone
//! (document 01, "States and steps"). A set of atoms is a number with bit k for atom k.

use crate::tree::*;

/// What holds of a part of the pattern.
#[derive(Clone, Copy)]
pub struct Form {
    pub nothing: bool,
    pub first: u64,
    pub last: u64,
}

/// The atoms' sets, numbered left to right, and for each atom those that can follow it.
#[derive(Default)]
pub struct Atoms {
    pub sets: Vec<Set>,
    pub follow: Vec<u64>,
}

impl Atoms {
    /// Parts one after another; no parts at all match nothing and have no atoms.
    pub fn pieces(&mut self, pieces: &[Piece]) -> Form {
        let mut whole = Form { nothing: true, first: 0, last: 0 };
        for piece in pieces {
            let next = self.piece(piece);
            self.link(whole.last, next.first);
            whole = Form {
                nothing: whole.nothing && next.nothing,
                first: whole.first | if whole.nothing { next.first } else { 0 },
                last: next.last | if next.nothing { whole.last } else { 0 },
            };
        }
        whole
    }

    fn piece(&mut self, piece: &Piece) -> Form {
        let once = self.core(&piece.core);
        if matches!(piece.mark, Mark::Star | Mark::Plus) {
            // Once more behind itself.
            self.link(once.last, once.first);
        }
        let skipped = matches!(piece.mark, Mark::Star | Mark::Maybe);
        Form { nothing: once.nothing || skipped, ..once }
    }

    fn core(&mut self, core: &Core) -> Form {
        match core {
            Core::Atom(atom) => self.atom(atom),
            Core::Group(alternatives) => self.group(alternatives),
        }
    }

    fn atom(&mut self, atom: &Atom) -> Form {
        let bit = 1 << self.sets.len();
        self.sets.push(atom.set);
        self.follow.push(0);
        Form { nothing: false, first: bit, last: bit }
    }

    fn group(&mut self, alternatives: &[Vec<Piece>]) -> Form {
        let mut whole = Form { nothing: false, first: 0, last: 0 };
        for pieces in alternatives {
            let one = self.pieces(pieces);
            whole.nothing |= one.nothing;
            whole.first |= one.first;
            whole.last |= one.last;
        }
        whole
    }

    /// Each of `next` can follow each of `before`.
    fn link(&mut self, before: u64, next: u64) {
        for (number, follow) in self.follow.iter_mut().enumerate() {
            if before >> number & 1 == 1 {
                *follow |= next;
            }
        }
    }
}
