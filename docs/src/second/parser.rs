//! The pattern reader (document 01, "Patterns"): refusals 7, then 8 over the whole pattern, then 9.

use crate::bracket::{bracket, finish};
use crate::letters::{fold, Letters};
use crate::refusal::*;
use crate::tree::*;

pub const MOST_BYTES: usize = 128;
pub const MOST_ATOMS: usize = 29;
/// The twelve marks: no plain bytes, and the only bytes that `\` may stand before.
pub const MARKS: &[u8; 12] = b"^.[$()|*+?{\\";

pub struct Reader<'a> {
    bytes: &'a [u8],
    at: usize,
    letters: Letters,
}

pub fn read(pattern: &[u8], letters: Letters) -> Result<Pattern, Refusal> {
    if pattern.is_empty() || pattern.len() > MOST_BYTES {
        return Err(PATTERN_LENGTH);
    }
    if pattern.contains(&0) || pattern.contains(&10) {
        return Err(BAD_PATTERN);
    }
    let mut reader = Reader { bytes: pattern, at: 0, letters };
    let tree = reader.pattern()?;
    if reader.at != pattern.len() {
        return Err(BAD_PATTERN);
    }
    if tree.atoms() > MOST_ATOMS {
        return Err(TOO_MANY_ATOMS);
    }
    Ok(tree)
}

impl Reader<'_> {
    pub fn peek(&self, ahead: usize) -> Option<u8> {
        self.bytes.get(self.at + ahead).copied()
    }

    pub fn next(&mut self) -> Option<u8> {
        let byte = self.peek(0);
        self.at += 1;
        byte
    }

    pub fn eat(&mut self, byte: u8) -> bool {
        let found = self.peek(0) == Some(byte);
        if found {
            self.at += 1;
        }
        found
    }

    pub fn eat_all(&mut self, text: &[u8]) -> bool {
        let found = self.bytes[self.at..].starts_with(text);
        if found {
            self.at += text.len();
        }
        found
    }

    fn pattern(&mut self) -> Result<Pattern, Refusal> {
        let mut branches = vec![self.branch()?];
        while self.eat(b'|') {
            branches.push(self.branch()?);
        }
        Ok(Pattern { branches })
    }

    /// With no anchor a branch needs a piece.
    fn branch(&mut self) -> Result<Branch, Refusal> {
        let start = self.eat(b'^');
        let pieces = self.pieces()?;
        let end = self.eat(b'$');
        if pieces.is_empty() && !start && !end {
            return Err(BAD_PATTERN);
        }
        Ok(Branch { start, end, pieces })
    }

    /// Stops at the first byte that begins no piece; whoever asked decides whether it may stand there.
    fn pieces(&mut self) -> Result<Vec<Piece>, Refusal> {
        let mut pieces = Vec::new();
        while let Some(byte) = self.peek(0) {
            if b"^$|)*+?{".contains(&byte) {
                break;
            }
            let core = self.core()?;
            let mark = self.mark();
            pieces.push(Piece { core, mark });
        }
        Ok(pieces)
    }

    fn mark(&mut self) -> Mark {
        if self.eat(b'*') {
            Mark::Star
        } else if self.eat(b'+') {
            Mark::Plus
        } else if self.eat(b'?') {
            Mark::Maybe
        } else {
            Mark::Once
        }
    }

    fn core(&mut self) -> Result<Core, Refusal> {
        if self.eat(b'(') {
            return self.group();
        }
        let from = self.at;
        let set = self.atom_set()?;
        let text = self.bytes[from..self.at].to_vec();
        Ok(Core::Atom(Atom { text, set }))
    }

    /// Alternatives without anchors, each with at least one piece, up to the `)`.
    fn group(&mut self) -> Result<Core, Refusal> {
        let mut alternatives = Vec::new();
        loop {
            let pieces = self.pieces()?;
            if pieces.is_empty() {
                return Err(BAD_PATTERN);
            }
            alternatives.push(pieces);
            if !self.eat(b'|') {
                break;
            }
        }
        if self.eat(b')') {
            Ok(Core::Group(alternatives))
        } else {
            Err(BAD_PATTERN)
        }
    }

    /// The keys named, then the folding, then the turn by a leading `^`, then 0 and LF out.
    fn atom_set(&mut self) -> Result<Set, Refusal> {
        let (named, negated) = match self.next() {
            Some(b'.') => (any_key(), false),
            Some(b'[') => bracket(self)?,
            Some(b'\\') => (self.escaped()?, false),
            Some(byte) if !MARKS.contains(&byte) => (one_key(byte), false),
            _ => return Err(BAD_PATTERN),
        };
        Ok(finish(fold(named, self.letters), negated))
    }

    fn escaped(&mut self) -> Result<Set, Refusal> {
        match self.next() {
            Some(byte) if MARKS.contains(&byte) => Ok(one_key(byte)),
            _ => Err(BAD_PATTERN),
        }
    }
}

/// `.`: every key but LF.
pub fn any_key() -> Set {
    let mut set = [true; 256];
    set[0] = false;
    set[10] = false;
    set
}

pub fn one_key(byte: u8) -> Set {
    let mut set = [false; 256];
    set[usize::from(byte)] = true;
    set
}
