//! Seeded brackets, kept to the form of document 01, with the set they are meant to have.

use crate::bracket::finish;
use crate::classes::{Class, CLASSES};
use crate::make_tree::Taste;
use crate::rng::Rng;
use crate::tree::{Atom, Set};

/// Bytes that are telling inside a bracket: letters of the small alphabet, marks that are plain there,
/// ends of the class ranges and bytes above 127.
const TELLING: &[u8] = b"aaabbbccdx.*[\\^${}()|+?:=,09AZz@`\t\r !/~\x7f\x01\x80\xc3\xff";
/// Letters of both cases, the bytes next to them, and what is 32 away from others.
const CASED: &[u8] = b"aaabbckmyzAAABBCKMYZ@@[[``{{_|\\^!;\xc1\xc1\xe1\xe1\xda\xfa";

struct Maker {
    taste: Taste,
    text: Vec<u8>,
    set: Set,
}

pub fn bracket_atom(rng: &mut Rng, taste: Taste) -> Atom {
    let negated = rng.chance(if taste == Taste::Cased { 40 } else { 30 });
    let mut maker = Maker { taste, text: vec![b'['], set: [false; 256] };
    if negated {
        maker.text.push(b'^');
    }
    if rng.chance(25) {
        maker.leading(rng);
    }
    let bare = maker.text.len() - usize::from(negated) == 1;
    let wanted = rng.below(3) + usize::from(bare);
    for _ in 0..wanted {
        maker.element(rng);
    }
    if rng.chance(15) {
        maker.single(b'-');
    }
    maker.text.push(b']');
    Atom { text: maker.text, set: finish(maker.set, negated) }
}

impl Maker {
    fn single(&mut self, byte: u8) {
        self.text.push(byte);
        self.set[usize::from(byte)] = true;
    }

    fn range(&mut self, low: u8, high: u8) {
        self.text.extend_from_slice(&[low, b'-', high]);
        for value in low..=high {
            self.set[usize::from(value)] = true;
        }
    }

    /// `]` or `-` as first element, alone or as a range's start.
    fn leading(&mut self, rng: &mut Rng) {
        let byte = rng.pick(b"]-");
        if rng.chance(60) {
            return self.single(byte);
        }
        let high = rng.between(usize::from(byte), 255) as u8;
        let high = if high == b']' { b'a' } else { high };
        self.range(byte, high.max(byte));
    }

    fn element(&mut self, rng: &mut Rng) {
        match rng.below(10) {
            0..=4 => {
                let byte = self.fitting(rng.pick(self.telling()));
                self.single(byte);
            }
            5..=7 => self.some_range(rng),
            _ => self.class(rng),
        }
    }

    /// With both cases a range may go from one case into the other.
    fn some_range(&mut self, rng: &mut Rng) {
        let low = self.fitting(rng.pick(self.telling()));
        let reach = rng.below(if self.taste == Taste::Cased { 40 } else { 12 }) as u8;
        let near = low.saturating_add(reach);
        let high = if rng.chance(20) && low <= b'-' { b'-' } else { near };
        // A `]` cannot end a range, and LF cannot stand in a pattern.
        let high = if high == b']' || high == 10 { high + 1 } else { high };
        self.range(low, high);
    }

    fn class(&mut self, rng: &mut Rng) {
        let (name, ranges) = self.some_class(rng);
        self.text.extend_from_slice(format!("[:{name}:]").as_bytes());
        for &(low, high) in ranges {
            for value in low..=high {
                self.set[usize::from(value)] = true;
            }
        }
    }

    /// `upper` and `lower` stand first among the classes.
    fn some_class(&self, rng: &mut Rng) -> Class {
        if self.taste == Taste::Cased && rng.chance(60) {
            rng.pick(&CLASSES[..2])
        } else {
            rng.pick(&CLASSES)
        }
    }

    fn telling(&self) -> &'static [u8] {
        if self.taste == Taste::Cased {
            CASED
        } else {
            TELLING
        }
    }

    /// A `^` at the very front would negate, and behind a `[` some bytes would begin a name.
    fn fitting(&self, byte: u8) -> u8 {
        let opening = self.text.len() == 1;
        let after_bracket = !opening && self.text.last() == Some(&b'[');
        if (opening && byte == b'^') || (after_bracket && b".=:".contains(&byte)) {
            b'a'
        } else {
            byte
        }
    }
}
