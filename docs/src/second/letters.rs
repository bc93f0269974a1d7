//! The choice of case (document 02, S-1), and what it does to a set.

use crate::tree::Set;

/// One choice for a whole question.
#[derive(Clone, Copy, Debug, PartialEq, Eq, PartialOrd, Ord)]
pub enum Letters {
    /// As document 01 has it: `A` and `a` are two keys like any others.
    Apart,
    /// Asked with case ignored.
    Alike,
}

pub const BOTH: [Letters; 2] = [Letters::Apart, Letters::Alike];

/// With case ignored, a letter 65 to 90 and the letter 32 above it are each in a set if either is.
pub fn fold(mut set: Set, letters: Letters) -> Set {
    if letters == Letters::Alike {
        for upper in 65..=90 {
            let either = set[upper] || set[upper + 32];
            set[upper] = either;
            set[upper + 32] = either;
        }
    }
    set
}
