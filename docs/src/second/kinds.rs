//! Each state of a pattern in three kinds, so that line ends of CR LF (document 02, S-4) need no look ahead and
//! none back: keys lead from set to set, wherever a run is cut.
//! - Plain: the last key was no CR, or there is none yet.
//! - After: the last key was a CR, and it was taken as a key.
//! - Before: the last key was a CR, and it was left to the LF that must come next.

use crate::line_ends::CR;
use crate::states::States;

/// A set of states of all kinds: s bits for each kind, plain ones lowest.
pub type Kinds = u128;

pub struct Machine<'a> {
    pub states: &'a States,
}

impl Machine<'_> {
    pub fn plain(&self, set: u64) -> Kinds {
        Kinds::from(set)
    }

    fn after(&self, set: u64) -> Kinds {
        Kinds::from(set) << self.states.s
    }

    pub fn before(&self, set: u64) -> Kinds {
        Kinds::from(set) << (2 * self.states.s)
    }

    /// How many states of all kinds there are.
    pub fn size(&self) -> usize {
        3 * self.states.s
    }

    /// The states of one kind, which stand so many bits up.
    fn part(&self, set: Kinds, up: usize) -> u64 {
        (set >> up) as u64 & ((1 << self.states.s) - 1)
    }

    /// Those of the plain kind.
    pub fn plain_part(&self, set: Kinds) -> u64 {
        self.part(set, 0)
    }

    /// The states reached by all keys.
    pub fn reached(&self, set: Kinds) -> u64 {
        self.plain_part(set) | self.part(set, self.states.s)
    }

    /// The states reached by all keys but a final CR; none without one.
    pub fn held(&self, set: Kinds) -> u64 {
        self.part(set, 2 * self.states.s)
    }

    /// One key other than LF. It ends what waited for an LF; a CR is taken, and left.
    pub fn lead(&self, set: Kinds, key: u8) -> Kinds {
        let from = self.reached(set);
        let to = self.states.moves_of_set(from, key);
        if key == CR {
            self.after(to) | self.before(from)
        } else {
            self.plain(to)
        }
    }

    /// From these an LF closes a line that matches: a CR that was taken should not have been.
    pub fn closing(&self) -> Kinds {
        self.plain(self.states.accepting) | self.before(self.states.accepting)
    }
}
