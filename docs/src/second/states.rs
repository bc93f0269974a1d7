//! The states of a pattern and their moves (document 01, "States and steps"). A set of states is a
//! number with bit q for state q.

use crate::form::{Atoms, Form};
use crate::tree::*;

pub const LINE_START: usize = 0;
pub const MID_LINE: usize = 1;
pub const FOUND: usize = 2;
pub const FIRST_ATOM: usize = 3;

pub struct States {
    /// How many states there are.
    pub s: usize,
    pub accepting: u64,
    /// The states that each state moves to on every key.
    always: Vec<u64>,
    /// The atoms' states that each state moves into if the key is in the atom's set.
    into: Vec<u64>,
    /// The atoms' states whose move also enters found.
    enters_found: u64,
    /// For each key the atoms' states whose set has it.
    having: Vec<u64>,
}

pub fn bit(state: usize) -> u64 {
    1 << state
}

pub fn holds(set: u64, state: usize) -> bool {
    set >> state & 1 == 1
}

impl States {
    pub fn of(pattern: &Pattern) -> States {
        let mut atoms = Atoms::default();
        let forms: Vec<Form> = pattern.branches.iter().map(|branch| atoms.pieces(&branch.pieces)).collect();
        let mut states = States::bare(&atoms);
        for (branch, form) in pattern.branches.iter().zip(forms) {
            states.add_branch(branch, form);
        }
        states
    }

    /// The moves that hold without looking at the branches.
    fn bare(atoms: &Atoms) -> States {
        let s = FIRST_ATOM + atoms.sets.len();
        let mut always = vec![0; s];
        always[LINE_START] = bit(MID_LINE);
        always[MID_LINE] = bit(MID_LINE);
        always[FOUND] = bit(FOUND);
        let mut into = vec![0; FIRST_ATOM];
        into.extend(atoms.follow.iter().map(|&follow| follow << FIRST_ATOM));
        let having = (0..256).map(|key| atoms_having(&atoms.sets, key)).collect();
        States { s, accepting: bit(FOUND), always, into, enters_found: 0, having }
    }

    fn add_branch(&mut self, branch: &Branch, form: Form) {
        let first = form.first << FIRST_ATOM;
        let last = form.last << FIRST_ATOM;
        self.into[LINE_START] |= first;
        if !branch.start {
            self.into[MID_LINE] |= first;
        }
        if branch.end {
            self.accepting |= last;
        } else {
            self.enters_found |= last;
        }
        if form.nothing {
            self.accepting |= bit(LINE_START);
            if !(branch.start && branch.end) {
                self.always[LINE_START] |= bit(FOUND);
            }
        }
    }

    /// The states reached from one state by one key other than LF.
    pub fn moves(&self, state: usize, key: u8) -> u64 {
        let entered = self.into[state] & self.having[usize::from(key)];
        let found = if entered & self.enters_found != 0 { bit(FOUND) } else { 0 };
        self.always[state] | entered | found
    }

    /// The states reached from any state of a set by one key other than LF.
    pub fn moves_of_set(&self, set: u64, key: u8) -> u64 {
        let mut reached = 0;
        let mut left = set;
        while left != 0 {
            reached |= self.moves(left.trailing_zeros() as usize, key);
            left &= left - 1;
        }
        reached
    }

    /// The states reached from one state by keys without LF.
    pub fn after(&self, state: usize, keys: &[u8]) -> u64 {
        keys.iter().fold(bit(state), |set, &key| self.moves_of_set(set, key))
    }

    pub fn accepts(&self, set: u64) -> bool {
        set & self.accepting != 0
    }
}

fn atoms_having(sets: &[Set], key: usize) -> u64 {
    let mut having = 0;
    for (number, set) in sets.iter().enumerate() {
        if set[key] {
            having |= bit(FIRST_ATOM + number);
        }
    }
    having
}
