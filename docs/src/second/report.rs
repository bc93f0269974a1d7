//! A report (document 01, "Reports"; document 02, S-4).

use crate::states::{holds, States, FIRST_ATOM, LINE_START};

pub const MOST_STATES: usize = 32;
/// The run begins with LF.
pub const BEGINS_WITH_LF: u64 = 1;
/// The run ends in CR.
pub const ENDS_IN_CR: u64 = 2;
/// A macro's work words besides its rows.
const OTHER_WORDS: usize = 6;

#[derive(Clone, Debug, PartialEq)]
pub struct Report {
    pub s: u64,
    pub rows: [u64; MOST_STATES],
    pub flag: u64,
    pub heads: u64,
    pub closed: u64,
    pub tail: u64,
    /// The states from which the keys since the last LF, less a final CR, are accepted.
    pub trimmed: u64,
    /// How the run begins and ends.
    pub edges: u64,
}

/// How many work words a count of macro `number` needs under a pattern of so many atoms.
pub fn words_needed(number: usize, atoms: usize) -> usize {
    (number + 1) * (atoms + FIRST_ATOM + OTHER_WORDS)
}

impl Report {
    pub fn empty(s: u64) -> Report {
        Report { s, rows: [0; MOST_STATES], flag: 0, heads: 0, closed: 0, tail: 0, trimmed: 0, edges: 0 }
    }

    /// The report as work words: rows, flag, heads, closed, tail and the two of S-4.
    pub fn words(&self) -> Vec<u64> {
        let mut words = self.rows[..self.s as usize].to_vec();
        words.extend_from_slice(&self.fields());
        words
    }

    /// What stands behind the rows, in this order.
    pub fn fields(&self) -> [u64; OTHER_WORDS] {
        [self.flag, self.heads, self.closed, self.tail, self.trimmed, self.edges]
    }

    /// Matching lines of the whole run, which has at least one key; nothing if over 2^64 - 1.
    pub fn lines(&self, states: &States) -> Option<u64> {
        if self.flag == 0 {
            return Some(u64::from(states.accepts(self.rows[LINE_START])));
        }
        if self.flag == 2 {
            return None;
        }
        let head = u64::from(holds(self.heads, LINE_START));
        // Line-start is left by every key, so it is in the tail only if no key follows the last LF.
        let open = !holds(self.tail, LINE_START) && states.accepts(self.tail);
        self.closed.checked_add(head)?.checked_add(u64::from(open))
    }
}
