//! JOINING.md read a second time: every field of a join asked state by state, for the statements of fixed joins
//! and the self test.

use crate::report::Report;

/// Questions to one of the two reports.
struct Asked<'a> {
    report: &'a Report,
}

impl Asked<'_> {
    fn has_lf(&self) -> bool {
        self.report.flag != 0
    }

    /// Whether state `to` is in the row of state `from`.
    fn leads(&self, from: u64, to: u64) -> bool {
        from < self.report.s && self.has(self.report.rows[from as usize], to)
    }

    fn has(&self, set: u64, state: u64) -> bool {
        state < self.report.s && set & 1 << state != 0
    }

    fn empty(&self) -> bool {
        !self.has_lf() && self.leads(0, 0)
    }

    fn begins_with_lf(&self) -> bool {
        self.report.edges % 2 == 1
    }

    fn ends_in_cr(&self) -> bool {
        self.report.edges / 2 % 2 == 1
    }

    /// Whether some state is met by both questions.
    fn some(&self, one: impl Fn(u64) -> bool, other: impl Fn(u64) -> bool) -> bool {
        (0..self.report.s).any(|state| one(state) && other(state))
    }
}

/// The states that are answered with yes.
fn set(s: u64, holds: impl Fn(u64) -> bool) -> u64 {
    (0..s).filter(|&state| holds(state)).map(|state| 1 << state).sum()
}

/// Of two reports with the same s, from 3 to 32.
pub fn joined(left: &Report, right: &Report) -> Report {
    let (a, b) = (&Asked { report: left }, &Asked { report: right });
    let mut joined = Report::empty(left.s);
    if !a.has_lf() && !b.has_lf() {
        for from in 0..left.s {
            joined.rows[from as usize] =
                set(left.s, |to| a.some(|over| a.leads(from, over), |over| b.leads(over, to)));
        }
    } else {
        joined.heads = set(left.s, |state| heads(a, b, state));
        joined.tail = set(left.s, |state| tail(a, b, state));
        let lines = closed(a, b);
        joined.flag = lines.map_or(2, |_| 1);
        joined.closed = lines.unwrap_or(0);
    }
    joined.trimmed = set(left.s, |state| trimmed(a, b, state));
    let begins = a.begins_with_lf() || (a.empty() && b.begins_with_lf());
    let ends = b.ends_in_cr() || (b.empty() && a.ends_in_cr());
    joined.edges = match (begins, ends) {
        (false, false) => 0,
        (true, false) => 1,
        (false, true) => 2,
        (true, true) => 3,
    };
    joined
}

fn heads(a: &Asked, b: &Asked, state: u64) -> bool {
    if a.has_lf() {
        a.has(a.report.heads, state)
    } else if a.ends_in_cr() && b.begins_with_lf() {
        a.has(a.report.trimmed, state)
    } else {
        a.some(|over| a.leads(state, over), |over| b.has(b.report.heads, over))
    }
}

fn tail(a: &Asked, b: &Asked, state: u64) -> bool {
    if b.has_lf() {
        b.has(b.report.tail, state)
    } else {
        a.some(|over| a.has(a.report.tail, over), |over| b.leads(over, state))
    }
}

fn trimmed(a: &Asked, b: &Asked, state: u64) -> bool {
    if b.has_lf() {
        return b.has(b.report.trimmed, state);
    }
    let reached = |over| if a.has_lf() { a.has(a.report.tail, over) } else { a.leads(state, over) };
    let through = a.some(reached, |over| b.has(b.report.trimmed, over));
    let asked = !a.has_lf() || state == 0;
    asked && through || b.empty() && a.has(a.report.trimmed, state)
}

/// Closed lines of both and the one across; nothing if over 2^64 - 1, as a flag over 1 says of its report.
fn closed(a: &Asked, b: &Asked) -> Option<u64> {
    let own = |asked: &Asked| match asked.report.flag {
        0 => Some(0),
        1 => Some(u128::from(asked.report.closed)),
        _ => None,
    };
    let both = own(a)? + own(b)?;
    let across = if !(a.has_lf() && b.has_lf()) {
        false
    } else if a.ends_in_cr() && b.begins_with_lf() {
        a.has(a.report.trimmed, 0)
    } else {
        a.some(|state| a.has(a.report.tail, state), |state| b.has(b.report.heads, state))
    };
    u64::try_from(both + u128::from(across)).ok()
}
