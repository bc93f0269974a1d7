//! The joining of two reports as a plain operation on any numbers (document 01, "Reports"; for the two words
//! of document 02, S-4, JOINING.md).

use crate::refusal::{Refusal, UNLIKE_REPORTS};
use crate::report::{Report, BEGINS_WITH_LF, ENDS_IN_CR, MOST_STATES};
use crate::states::{bit, holds, FOUND, LINE_START};

pub fn join(left: &Report, right: &Report) -> Result<Report, Refusal> {
    let least = FOUND as u64 + 1;
    if left.s != right.s || left.s < least || left.s > MOST_STATES as u64 {
        return Err(UNLIKE_REPORTS);
    }
    let (left, right) = (Part::of(left), Part::of(right));
    let mut joined = match (left.report.flag, right.report.flag) {
        (0, 0) => join_open(&left, &right),
        (0, _) => join_before_first(&left, &right),
        (_, 0) => join_behind_last(&left, &right),
        _ => join_closed(&left, &right),
    };
    joined.edges = edges(&left, &right);
    Ok(joined)
}

/// What a join reads of a report.
struct Part {
    /// Without rows and state bits at s and above and without the fields that the flag empties.
    report: Report,
    begins_with_lf: bool,
    ends_in_cr: bool,
    /// Without LF, and line-start leads to line-start: no keys at all.
    empty: bool,
}

impl Part {
    fn of(given: &Report) -> Part {
        let report = cleaned(given);
        Part {
            begins_with_lf: given.edges & BEGINS_WITH_LF != 0,
            ends_in_cr: given.edges & ENDS_IN_CR != 0,
            empty: report.flag == 0 && holds(report.rows[LINE_START], LINE_START),
            report,
        }
    }

    /// The states reached by this run, which has no LF, from a set of states.
    fn through(&self, set: u64) -> u64 {
        let rows = self.report.rows.iter().enumerate();
        rows.filter(|(state, _)| holds(set, *state)).fold(0, |all, (_, row)| all | row)
    }

    /// The states from which this run, which has no LF, leads into a set.
    fn leading_into(&self, set: u64) -> u64 {
        let rows = self.report.rows.iter().enumerate();
        rows.filter(|(_, row)| *row & set != 0).fold(0, |all, (state, _)| all | bit(state))
    }
}

fn cleaned(given: &Report) -> Report {
    let s = given.s as usize;
    let known = (1u64 << s) - 1;
    let mut clean = Report::empty(given.s);
    clean.flag = given.flag.min(2);
    clean.trimmed = given.trimmed & known;
    if clean.flag == 0 {
        for (row, given) in clean.rows.iter_mut().zip(&given.rows[..s]) {
            *row = given & known;
        }
        return clean;
    }
    clean.heads = given.heads & known;
    clean.tail = given.tail & known;
    clean.closed = if clean.flag == 1 { given.closed } else { 0 };
    clean
}

/// A CR and an LF meet.
fn seam(left: &Part, right: &Part) -> bool {
    left.ends_in_cr && right.begins_with_lf
}

fn edges(left: &Part, right: &Part) -> u64 {
    let begins = left.begins_with_lf || left.empty && right.begins_with_lf;
    let ends = right.ends_in_cr || right.empty && left.ends_in_cr;
    BEGINS_WITH_LF * u64::from(begins) + ENDS_IN_CR * u64::from(ends)
}

/// What the left run's word gives where nothing stands behind it.
fn kept(left: &Part, right: &Part) -> u64 {
    if right.empty {
        left.report.trimmed
    } else {
        0
    }
}

fn join_open(left: &Part, right: &Part) -> Report {
    let mut joined = Report::empty(left.report.s);
    for (row, given) in joined.rows.iter_mut().zip(&left.report.rows) {
        *row = right.through(*given);
    }
    joined.trimmed = left.leading_into(right.report.trimmed) | kept(left, right);
    joined
}

/// The left run lengthens the right one's first line, without the CR that its LF takes.
fn join_before_first(left: &Part, right: &Part) -> Report {
    let mut joined = right.report.clone();
    joined.heads =
        if seam(left, right) { left.report.trimmed } else { left.leading_into(right.report.heads) };
    joined
}

/// The right run lengthens what stands behind the left one's last LF.
fn join_behind_last(left: &Part, right: &Part) -> Report {
    let mut joined = left.report.clone();
    joined.tail = right.through(left.report.tail);
    joined.trimmed = kept(left, right);
    if left.report.tail & right.report.trimmed != 0 {
        joined.trimmed |= bit(LINE_START);
    }
    joined
}

/// The line across the join is closed now.
fn join_closed(left: &Part, right: &Part) -> Report {
    let across = if seam(left, right) {
        holds(left.report.trimmed, LINE_START)
    } else {
        left.report.tail & right.report.heads != 0
    };
    let (one, other) = (&left.report, &right.report);
    let sum = one.closed.checked_add(other.closed).and_then(|sum| sum.checked_add(u64::from(across)));
    let mut joined = Report { flag: 2, closed: 0, heads: one.heads, ..other.clone() };
    if let (1, 1, Some(closed)) = (one.flag, other.flag, sum) {
        joined.flag = 1;
        joined.closed = closed;
    }
    joined
}
