//! Joins that are wrong, and easily taken for the right one (document 02, S-7). The triples must tell them from it.

use crate::report::{Report, BEGINS_WITH_LF, ENDS_IN_CR};
use crate::selftest_triple_wrong_sums::*;
use crate::states::{bit, holds, LINE_START};
use crate::triple::{joined, unit};

/// A wrong join, and which laws it breaks on some triple.
pub struct Wrong {
    pub name: &'static str,
    pub join: fn(&Report, &Report) -> Report,
    /// Whether it answers AB C and A BC with two lines, where AB and BC are the right ones.
    pub told_apart: bool,
    /// Whether the groupings differ where it makes AB and BC itself.
    pub not_associative: bool,
    /// Whether it answers E A or A E with another line than A's.
    pub unit_changes: bool,
}

const fn wrong(name: &'static str, join: fn(&Report, &Report) -> Report, breaks: [u8; 3]) -> Wrong {
    let [told_apart, not_associative, unit_changes] = [breaks[0] == 1, breaks[1] == 1, breaks[2] == 1];
    Wrong { name, join, told_apart, not_associative, unit_changes }
}

pub const WRONG: [Wrong; 29] = [
    wrong("what looks empty hands back the other", looks_empty, [1, 1, 1]),
    wrong("the left one handed back", |left, _| left.clone(), [1, 0, 1]),
    wrong("the right one handed back", |_, right| right.clone(), [1, 0, 1]),
    wrong("no line across", |l, r| summed(l, r, |one, other, _| one.checked_add(other)), [1, 0, 0]),
    wrong("a line across always", |l, r| summed(l, r, |one, other, _| sum(one, other, 1)), [1, 0, 0]),
    wrong("a line across by line-start alone", by_line_start, [1, 1, 0]),
    wrong("2^64 - 1 for all above", |l, r| summed(l, r, |a, b, c| Some(saturated(a, b, c))), [1, 0, 0]),
    wrong(
        "2^64 - 1 too many",
        |l, r| summed(l, r, |a, b, c| sum(a, b, c).filter(|&s| s < u64::MAX)),
        [1, 0, 0],
    ),
    wrong("a sum cut to 64 bits", |l, r| summed(l, r, |a, b, c| Some(cut(a, b, c))), [1, 0, 0]),
    wrong("a line across added behind the test", |l, r| summed(l, r, across_last), [1, 1, 0]),
    wrong("flag 2 summed as 0", |l, r| joined(&as_none(l), &as_none(r)), [1, 1, 1]),
    wrong("flag 2 of the left one unseen", |l, r| joined(&as_none(l), r), [1, 1, 1]),
    wrong("flag 2 of the right one unseen", |l, r| joined(l, &as_none(r)), [1, 1, 1]),
    wrong("a sum left beside flag 2", sum_beside, [1, 1, 0]),
    wrong("flag 2 empties heads and tail", all_emptied, [0, 0, 1]),
    wrong("rows in the wrong order", turned, [1, 1, 0]),
    wrong("of a row the lowest state alone", lowest_alone, [1, 1, 1]),
    wrong("each state kept in its row", kept_states, [0, 1, 1]),
    wrong("the last of 32 states lost", |l, r| masked(joined(l, r)), [0, 1, 1]),
    wrong("row 0 alone for heads", |l, r| open_left(l, r, |made, _, _| made.heads &= 1), [1, 1, 1]),
    wrong("heads past the rows", |l, r| open_left(l, r, |made, _, r| made.heads = r.heads), [1, 1, 0]),
    wrong("tail past the rows", |l, r| open_right(l, r, |made, l, _| made.tail = l.tail), [1, 1, 0]),
    wrong("row 0 alone for the tail", |l, r| open_right(l, r, |made, _, r| made.tail = r.rows[0]), [1, 1, 1]),
    wrong("heads of both", |l, r| with(l, r, |made| made.heads |= l.heads | r.heads), [1, 1, 0]),
    wrong("tail of both", |l, r| with(l, r, |made| made.tail |= l.tail | r.tail), [1, 1, 0]),
    wrong("CR and LF do not meet", no_seam, [1, 0, 0]),
    wrong("a final CR lost before nothing", lost_before_nothing, [1, 1, 1]),
    wrong("an LF at the front lost behind nothing", lost_behind_nothing, [1, 1, 1]),
    wrong("a final CR of the right one alone", right_alone, [1, 1, 0]),
];

pub fn with(left: &Report, right: &Report, change: impl Fn(&mut Report)) -> Report {
    let mut made = joined(left, right);
    change(&mut made);
    made
}

type Change = fn(&mut Report, &Report, &Report);

/// Wrong where only the right one has an LF.
fn open_left(left: &Report, right: &Report, change: Change) -> Report {
    let wrong = left.flag == 0 && right.flag != 0;
    with(left, right, |made| {
        if wrong {
            change(made, left, right)
        }
    })
}

/// Wrong where only the left one has an LF.
fn open_right(left: &Report, right: &Report, change: Change) -> Report {
    let wrong = left.flag != 0 && right.flag == 0;
    with(left, right, |made| {
        if wrong {
            change(made, left, right)
        }
    })
}

fn looks_empty(left: &Report, right: &Report) -> Report {
    let empty = |report: &Report| report.flag == 0 && holds(report.rows[LINE_START], LINE_START);
    if empty(left) {
        return right.clone();
    }
    if empty(right) {
        return left.clone();
    }
    joined(left, right)
}

fn turned(left: &Report, right: &Report) -> Report {
    let rows = joined(right, left).rows;
    with(left, right, |made| {
        if left.flag == 0 && right.flag == 0 {
            made.rows = rows;
        }
    })
}

fn lowest_alone(left: &Report, right: &Report) -> Report {
    let mut thin = left.clone();
    for row in thin.rows.iter_mut() {
        *row &= row.wrapping_neg();
    }
    joined(&thin, right)
}

fn kept_states(left: &Report, right: &Report) -> Report {
    with(left, right, |made| {
        for state in 0..made.s as usize {
            made.rows[state] |= if made.flag == 0 { bit(state) } else { 0 };
        }
    })
}

/// As if bit 31 were a sign.
fn masked(mut made: Report) -> Report {
    let sets = made.rows.iter_mut().chain([&mut made.heads, &mut made.tail, &mut made.trimmed]);
    sets.for_each(|set| *set &= (1 << 31) - 1);
    made
}

/// S-4's words are right, and yet they are not used.
fn no_seam(left: &Report, right: &Report) -> Report {
    let bare = Report { edges: left.edges & !ENDS_IN_CR, ..left.clone() };
    let right_one = joined(left, right);
    Report { trimmed: right_one.trimmed, edges: right_one.edges, ..joined(&bare, right) }
}

fn lost_before_nothing(left: &Report, right: &Report) -> Report {
    with(left, right, |made| {
        if *right == unit(right.s) {
            made.trimmed = 0;
            made.edges &= !ENDS_IN_CR;
        }
    })
}

fn lost_behind_nothing(left: &Report, right: &Report) -> Report {
    with(left, right, |made| {
        if *left == unit(left.s) {
            made.edges &= !BEGINS_WITH_LF;
        }
    })
}

/// The keys of the left one are not led through.
fn right_alone(left: &Report, right: &Report) -> Report {
    with(left, right, |made| {
        if right.edges & ENDS_IN_CR != 0 {
            made.trimmed = right.trimmed;
        }
    })
}
