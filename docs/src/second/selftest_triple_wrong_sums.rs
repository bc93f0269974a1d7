//! Wrong sums of closed lines, for joins that must be told from the right one (document 02, S-7).

use crate::report::Report;
use crate::selftest_triple_wrong::with;
use crate::triple::joined;

/// Another sum of both reports' closed lines and the line across.
pub fn summed(left: &Report, right: &Report, sum: impl Fn(u64, u64, u64) -> Option<u64>) -> Report {
    let mut made = joined(left, right);
    if left.flag == 1 && right.flag == 1 {
        let bare = |report: &Report| Report { closed: 0, ..report.clone() };
        let across = joined(&bare(left), &bare(right)).closed;
        let closed = sum(left.closed, right.closed, across);
        made.flag = closed.map_or(2, |_| 1);
        made.closed = closed.unwrap_or(0);
    }
    made
}

pub fn sum(one: u64, other: u64, across: u64) -> Option<u64> {
    one.checked_add(other)?.checked_add(across)
}

pub fn saturated(one: u64, other: u64, across: u64) -> u64 {
    sum(one, other, across).unwrap_or(u64::MAX)
}

pub fn cut(one: u64, other: u64, across: u64) -> u64 {
    one.wrapping_add(other).wrapping_add(across)
}

pub fn across_last(one: u64, other: u64, across: u64) -> Option<u64> {
    one.checked_add(other).map(|sum| sum.wrapping_add(across))
}

pub fn by_line_start(left: &Report, right: &Report) -> Report {
    let met = u64::from(left.tail & right.heads & 1 == 1);
    summed(left, right, |one, other, _| sum(one, other, met))
}

/// A report with too many closed lines taken for one with none.
pub fn as_none(report: &Report) -> Report {
    Report { flag: report.flag.min(1), ..report.clone() }
}

pub fn sum_beside(left: &Report, right: &Report) -> Report {
    with(left, right, |made| {
        if made.flag == 2 {
            made.closed = left.closed.wrapping_add(right.closed);
        }
    })
}

pub fn all_emptied(left: &Report, right: &Report) -> Report {
    with(left, right, |made| {
        if made.flag == 2 {
            (made.heads, made.tail) = (0, 0);
        }
    })
}
