//! The count over a book: reports of macros 0 to m, the steps, and the matching lines of macro m.
//! Each run is written out as long as the limit allows; only beyond it the second method is used.

use crate::book::{Book, PLAIN_VERSION};
use crate::meaning::Tester;
use crate::report::Report;
use crate::states::States;
use crate::summary::summaries;
use crate::tree::Pattern;
use crate::written::{self, Runs};

/// So many keys are written out for one count at most.
const LIMIT: u64 = 2_000_000;
/// The same for a book of version 2, whose long runs are mostly the same keys again.
const REPEATED_LIMIT: u64 = 300_000;

#[derive(Debug, PartialEq)]
pub struct Counted {
    pub reports: Vec<Report>,
    /// 0 for a book of version 2.
    pub steps: u64,
    /// Nothing if over 2^64 - 1.
    pub lines: Option<u64>,
}

pub fn count(book: &Book, pattern: &Pattern, last: usize) -> Counted {
    let limit = if book.version() == PLAIN_VERSION { LIMIT } else { REPEATED_LIMIT };
    count_within(book, pattern, last, limit)
}

/// The same with another limit, for the self test.
pub fn count_within(book: &Book, pattern: &Pattern, last: usize, limit: u64) -> Counted {
    let states = States::of(pattern);
    let lengths = written::lengths(book, last);
    let chosen = within(&lengths, limit);
    let mut tester = Tester::new(pattern);
    let mut counted = by_summaries_if_needed(book, &states, &chosen);
    let mut runs = Runs::of(book);
    for (number, _) in chosen.iter().enumerate().filter(|(_, &chosen)| chosen) {
        let run = runs.keep(number);
        counted.reports[number] = written::report(&states, &mut tester, run);
        if number == last {
            counted.lines = Some(tester.count(run));
        }
        if book.version() == PLAIN_VERSION {
            counted.steps += written::steps(&runs, &states, number);
        }
    }
    check_lines(&counted, &states);
    if !chosen[last] {
        counted.lines = counted.reports[last].lines(&states);
    }
    counted
}

/// Which macros are written out: in order, each that the rest of the limit still holds. The asked
/// macro comes first, so that its lines are tested one by one even if others are too long.
pub fn within(lengths: &[u64], limit: u64) -> Vec<bool> {
    let mut chosen = vec![false; lengths.len()];
    let mut left = limit;
    let last = lengths.len() - 1;
    for number in std::iter::once(last).chain(0..last) {
        if lengths[number] <= left {
            left -= lengths[number];
            chosen[number] = true;
        }
    }
    chosen
}

/// Reports and steps of the macros that are not chosen; empty places for the others.
fn by_summaries_if_needed(book: &Book, states: &States, chosen: &[bool]) -> Counted {
    let empty = Report::empty(states.s as u64);
    let mut counted = Counted { reports: vec![empty; chosen.len()], steps: 0, lines: None };
    if chosen.iter().all(|&chosen| chosen) {
        return counted;
    }
    for (number, summary) in summaries(book, states, chosen.len() - 1).iter().enumerate() {
        if !chosen[number] {
            counted.reports[number] = summary.report(states);
            counted.steps += if book.version() == PLAIN_VERSION { summary.steps } else { 0 };
        }
    }
    counted
}

/// Where the lines were tested by the meaning, the report must say the same by the states.
fn check_lines(counted: &Counted, states: &States) {
    let by_states = counted.reports[counted.reports.len() - 1].lines(states);
    if counted.lines.is_some() {
        assert_eq!(counted.lines, by_states, "meaning and states differ: the second program is wrong");
    }
}
