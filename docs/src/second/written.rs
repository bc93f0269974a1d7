//! The first method: the run of a macro is written out, and its report and its steps are worked out
//! from the keys by the definitions (document 01, "The book", "States and steps", "Reports"; document 02,
//! S-4 and S-8).

use crate::book::{Book, Item};
use crate::line_ends::{less_final_cr, CR, LF};
use crate::meaning::Tester;
use crate::report::{Report, BEGINS_WITH_LF, ENDS_IN_CR};
use crate::states::{bit, States, LINE_START};
use std::ops::Range;

/// How long the run of each macro from 0 to `last` is; 2^64 - 1 stands for that and above.
pub fn lengths(book: &Book, last: usize) -> Vec<u64> {
    let mut lengths: Vec<u64> = Vec::new();
    for number in 0..=last {
        let length = book.repeated(number).fold(0u64, |sum, (item, repeat)| {
            let once = match item {
                Item::Key(_) => 1,
                Item::Call(called) => lengths[called],
            };
            sum.saturating_add(once.saturating_mul(u64::from(repeat)))
        });
        lengths.push(length);
    }
    lengths
}

/// A book, and the runs of its macros that were written out and kept; the others are empty here.
pub struct Runs<'a> {
    book: &'a Book<'a>,
    kept: Vec<Vec<u8>>,
}

impl<'a> Runs<'a> {
    pub fn of(book: &'a Book<'a>) -> Runs<'a> {
        Runs { book, kept: vec![Vec::new(); book.macros.len()] }
    }

    /// Writes a macro's run out and keeps it.
    pub fn keep(&mut self, number: usize) -> &[u8] {
        let mut run = Vec::new();
        self.write_out(number, &mut run);
        self.kept[number] = run;
        &self.kept[number]
    }

    /// The items in order, each call replaced by the called macro's written-out run.
    fn write_out(&self, number: usize, run: &mut Vec<u8>) {
        for (item, repeat) in self.book.repeated(number) {
            self.write_item(item, repeat, run);
        }
    }

    /// The first pass is written out, and the others are the same keys again.
    fn write_item(&self, item: Item, repeat: u16, run: &mut Vec<u8>) {
        let from = run.len();
        match item {
            Item::Key(key) => run.push(key),
            Item::Call(called) if self.kept[called].is_empty() => self.write_out(called, run),
            Item::Call(called) => run.extend_from_slice(&self.kept[called]),
        }
        let to = run.len();
        for _ in 1..repeat {
            run.extend_from_within(from..to);
        }
    }
}

/// The report of a run, field by field as defined.
pub fn report(states: &States, tester: &mut Tester, run: &[u8]) -> Report {
    let mut report = Report::empty(states.s as u64);
    report.trimmed = trimmed(states, run);
    report.edges = edges(run);
    let first = run.iter().position(|&key| key == LF);
    let last = run.iter().rposition(|&key| key == LF);
    if let (Some(first), Some(last)) = (first, last) {
        report.flag = 1;
        report.heads = accepted_from(states, 0..states.s, less_final_cr(&run[..first]));
        report.closed = tester.count(&run[first + 1..=last]);
        report.tail = states.after(LINE_START, &run[last + 1..]);
        return report;
    }
    for state in 0..states.s {
        report.rows[state] = states.after(state, run);
    }
    report
}

/// Those of some states from which keys without LF are accepted.
fn accepted_from(states: &States, tried: Range<usize>, keys: &[u8]) -> u64 {
    tried.filter(|&state| states.accepts(states.after(state, keys))).fold(0, |all, state| all | bit(state))
}

/// The states from which the keys since the last LF, less a final CR, are accepted; without a final CR none.
/// Once there is an LF, line-start alone is tried.
fn trimmed(states: &States, run: &[u8]) -> u64 {
    let (since, tried) = match run.iter().rposition(|&key| key == LF) {
        Some(last) => (&run[last + 1..], LINE_START..LINE_START + 1),
        None => (run, 0..states.s),
    };
    match since.split_last() {
        Some((&CR, keys)) => accepted_from(states, tried, keys),
        _ => 0,
    }
}

/// 1 if the run begins with LF, plus 2 if it ends in CR.
fn edges(run: &[u8]) -> u64 {
    let begins = if run.first() == Some(&LF) { BEGINS_WITH_LF } else { 0 };
    let ends = if run.last() == Some(&CR) { ENDS_IN_CR } else { 0 };
    begins + ends
}

/// The pairs of one macro of version 1: over each item, those (q, p) that the items before it lead from q to p.
pub fn steps(runs: &Runs, states: &States, number: usize) -> u64 {
    let mut steps = 0;
    let mut reached: Vec<u64> = (0..states.s).map(bit).collect();
    let mut run = Vec::new();
    for (item, repeat) in runs.book.repeated(number) {
        steps += reached.iter().map(|set| u64::from(set.count_ones())).sum::<u64>();
        run.clear();
        runs.write_item(item, repeat, &mut run);
        for &key in &run {
            lead(states, &mut reached, key);
        }
    }
    steps
}

/// Before any LF from every state; after one from line-start alone, since the last LF. A CR is a key like
/// another here.
fn lead(states: &States, reached: &mut Vec<u64>, key: u8) {
    if key == LF {
        reached.clear();
        reached.push(bit(LINE_START));
        return;
    }
    for set in reached.iter_mut() {
        *set = states.moves_of_set(*set, key);
    }
}
