//! Checks that the seeded cases ask enough about line ends (document 02, S-4): how often CR and LF meet, within
//! macros and across them, and how often the answer by document 01's lines would be another.

use crate::book::{self, item, Book, Item};
use crate::case::Case;
use crate::line_ends::{CR, LF};
use crate::make;
use crate::meaning::line_matches;
use crate::operations::run_count;
use crate::question::Question;
use crate::report::{Report, BEGINS_WITH_LF, ENDS_IN_CR};
use crate::selftest::Checks;
use crate::written::{lengths, Runs};
use std::collections::BTreeMap;

const SEEDED: u64 = 14_000;
const MOST_KEYS: u64 = 5000;

/// What must be seen among the seeded cases, and how often at least.
const LEAST: &[(&str, usize)] = &[
    ("line that ends in CR", 180),
    ("run without CR", 400),
    ("run with CR LF", 800),
    ("run with CR CR LF", 220),
    ("run with LF CR", 400),
    ("run that ends in CR", 240),
    ("run with another answer", 160),
    ("book with a CR alone", 250),
    ("book with an LF alone", 400),
    ("book with a macro that ends in CR", 1100),
    ("book with a macro that begins with LF", 1100),
    ("book where CR and LF meet across", 700),
    ("book with another answer", 180),
    ("long book where CR and LF meet across", 180),
    ("join of CR and LF", 130),
    ("join of CR and LF, with LF on the right", 100),
    ("join with the left one empty", 35),
    ("join with the right one empty", 35),
    ("join with more than two bits of edges", 450),
    ("join with states in both", 280),
];

/// What was seen, and how often.
type Seen = BTreeMap<&'static str, usize>;

pub fn all(checks: &mut Checks) {
    let mut seen = Seen::new();
    for case in make::cases(0x5E1F, SEEDED) {
        match &case {
            Case::Line { line, .. } => note(&mut seen, "line that ends in CR", line.ends_with(&[CR])),
            Case::Run { question, run } => look_at_run(&mut seen, question, run),
            Case::Count { question, book, .. } => look_at_book(&mut seen, question, book),
            Case::Join { left, right } => look_at_reports(&mut seen, left, right),
            _ => {}
        }
    }
    for (what, least) in LEAST {
        let times = seen.get(what).copied().unwrap_or(0);
        checks.check(times >= *least, || format!("seeded line ends: {what} {times} times, not {least}"));
    }
}

fn note(seen: &mut Seen, what: &'static str, holds: bool) {
    *seen.entry(what).or_default() += usize::from(holds);
}

fn has(run: &[u8], part: &[u8]) -> bool {
    run.windows(part.len()).any(|keys| keys == part)
}

/// The count by document 01 alone, where CR is a key like another.
fn old_count(question: &Question, run: &[u8]) -> Option<u64> {
    let tree = question.read().ok()?;
    let mut parts: Vec<&[u8]> = run.split(|&key| key == LF).collect();
    if parts.last().map_or(false, |last| last.is_empty()) {
        parts.pop();
    }
    Some(parts.into_iter().filter(|line| line_matches(&tree, line)).count() as u64)
}

fn differs(question: &Question, run: &[u8]) -> bool {
    let new = run_count(question, run);
    new.is_ok() && new.ok() != old_count(question, run)
}

fn look_at_run(seen: &mut Seen, question: &Question, run: &[u8]) {
    note(seen, "run with CR LF", has(run, b"\r\n"));
    note(seen, "run with CR CR LF", has(run, b"\r\r\n"));
    note(seen, "run with LF CR", has(run, b"\n\r"));
    note(seen, "run that ends in CR", run.ends_with(&[CR]));
    note(seen, "run without CR", !run.contains(&CR));
    note(seen, "run with another answer", differs(question, run));
}

fn look_at_book(seen: &mut Seen, question: &Question, bytes: &[u8]) {
    let book = match book::read(bytes) {
        Ok(book) => book,
        Err(_) => return,
    };
    let numbers = 0..book.macros.len();
    let edges = first_and_last(&book);
    let alone = |key: u8| numbers.clone().any(|number| book.items(number) == [u16::from(key)]);
    note(seen, "book with a CR alone", alone(CR));
    note(seen, "book with an LF alone", alone(LF));
    note(seen, "book with a macro that ends in CR", edges.iter().any(|edge| edge.1 == CR));
    note(seen, "book with a macro that begins with LF", edges.iter().any(|edge| edge.0 == LF));
    let across = numbers.clone().any(|number| meet(&book, &edges, number));
    note(seen, "book where CR and LF meet across", across);
    let last = book.macros.len() - 1;
    if lengths(&book, last)[last] > MOST_KEYS {
        return note(seen, "long book where CR and LF meet across", across);
    }
    let run = Runs::of(&book).keep(last).to_vec();
    note(seen, "book with another answer", differs(question, &run));
}

/// The first and the last key of an item's run.
fn ends_of(written: u16, edges: &[(u8, u8)]) -> (u8, u8) {
    match item(written) {
        Item::Key(key) => (key, key),
        Item::Call(called) => edges[called],
    }
}

fn first_and_last(book: &Book) -> Vec<(u8, u8)> {
    let mut edges: Vec<(u8, u8)> = Vec::new();
    for each in &book.macros {
        let (first, last) = (each.items[0], each.items[each.items.len() - 1]);
        edges.push((ends_of(first, &edges).0, ends_of(last, &edges).1));
    }
    edges
}

/// Whether a CR and an LF follow each other in a macro, at least one of them out of a call.
fn meet(book: &Book, edges: &[(u8, u8)], number: usize) -> bool {
    book.items(number).windows(2).any(|two| {
        let called = two.iter().any(|&written| matches!(item(written), Item::Call(_)));
        called && ends_of(two[0], edges).1 == CR && ends_of(two[1], edges).0 == LF
    })
}

fn look_at_reports(seen: &mut Seen, left: &Report, right: &Report) {
    let empty = |report: &Report| report.flag == 0 && report.rows[0] & 1 == 1;
    let meet = left.edges & ENDS_IN_CR != 0 && right.edges & BEGINS_WITH_LF != 0;
    note(seen, "join of CR and LF", meet);
    note(seen, "join of CR and LF, with LF on the right", meet && right.flag > 0);
    note(seen, "join with the left one empty", empty(left));
    note(seen, "join with the right one empty", empty(right));
    note(seen, "join with more than two bits of edges", left.edges > 3 || right.edges > 3);
    note(seen, "join with states in both", left.trimmed != 0 && right.trimmed != 0);
}
