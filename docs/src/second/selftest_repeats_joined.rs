//! Reports of version 2 books put together by joins (JOINING.md) instead of from states of all kinds, for the self test
//! (document 02, S-8): each pass joined to those before it, or with another joining between passes.

use crate::answer::work_words;
use crate::book::{Book, Item};
use crate::case::Case;
use crate::hash::hash;
use crate::join::join;
use crate::meaning::Tester;
use crate::question::Question;
use crate::report::Report;
use crate::states::{bit, States};
use crate::tree::Pattern;
use crate::written;

/// What a joining makes of two reports of one s.
pub type Joining = fn(&Report, &Report) -> Report;

pub fn right(left: &Report, right: &Report) -> Report {
    join(left, right).expect("two reports of one pattern")
}

/// So many passes, one by one.
pub fn one_by_one(once: &Report, passes: u16) -> Report {
    (1..passes).fold(once.clone(), |sum, _| right(&sum, once))
}

/// So many passes by halves, with any joining.
pub fn by_halves(once: &Report, passes: u16, joining: Joining) -> Report {
    if passes == 1 {
        return once.clone();
    }
    let half = by_halves(once, passes / 2, joining);
    let even = joining(&half, &half);
    if passes % 2 == 0 {
        even
    } else {
        joining(&even, once)
    }
}

/// The reports of macros 0 to `last`; `passes` tells what repeating makes of a report.
pub fn reports(
    book: &Book,
    pattern: &Pattern,
    last: usize,
    passes: impl Fn(&Report, u16) -> Report,
) -> Vec<Report> {
    let states = States::of(pattern);
    let mut tester = Tester::new(pattern);
    let mut all: Vec<Report> = Vec::new();
    for number in 0..=last {
        let mut sum = nothing(&states);
        for (item, repeat) in book.repeated(number) {
            let once = match item {
                Item::Key(key) => written::report(&states, &mut tester, &[key]),
                Item::Call(called) => all[called].clone(),
            };
            sum = right(&sum, &passes(&once, repeat));
        }
        all.push(sum);
    }
    all
}

/// The report of the empty run.
fn nothing(states: &States) -> Report {
    let mut report = Report::empty(states.s as u64);
    for state in 0..states.s {
        report.rows[state] = bit(state);
    }
    report
}

/// The answer to a count with these reports, all else alike; `lines` tells the lines of the last one.
pub fn told(
    words: usize,
    reports: &[Report],
    question: &Question,
    lines: fn(&Report, &States) -> Option<u64>,
) -> String {
    let mut work = work_words(words);
    for (place, word) in work.iter_mut().zip(reports.iter().flat_map(Report::words)) {
        *place = word;
    }
    let states = question.read().map(|tree| States::of(&tree)).expect("a pattern that was read before");
    let front = match lines(&reports[reports.len() - 1], &states) {
        Some(lines) => format!("lines {lines} steps 0"),
        None => String::from("refused 12"),
    };
    format!("{front} work {}", hash(work.into_iter()))
}

/// The parts of a count that is answered, or refused with 12.
pub fn asked<'a>(case: &'a Case, own: &str) -> Option<(usize, usize, &'a Question, &'a [u8])> {
    match case {
        Case::Count { number, words, question, book }
            if own.starts_with("lines ") || own.starts_with("refused 12 ") =>
        {
            Some((*number, *words, question, book))
        }
        _ => None,
    }
}
