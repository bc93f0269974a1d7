//! Triples of the reports of three runs under one pattern, with S-4's words: their whole is the report of the runs
//! one behind the other, worked out from the keys, or for long runs by the summaries.

use crate::book;
use crate::count::count_within;
use crate::make_book::{call, write, Macros};
use crate::meaning::Tester;
use crate::question::Question;
use crate::states::States;
use crate::tree::Pattern;
use crate::triple::{unit, Triple};
use crate::written;

/// So many keys of a book are written out.
const LIMIT: u64 = 5_000;

fn tree(question: &Question) -> Pattern {
    question.read().expect("a sound pattern was refused: the second program is wrong")
}

fn shown(why: &str, question: &Question) -> String {
    format!("{why}: {} ({:?})", question.pattern.escape_ascii(), question.letters)
}

/// The pattern must be a sound one.
pub fn of_runs(why: &str, question: &Question, runs: &[&[u8]; 3]) -> Triple {
    let tree = tree(question);
    let states = States::of(&tree);
    let mut tester = Tester::new(&tree);
    let mut report = |run: &[u8]| written::report(&states, &mut tester, run);
    let texts = runs.map(|run| format!("\"{}\"", run.escape_ascii())).join(", ");
    Triple {
        why: format!("{} on {texts}", shown(why, question)),
        parts: runs.map(&mut report),
        whole: Some(report(&runs.concat())),
    }
}

/// The runs of three macros of a sound book with room for one more, which calls them; no macro is the empty run.
/// At least one is a macro.
pub fn of_macros(why: &str, question: &Question, macros: &[Vec<u16>], parts: [Option<usize>; 3]) -> Triple {
    let calls = parts.iter().flatten().map(|&number| call(number)).collect();
    let all: Macros = [macros, &[calls]].concat();
    let bytes = write(&all);
    let book = book::read(&bytes).expect("a sound book was refused: the second program is wrong");
    let reports = count_within(&book, &tree(question), all.len() - 1, LIMIT).reports;
    let whole = &reports[all.len() - 1];
    let report = |part: Option<usize>| part.map_or(unit(whole.s), |number| reports[number].clone());
    let why = format!("{} on macros {parts:?}", shown(why, question));
    Triple { why, parts: parts.map(report), whole: Some(whole.clone()) }
}
