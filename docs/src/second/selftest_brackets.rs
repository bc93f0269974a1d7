//! Checks what was made for brackets (document 02, S-2): that the reader's brackets are those of a plain walk,
//! that each has the set it has alone, and that the seeded cases stay telling.

use crate::answer::answer;
use crate::case::Case;
use crate::fixed;
use crate::letters::Letters;
use crate::make_share;
use crate::parser::{self, MOST_BYTES};
use crate::question::Question;
use crate::refusal::BAD_PATTERN;
use crate::rng::Rng;
use crate::scan::brackets;
use crate::selftest::Checks;
use crate::selftest_letters::atoms;
use crate::tree::{Atom, Pattern};
use std::collections::BTreeMap;

const SEEDED: u64 = 4000;

/// What was seen, and how often.
type Seen = BTreeMap<String, usize>;

/// What must be seen among the seeded cases, and how often at least.
const LEAST: &[(&str, usize)] = &[
    ("asked L", 1000),
    ("asked l", 500),
    ("asked R", 700),
    ("asked r", 350),
    ("asked C", 180),
    ("asked c", 90),
    ("accepted", 2200),
    ("refused 7", 200),
    ("refused 8", 600),
    ("126 to 129 bytes", 1600),
    ("128 bytes, accepted", 600),
    ("128 bytes, refused", 280),
    ("closes at byte 128", 480),
    ("closes at byte 128: match", 120),
    ("closes at byte 128: no match", 120),
    ("open at byte 128", 180),
    ("row, accepted", 1000),
    ("row, refused", 180),
    ("match", 450),
    ("no match", 650),
    ("no lines", 200),
    ("some lines", 550),
];

pub fn all(checks: &mut Checks) {
    for fixed in fixed::of_brackets() {
        if let Some(question) = question_of(&fixed.case) {
            laws(checks, question);
        }
    }
    let mut seen = Seen::new();
    for number in 0..SEEDED {
        let case = make_share::case(&mut Rng::for_case(0xB2AC, number));
        if let Some(question) = question_of(&case) {
            laws(checks, question);
            look(&mut seen, &case, question);
        }
    }
    for (what, least) in LEAST {
        let times = seen.get(*what).copied().unwrap_or(0);
        checks.check(times >= *least, || format!("seeded brackets: {what} {times} times, not {least}"));
    }
}

fn question_of(case: &Case) -> Option<&Question> {
    match case {
        Case::Line { question, .. } | Case::Run { question, .. } | Case::Count { question, .. } => {
            Some(question)
        }
        _ => None,
    }
}

/// Only of patterns that are read; a bracket that is not closed must be refused.
fn laws(checks: &mut Checks, question: &Question) {
    let pattern = &question.pattern;
    let found = brackets(pattern);
    let tree = match question.read() {
        Ok(tree) => tree,
        Err(_) => return,
    };
    let shown = |what: &str| format!("{what}: {}", pattern.escape_ascii());
    checks.check(found.open.is_none(), || shown("read, but a bracket is open"));
    let by_walk: Vec<&[u8]> = found.closed.iter().map(|&(from, to)| &pattern[from..to]).collect();
    let read: Vec<&Atom> = bracket_atoms(&tree);
    let same = read.iter().map(|atom| &atom.text[..]).eq(by_walk.iter().copied());
    checks.check(same, || shown("other brackets by a walk"));
    let alone = read.iter().all(|atom| set_alone(atom, question.letters));
    checks.check(alone, || shown("another set alone"));
}

fn bracket_atoms(tree: &Pattern) -> Vec<&Atom> {
    atoms(tree).into_iter().filter(|atom| atom.text[0] == b'[').collect()
}

fn set_alone(atom: &Atom, letters: Letters) -> bool {
    match parser::read(&atom.text, letters) {
        Ok(tree) => atoms(&tree).len() == 1 && atoms(&tree)[0].set == atom.set,
        Err(_) => false,
    }
}

/// Counts what a case has.
fn look(seen: &mut Seen, case: &Case, question: &Question) {
    let mut saw = |what: &str| *seen.entry(String::from(what)).or_default() += 1;
    let pattern = &question.pattern;
    let found = brackets(pattern);
    let refusal = question.read().err();
    let outcome = refusal.map_or(String::from("accepted"), |refusal| format!("refused {refusal}"));
    let told = told(case);
    saw(&format!("asked {}", char::from(case.kind())));
    saw(&outcome);
    saw(told);
    if (126..=129).contains(&pattern.len()) {
        saw("126 to 129 bytes");
    }
    if pattern.len() < 100 && found.closed.len() > 1 {
        saw(if refusal.is_none() { "row, accepted" } else { "row, refused" });
    }
    if pattern.len() != MOST_BYTES {
        return;
    }
    saw(if refusal.is_none() { "128 bytes, accepted" } else { "128 bytes, refused" });
    let ends = found.closed.last().map_or(0, |&(_, end)| end);
    if refusal.is_none() && ends == MOST_BYTES {
        saw("closes at byte 128");
        saw(&format!("closes at byte 128: {told}"));
    }
    if refusal == Some(BAD_PATTERN) && found.open.is_some() {
        saw("open at byte 128");
    }
}

/// The answer to a line or a run, if it is none of the refusals.
fn told(case: &Case) -> &'static str {
    match (case, &answer(case)[..]) {
        (Case::Line { .. }, "match") => "match",
        (Case::Line { .. }, "no match") => "no match",
        (Case::Run { .. }, "lines 0") => "no lines",
        (Case::Run { .. }, lines) if lines.starts_with("lines ") => "some lines",
        _ => "neither",
    }
}
