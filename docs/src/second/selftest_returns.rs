//! Checks line ends (document 02, S-4): lines by a second splitter, joins of short runs, and the two methods of
//! counting on books in which short runs follow each other.

use crate::book;
use crate::compare_cuecount;
use crate::count::count_within;
use crate::join::join;
use crate::join_by_states;
use crate::letters::Letters;
use crate::line_ends::lines;
use crate::make_book::{call, keys, write};
use crate::make_report;
use crate::meaning::{line_matches, Tester};
use crate::operations::cuecount;
use crate::parser;
use crate::report::Report;
use crate::rng::Rng;
use crate::selftest::Checks;
use crate::selftest_returns_made;
use crate::states::States;
use crate::tree::Pattern;
use crate::written;
use std::collections::HashMap;

const THREE_KEYS: &[u8] = b"a\r\n";
const FOUR_KEYS: &[u8] = b"ab\r\n";
/// Asked with runs of the three keys.
const PATTERNS: [&[u8]; 20] = [
    b"a",
    b"a$",
    b"^a",
    b"^a$",
    b"^$",
    b"^",
    b"$",
    b"a*",
    b"^a*$",
    b".",
    b"^.$",
    b"a.$",
    b"\r",
    b"a\r$",
    b"^\r*$",
    b"[^a]$",
    b"a\ra|^\r$",
    b"a$|^\r\r",
    b"^(a\r?)+$",
    b"[[:cntrl:]][[:space:]]",
];
/// Asked with runs of the four keys.
const MORE_PATTERNS: [&[u8]; 6] = [b"ab$", b"b\r?$", b"^a.b|^$", b"a(\r|b)*$", b"[[:space:]]b", b"^[^b]*$"];

pub fn all(checks: &mut Checks) {
    splitters(checks);
    for pattern in PATTERNS {
        pairs(checks, pattern, THREE_KEYS, 4);
        books(checks, pattern, THREE_KEYS, 3);
    }
    for pattern in MORE_PATTERNS {
        pairs(checks, pattern, FOUR_KEYS, 3);
        books(checks, pattern, FOUR_KEYS, 2);
    }
    any_numbers(checks);
    inputs(checks);
    selftest_returns_made::all(checks);
}

/// All runs of at most so many of the keys, the empty one first.
fn short_runs(keys: &[u8], most: usize) -> Vec<Vec<u8>> {
    let mut runs: Vec<Vec<u8>> = vec![Vec::new()];
    let mut from = 0;
    for _ in 0..most {
        let to = runs.len();
        for place in from..to {
            for &key in keys {
                let longer = [&runs[place][..], &[key]].concat();
                runs.push(longer);
            }
        }
        from = to;
    }
    runs
}

/// The lines key by key: a CR waits for what comes next, and only then is a key or not.
fn split_again(run: &[u8]) -> Vec<Vec<u8>> {
    let mut lines = Vec::new();
    let mut line = Vec::new();
    let mut waiting = false;
    for &key in run {
        if key == b'\n' {
            lines.push(std::mem::take(&mut line));
            waiting = false;
            continue;
        }
        if waiting {
            line.push(b'\r');
        }
        waiting = key == b'\r';
        if !waiting {
            line.push(key);
        }
    }
    if waiting {
        line.push(b'\r');
    }
    if !line.is_empty() {
        lines.push(line);
    }
    lines
}

fn splitters(checks: &mut Checks) {
    for run in short_runs(THREE_KEYS, 8).into_iter().chain(short_runs(FOUR_KEYS, 5)) {
        let same = lines(&run) == split_again(&run);
        checks.check(same, || format!("lines of {}", run.escape_ascii()));
    }
}

fn tree(pattern: &[u8]) -> Pattern {
    parser::read(pattern, Letters::Apart).expect("a pattern of the self test was refused")
}

/// The join of the reports of any two runs is the report of both in one; the empty run is among them.
fn pairs(checks: &mut Checks, pattern: &[u8], keys: &[u8], most: usize) {
    let tree = tree(pattern);
    let states = States::of(&tree);
    let mut tester = Tester::new(&tree);
    let mut known: HashMap<Vec<u8>, Report> = HashMap::new();
    for run in short_runs(keys, 2 * most) {
        let report = written::report(&states, &mut tester, &run);
        known.insert(run, report);
    }
    let halves = short_runs(keys, most);
    for left in &halves {
        for right in &halves {
            let (one, other) = (&known[left], &known[right]);
            let whole = &known[&[&left[..], right].concat()];
            let joined = join(one, other).as_ref() == Ok(whole);
            let by_states = &join_by_states::joined(one, other) == whole;
            checks.check(joined && by_states, || {
                let [pattern, left, right] = [pattern, left, right].map(|text| text.escape_ascii());
                format!("join under {pattern} of {left} and {right}")
            });
        }
    }
}

/// Two runs in macros of their own, called one after the other: both methods agree in every report, in the
/// steps and in the lines, and the lines are those of the second splitter.
fn books(checks: &mut Checks, pattern: &[u8], some_keys: &[u8], most: usize) {
    let tree = tree(pattern);
    let halves = &short_runs(some_keys, most)[1..];
    for left in halves {
        for right in halves {
            let bytes = write(&[keys(left), keys(right), vec![call(0), call(1)]]);
            let run = [&left[..], right].concat();
            let matching = split_again(&run).iter().filter(|line| line_matches(&tree, line)).count();
            let agree = book::read(&bytes).map_or(false, |book| {
                let written_out = count_within(&book, &tree, 2, 1000);
                let lines_agree = written_out.lines == Some(matching as u64);
                lines_agree && written_out == count_within(&book, &tree, 2, 0)
            });
            checks.check(agree, || {
                let [pattern, left, right] = [pattern, left, right].map(|text| text.escape_ascii());
                format!("book under {pattern} of {left} and {right}")
            });
        }
    }
}

/// Seeded reports of any numbers, joined as JOINING.md was read twice.
fn any_numbers(checks: &mut Checks) {
    for number in 0..6000 {
        let (left, right) = make_report::pair(&mut Rng::for_case(0x701E, number));
        if let Ok(joined) = join(&left, &right) {
            let again = join_by_states::joined(&left, &right);
            checks.check(joined == again, || format!("joined twice: {left:?} and {right:?}"));
        }
    }
}

/// What `cuecount` is stated to print.
fn inputs(checks: &mut Checks) {
    for (input, stated) in compare_cuecount::fixed_inputs() {
        if let Some(stated) = stated {
            let own = cuecount(&input);
            checks.check(own == stated, || format!("cuecount, {} bytes: {own}, not {stated}", input.len()));
        }
    }
}
