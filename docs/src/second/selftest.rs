//! Checks this program with itself: stated answers, the two methods of counting, trees written down
//! and read again, the meaning against a list of texts, joins against reports of longer runs, reach lists,
//! depths, triples of reports, regroupings, repeat counts, lines that are sought; under both choices of case.

use crate::answer::answer;
use crate::book;
use crate::case::{Case, Stream};
use crate::count::count_within;
use crate::describe::describe;
use crate::enumerate;
use crate::fixed;
use crate::fixed_repeats_large::largest;
use crate::join::join;
use crate::letters::{Letters, BOTH};
use crate::make;
use crate::make_book::write;
use crate::make_large::BUSY;
use crate::make_letters::mix_book;
use crate::make_line;
use crate::make_pattern::sound_tree;
use crate::make_question::{sound_question, taste_for};
use crate::make_tree::{tree, Taste};
use crate::meaning::{line_matches, Tester};
use crate::parser::{self, MOST_ATOMS};
use crate::question::Question;
use crate::rng::Rng;
use crate::selftest_brackets;
use crate::selftest_command;
use crate::selftest_depth;
use crate::selftest_find;
use crate::selftest_forms;
use crate::selftest_letters;
use crate::selftest_line;
use crate::selftest_patterns;
use crate::selftest_reach;
use crate::selftest_regroup;
use crate::selftest_repeats;
use crate::selftest_returns;
use crate::selftest_triple;
use crate::states::{States, LINE_START};
use crate::written;

/// So many keys are written out for one count: fewer than for an answer, so that this stays quick.
const LIMIT: u64 = 400_000;

/// What was checked and the first faults.
#[derive(Default)]
pub struct Checks {
    passed: usize,
    failed: usize,
}

impl Checks {
    pub fn check(&mut self, holds: bool, what: impl Fn() -> String) {
        if holds {
            self.passed += 1;
        } else {
            self.failed += 1;
            println!("failed: {}", what());
        }
    }
}

pub fn selftest() -> bool {
    let mut checks = Checks::default();
    let busy = parser::read(BUSY, Letters::Apart).map(|tree| tree.atoms());
    checks.check(busy == Ok(MOST_ATOMS), || String::from("the busy pattern has not 29 atoms"));
    stated(&mut checks);
    streams(&mut checks);
    selftest_command::all(&mut checks);
    selftest_brackets::all(&mut checks);
    selftest_patterns::all(&mut checks);
    selftest_returns::all(&mut checks);
    selftest_reach::all(&mut checks);
    selftest_depth::all(&mut checks);
    selftest_triple::all(&mut checks);
    selftest_regroup::all(&mut checks);
    selftest_repeats::all(&mut checks);
    selftest_forms::all(&mut checks);
    selftest_find::all(&mut checks);
    selftest_line::all(&mut checks);
    for number in 0..2000 {
        let mut rng = Rng::for_case(0x5E1F, number);
        let letters = BOTH[number as usize % 2];
        trees(&mut rng, letters, &mut checks);
        methods(&mut rng, letters, &mut checks);
        joins(&mut rng, letters, &mut checks);
        selftest_letters::laws(&mut rng, &mut checks);
        if number % 5 == 0 {
            listed(&mut rng, letters, &mut checks);
        }
    }
    println!("{} passed, {} failed", checks.passed, checks.failed);
    checks.failed == 0
}

fn stated(checks: &mut Checks) {
    for fixed in [fixed::all(), fixed::of_repeats(), largest()].concat() {
        let own = answer(&fixed.case);
        checks.check(fixed.agrees(&own), || {
            format!("{}\nstated {}, answered {own}", describe(&fixed.case), fixed.stated)
        });
    }
}

/// Cases written to a stream and read again are the same.
fn streams(checks: &mut Checks) {
    let cases: Vec<Case> = make::cases(11, 600).collect();
    let mut bytes = Vec::new();
    for case in &cases {
        case.write(&mut bytes);
    }
    let mut stream = Stream { left: &bytes };
    for case in &cases {
        let read = stream.case().map(|case| case.bytes());
        checks.check(read == Some(case.bytes()), || format!("stream: {}", describe(case)));
    }
    checks.check(stream.left.is_empty(), || String::from("stream: bytes left over"));
}

/// A tree written down is read as the same tree, without the choice of case.
fn trees(rng: &mut Rng, letters: Letters, checks: &mut Checks) {
    let taste = taste_for(rng, letters);
    let made = sound_tree(rng, taste);
    let text = made.text();
    let read = parser::read(&text, Letters::Apart);
    checks.check(read == Ok(made), || format!("tree: {}", text.escape_ascii()));
}

/// The written-out count and the one put together from macros agree in every report and in the steps.
fn methods(rng: &mut Rng, letters: Letters, checks: &mut Checks) {
    let (question, tree) = sound_question(rng, letters);
    let mut macros = make::macros_for(rng, &question);
    let bytes = write(&macros);
    let book = match book::read(&bytes) {
        Ok(book) => book,
        Err(refusal) => return checks.check(false, || format!("a sound book was refused: {refusal}")),
    };
    let last = rng.below(book.macros.len());
    let one = count_within(&book, &tree, last, LIMIT);
    let other = count_within(&book, &tree, last, 0);
    let shown = || shown_count(last, &question, &bytes);
    checks.check(one == other, || format!("two methods: {}", shown()));
    let items: usize = (0..=last).map(|number| book.items(number).len()).sum();
    let s = tree.atoms() + 3;
    checks.check(one.steps <= (items * s * s) as u64, || format!("too many steps: {}", shown()));
    checks.check(selftest_reach::is_right(&book, last), || format!("reach list: {}", shown()));
    if letters == Letters::Alike {
        mix_book(rng, &mut macros);
        let mixed = write(&macros);
        let again = book::read(&mixed).map(|book| count_within(&book, &tree, last, 0));
        checks.check(again == Ok(one), || format!("letters of the other case: {}", shown()));
    }
}

fn shown_count(number: usize, question: &Question, book: &[u8]) -> String {
    describe(&Case::Count { number, words: 0, question: question.clone(), book: book.to_vec() })
}

/// The join of two runs' reports is the report of the runs one after the other.
fn joins(rng: &mut Rng, letters: Letters, checks: &mut Checks) {
    let (question, tree) = sound_question(rng, letters);
    let states = States::of(&tree);
    let mut tester = Tester::new(&tree);
    let left = make_line::run(rng, &question);
    let right = make_line::run(rng, &question);
    let mut report = |run: &[u8]| written::report(&states, &mut tester, run);
    let joined = join(&report(&left), &report(&right));
    let whole = report(&[left, right].concat());
    checks.check(joined == Ok(whole), || format!("join under {}", question.pattern.escape_ascii()));
}

/// The meaning agrees with the list of texts, and with the states, on every short line.
fn listed(rng: &mut Rng, letters: Letters, checks: &mut Checks) {
    let taste = if rng.chance(50) { Taste::Plain } else { taste_for(rng, letters) };
    let atoms = rng.between(1, 7);
    let text = tree(rng, atoms, taste).text();
    let tree = match parser::read(&text, letters) {
        Ok(tree) => tree,
        // Its brackets are too long together.
        Err(_) => return,
    };
    let texts = enumerate::branch_texts(&tree);
    let states = States::of(&tree);
    for line in enumerate::all_lines() {
        let meant = line_matches(&tree, &line);
        let by_list = enumerate::line_matches(&tree, &texts, &line);
        let by_states = states.accepts(states.after(LINE_START, &line));
        checks.check(meant == by_list && meant == by_states, || {
            format!("{letters:?}: {} on {}", text.escape_ascii(), line.escape_ascii())
        });
    }
}
