//! Checks books of version 2 (document 02, S-8): counts, reports, depths and reach lists against runs written out pass
//! by pass, against joins pass by pass, a second reading of the books, and wrong programs that must be seen.

use crate::answer::answer;
use crate::batch::MOST_BYTES;
use crate::book::{self, Book};
use crate::case::{Case, Stream};
use crate::command_repeats::{check_runs, count_runs, depth_runs, reach_runs};
use crate::count::count_within;
use crate::cuecount_repeats;
use crate::depth::Keys;
use crate::depth_figures::{figures, of_run};
use crate::describe::describe;
use crate::fixed::{self, Fixed};
use crate::fixed_repeats_large::largest;
use crate::letters::BOTH;
use crate::line_ends::lines;
use crate::make_depth;
use crate::make_question::sound_question;
use crate::make_repeats;
use crate::make_repeats_book::{for_depths, for_question, with_counts, Hand};
use crate::meaning::{line_matches, Tester};
use crate::operations::{book_count, cuecount, sound};
use crate::repeats::{write, Repeats};
use crate::report::Report;
use crate::rng::Rng;
use crate::selftest::Checks;
use crate::selftest_command;
use crate::selftest_depth;
use crate::selftest_reach;
use crate::selftest_repeats_edges;
use crate::selftest_repeats_joined::{by_halves, one_by_one, reports, right};
use crate::selftest_repeats_made;
use crate::selftest_repeats_read::{self, macro_count, Rule};
use crate::selftest_repeats_wrong::{right_count, right_depths, WRONG};
use crate::states::States;
use crate::tree::Pattern;
use crate::written::{self, Runs};
use crate::{compare_check, compare_count, compare_depth, compare_reach};

const SEED: u64 = 0x5E1F;
/// So many seeded books are written out, and so many read twice.
const SEEDED: u64 = 3000;
const READ: u64 = 6000;
/// So long a run is written out pass by pass.
const MOST_KEYS: usize = 4_000;
/// So many passes of a book are joined one by one.
const MOST_PASSES: usize = 70_000;
/// A wrong program is seen by so many fixed cases at least, and by so many of the first seeded ones.
const LEAST_FIXED: usize = 5;
const LEAST_SEEDED: usize = 3;
const TOLD_SEEDED: u64 = 1000;

pub fn all(checks: &mut Checks) {
    let fixed = fixed::of_repeats();
    sizes(checks, &fixed);
    readings(checks, &fixed);
    selftest_repeats_edges::all(checks);
    for number in 0..SEEDED {
        counted(checks, &mut Rng::for_case(0x2E9F, number), number);
        deep_and_reached(checks, &mut Rng::for_case(0x2EA0, number));
    }
    wrong_ones(checks, fixed.iter().map(|fixed| fixed.case.clone()), "fixed", LEAST_FIXED);
    wrong_ones(checks, make_repeats::cases(SEED, TOLD_SEEDED), "seeded", LEAST_SEEDED);
    streams(checks);
    programs(checks);
    selftest_repeats_made::all(checks);
}

/// The fixed ones go in one stream, and each of the largest in one of its own.
fn sizes(checks: &mut Checks, fixed: &[Fixed]) {
    let bytes: usize = fixed.iter().map(|fixed| fixed.case.bytes().len()).sum();
    checks
        .check(bytes <= MOST_BYTES && fixed.len() >= 400, || format!("{} cases, {bytes} bytes", fixed.len()));
    for fixed in largest() {
        let bytes = fixed.case.bytes().len();
        checks.check(bytes <= MOST_BYTES, || format!("a largest case has {bytes} bytes"));
    }
}

fn book_of(case: &Case) -> Option<&[u8]> {
    match case {
        Case::Count { book, .. }
        | Case::Sound { book }
        | Case::Body { book, .. }
        | Case::Reach { book, .. }
        | Case::Depth { book, .. } => Some(book),
        _ => None,
    }
}

/// Both readings say the same of every book, and each wrong one is seen by the fixed books and by seeded ones.
fn readings(checks: &mut Checks, fixed: &[Fixed]) {
    let seeded: Vec<Vec<u8>> =
        (0..READ).map(|number| make_repeats::some_book(&mut Rng::for_case(0x2EA1, number), 85)).collect();
    let stated: Vec<&[u8]> = fixed.iter().filter_map(|fixed| book_of(&fixed.case)).collect();
    let seeded: Vec<&[u8]> = seeded.iter().map(Vec::as_slice).collect();
    for bytes in stated.iter().chain(&seeded) {
        checks
            .check(sound(bytes) == macro_count(bytes, Rule::Right), || format!("two readings of {bytes:?}"));
    }
    for (name, rule) in selftest_repeats_read::WRONG {
        let seen =
            |books: &[&[u8]]| books.iter().filter(|bytes| sound(bytes) != macro_count(bytes, rule)).count();
        let times = [seen(&stated), seen(&seeded)];
        checks.check(times[0] >= 2 && times[1] >= 1, || format!("a reading, {name}: seen {times:?} times"));
    }
}

/// The runs of all macros, pass by pass; nothing for one that is too long.
fn expanded(macros: &Repeats) -> Vec<Option<Vec<u8>>> {
    let mut runs: Vec<Option<Vec<u8>>> = Vec::new();
    for items in macros {
        let own = items.iter().try_fold(Vec::new(), |mut run, &(item, repeat)| {
            for _ in 0..repeat {
                match item {
                    0..=255 => run.push(item as u8),
                    _ => run.extend_from_slice(runs[usize::from(item) - 256].as_ref()?),
                }
                if run.len() > MOST_KEYS {
                    return None;
                }
            }
            Some(run)
        });
        runs.push(own);
    }
    runs
}

/// Counts and reports of a seeded book, by every method.
fn counted(checks: &mut Checks, rng: &mut Rng, turn: u64) {
    let (question, tree) = sound_question(rng, BOTH[turn as usize % 2]);
    let macros = for_question(rng, &question);
    let bytes = write(&macros);
    let shown = |number: usize| {
        describe(&Case::Count { number, words: 0, question: question.clone(), book: bytes.clone() })
    };
    let book = match book::read(&bytes) {
        Ok(book) => book,
        Err(refusal) => return checks.check(false, || format!("a sound book was refused: {refusal}")),
    };
    let last = macros.len() - 1;
    let by_states = count_within(&book, &tree, last, 0);
    checks.check(by_states.reports == joined(&book, &tree, last), || format!("joins: {}", shown(last)));
    checks.check(by_states.steps == 0, || format!("steps: {}", shown(last)));
    let states = States::of(&tree);
    let mut tester = Tester::new(&tree);
    for (number, run) in expanded(&macros).iter().enumerate() {
        let run = match run {
            Some(run) => run,
            None => continue,
        };
        let report = written::report(&states, &mut tester, run);
        checks.check(by_states.reports[number] == report, || format!("report: {}", shown(number)));
        checks.check(Runs::of(&book).keep(number) == run, || format!("run: {}", shown(number)));
        let matching = lines(run).iter().filter(|line| line_matches(&tree, line)).count() as u64;
        let answered = book_count(number, &question, &bytes, &mut vec![0; 40 * macros.len()]);
        checks.check(answered == Ok((matching, 0)), || format!("lines: {}", shown(number)));
        checks.check(report.lines(&states) == Some(matching), || format!("told lines: {}", shown(number)));
    }
    checks.check(selftest_reach::is_right(&book, last), || format!("reach list: {}", shown(last)));
}

/// The reports by joins: one by one where there are few passes, and by halves.
fn joined(book: &Book, tree: &Pattern, last: usize) -> Vec<Report> {
    let halves = reports(book, tree, last, |once, repeat| by_halves(once, repeat, right));
    let passes: usize =
        book.macros.iter().flat_map(|each| &each.repeats).map(|&each| usize::from(each)).sum();
    if passes < MOST_PASSES {
        assert_eq!(halves, reports(book, tree, last, one_by_one), "passes one by one and by halves differ");
    }
    halves
}

/// Depths of seeded books, and reach lists of others.
fn deep_and_reached(checks: &mut Checks, rng: &mut Rng) {
    let keys = make_depth::some_pair(rng);
    let macros = if rng.chance(60) {
        let plain = make_depth::small(rng, keys);
        with_counts(rng, &plain, Hand::Light)
    } else {
        for_depths(rng, keys)
    };
    every_depth(checks, &macros, keys);
    let macros = make_repeats::for_reach(rng);
    let bytes = write(&macros);
    if let Ok(book) = book::read(&bytes) {
        let number = rng.below(macros.len());
        checks.check(selftest_reach::is_right(&book, number), || {
            format!("reach list of {number} in {bytes:?}")
        });
    }
}

fn every_depth(checks: &mut Checks, macros: &Repeats, keys: Keys) {
    let bytes = write(macros);
    let shown = || format!("depths of {keys:?} in {bytes:?}");
    let book = match book::read(&bytes) {
        Ok(book) => book,
        Err(refusal) => return checks.check(false, || format!("a sound book was refused: {refusal}")),
    };
    let last = macros.len() - 1;
    let own = figures(&book, keys, last);
    for (run, own) in expanded(macros).iter().zip(&own) {
        if let Some(run) = run {
            checks.check(Some(of_run(run, keys)) == *own, shown);
        }
    }
    let passes: usize = macros.iter().flatten().map(|&(_, repeat)| usize::from(repeat)).sum();
    if passes < MOST_PASSES {
        checks.check(selftest_depth::is_right(&book, keys, last), shown);
    }
    let case = Case::Depth { number: last, words: 3 * macros.len(), keys, book: bytes.clone() };
    let line = answer(&case);
    checks.check(right_depths(&case, &line) == line, shown);
}

/// Each wrong program gives another answer to some of the cases, and the right methods the same one.
fn wrong_ones(checks: &mut Checks, cases: impl Iterator<Item = Case>, name: &str, least: usize) {
    let mut seen = [0; WRONG.len()];
    for case in cases {
        let own = answer(&case);
        for (times, (_, wrong)) in seen.iter_mut().zip(WRONG) {
            *times += usize::from(wrong(&case, &own) != own);
        }
        let again = [right_count(&case, &own), right_depths(&case, &own)];
        checks
            .check(again.iter().all(|line| *line == own), || format!("told otherwise: {}", describe(&case)));
    }
    for (times, (wrong, _)) in seen.iter().zip(WRONG) {
        checks.check(*times >= least, || format!("{name} repeat counts: {wrong} is seen {times} times"));
    }
}

/// Cases written to a stream and read again are the same.
fn streams(checks: &mut Checks) {
    let cases: Vec<Case> = make_repeats::cases(12, 400).collect();
    let bytes: Vec<u8> = cases.iter().flat_map(Case::bytes).collect();
    let mut stream = Stream { left: &bytes };
    for case in &cases {
        let read = stream.case().map(|case| case.bytes());
        checks.check(read == Some(case.bytes()), || format!("stream: {}", describe(case)));
    }
    checks.check(stream.left.is_empty(), || String::from("stream: bytes left over"));
}

/// What was stated of the command and of `cuecount`.
fn programs(checks: &mut Checks) {
    selftest_command::stated(checks, &count_runs(SEED), compare_count::own_answer);
    selftest_command::stated(checks, &check_runs(SEED), compare_check::own_answer);
    selftest_command::stated(checks, &reach_runs(SEED), compare_reach::own_answer);
    for (start, _) in check_runs(SEED).iter().chain(&reach_runs(SEED)) {
        selftest_command::second_method(checks, &start.book);
    }
    selftest_command::stated(checks, &depth_runs(SEED), compare_depth::own_answer);
    for (input, stated) in cuecount_repeats::inputs(SEED) {
        let own = cuecount(&input);
        checks.check(stated.is_none() || stated == Some(&own), || {
            format!("cuecount: {own}, stated {stated:?}")
        });
    }
}
