//! Checks depths (document 02, S-6): the method of pairs against runs written out and looked at point by point,
//! against figures put together item by item, and with small limits in place of 2^62.

use crate::book::{self, Book};
use crate::case::Case;
use crate::command_key::{key, word};
use crate::compare_depth;
use crate::depth::{words, Keys};
use crate::depth_figures::{figures, figures_within, of_run, Figures, LONGEST};
use crate::depth_paired;
use crate::fixed;
use crate::fixed_depth::ROUND;
use crate::make_book::{call, keys, write, Macros};
use crate::make_depth;
use crate::natural::Natural;
use crate::reach::lengths;
use crate::rng::Rng;
use crate::selftest::Checks;
use crate::selftest_command;
use crate::selftest_depth_made;
use crate::selftest_depth_told::{composed, Asked};
use crate::selftest_depth_wrong::WRONG;
use crate::written::{self, Runs};
use std::collections::BTreeSet;

const SEEDED: u64 = 1500;
/// So many keys are looked at point by point.
const MOST_KEYS: u64 = 300;
/// In place of 2^62; none is over MOST_KEYS.
const SMALL_LIMITS: [i128; 8] = [0, 1, 2, 3, 7, 16, 60, 299];

pub fn all(checks: &mut Checks) {
    twos_complement(checks);
    tiny_runs(checks);
    for number in 0..SEEDED {
        let mut rng = Rng::for_case(0xDE97, number);
        let macros = make_depth::macros(&mut rng, ROUND);
        every_macro(checks, &write(&macros), ROUND);
    }
    let stated = fixed::of_depths();
    let mut seen = BTreeSet::new();
    for fixed in &stated {
        if let Case::Depth { keys, book, .. } = &fixed.case {
            if keys.check().is_ok() && seen.insert((keys.opening, keys.closing, book)) {
                every_macro(checks, book, *keys);
            }
        }
    }
    wrong_ones(checks, stated.iter().map(|fixed| &fixed.case));
    command_words(checks);
    selftest_command::stated(checks, &compare_depth::runs(0x5E1F), compare_depth::own_answer);
    selftest_depth_made::all(checks);
}

fn twos_complement(checks: &mut Checks) {
    for (number, stated) in [
        (0, 0),
        (1, 1),
        (-1, 18_446_744_073_709_551_615),
        (1 << 62, 4_611_686_018_427_387_904),
        (-(1 << 62), 13_835_058_055_282_163_712),
    ] {
        let own = words(&Some(Figures { length: 5, end: number, lowest: number }));
        checks.check(own == [5, stated, stated], || format!("two's complement of {number}"));
    }
    checks.check(words(&None) == [u64::MAX, 0, 0], || String::from("words of a run that is too long"));
}

/// Every run of up to seven openings, closings and other keys, as it is and cut in two anywhere.
fn tiny_runs(checks: &mut Checks) {
    let mut runs: Vec<Vec<u8>> = vec![Vec::new()];
    for _ in 0..7 {
        runs = runs.iter().flat_map(|run| b"()a".map(|key| [&run[..], &[key]].concat())).collect();
        for run in &runs {
            every_macro(checks, &write(&[keys(run)]), ROUND);
            for cut in 1..run.len() {
                let (left, right) = run.split_at(cut);
                let macros: Macros = vec![keys(left), keys(right), vec![call(0), call(1)]];
                every_macro(checks, &write(&macros), ROUND);
            }
        }
    }
}

/// Nothing is checked of a book that is refused.
fn every_macro(checks: &mut Checks, bytes: &[u8], keys: Keys) {
    if let Ok(book) = book::read(bytes) {
        let last = book.macros.len() - 1;
        checks.check(is_right(&book, keys, last), || format!("depths of {keys:?} in {bytes:?}"));
        let by_points = every_point(&book, keys);
        for limit in SMALL_LIMITS {
            let paired = depth_paired::figures(&book, keys, last, limit);
            let right = by_points.iter().zip(&paired).all(|(points, paired)| match points {
                Some(points) => Some(*points).filter(|own| own.length <= limit) == *paired,
                None => paired.is_none(),
            });
            checks.check(right, || format!("depths of {keys:?}, limit {limit}, in {bytes:?}"));
        }
    }
}

/// The figures of each macro from its run written out; nothing where there are too many keys, and then more
/// than the small limits allow.
fn every_point(book: &Book, keys: Keys) -> Vec<Option<Figures>> {
    let lengths = written::lengths(book, book.macros.len() - 1);
    let mut runs = Runs::of(book);
    let mut of_macro = |number: usize| {
        if lengths[number] > MOST_KEYS {
            return None;
        }
        let run = runs.keep(number);
        let points = by_points(run, keys);
        assert_eq!(points, of_run(run, keys), "points and run differ");
        Some(points)
    };
    (0..lengths.len()).map(&mut of_macro).collect()
}

/// By all the methods that do not write runs out, and with the lengths as whole numbers of any size.
pub fn is_right(book: &Book, keys: Keys, last: usize) -> bool {
    let own = figures(book, keys, last);
    let mut longest = Natural::one();
    for _ in 0..62 {
        longest.add(&longest.clone());
    }
    let too_long = lengths(book, last).into_iter().map(|length| length > longest);
    own == figures_within(book, keys, last, 0, LONGEST)
        && own == composed(book, keys, last, LONGEST)
        && own.iter().map(Option::is_none).eq(too_long)
}

/// Each point of the run on its own: openings before it less closings before it.
fn by_points(run: &[u8], keys: Keys) -> Figures {
    let count = |part: &[u8], key: u8| part.iter().filter(|&&each| each == key).count() as i128;
    let depth = |point: usize| count(&run[..point], keys.opening) - count(&run[..point], keys.closing);
    let mut depths: Vec<i128> = (0..=run.len()).map(depth).collect();
    let end = depths[run.len()];
    depths.sort_unstable();
    Figures { length: run.len() as i128, end, lowest: depths[0] }
}

/// Each wrong method gives another answer to some of the fixed cases.
fn wrong_ones<'a>(checks: &mut Checks, cases: impl Iterator<Item = &'a Case>) {
    let mut seen = [0; WRONG.len()];
    for case in cases {
        if let Some(asked) = Asked::of(case) {
            for (times, (_, wrong)) in seen.iter_mut().zip(WRONG) {
                *times += usize::from(wrong(&asked) != asked.own);
            }
        }
    }
    for (times, (name, _)) in seen.iter().zip(WRONG) {
        checks.check(*times >= 5, || format!("fixed depths: {name} is seen {times} times"));
    }
}

/// Each key in all its words.
fn command_words(checks: &mut Checks) {
    for named in 0..=255 {
        for turn in 0..3 {
            let word = word(named, turn);
            checks.check(key(&word) == Some(named), || format!("key {named} as {word:?}"));
        }
    }
}
