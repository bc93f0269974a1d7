//! Checks regroupings (document 02, S-7): that the new book is sound and writes the runs that the old one writes,
//! that wrong regroupings are seen, and that the refusals of those that break a condition are the stated ones.

use crate::answer::answer;
use crate::book::{self, Book};
use crate::fixed_regroup;
use crate::fixed_regroup_refused;
use crate::group::{fault, Group};
use crate::make_book::Macros;
use crate::make_regroup;
use crate::reach;
use crate::regroup::{counted, regrouped, Entry, Regrouping};
use crate::selftest::Checks;
use crate::selftest_regroup_made;
use crate::selftest_regroup_wrong::WRONG;
use crate::written::{self, Runs};

const SEED: u64 = 0x5E1F;
const SEEDED: u64 = 600;
const REFUSED: u64 = 300;
/// So many of the seeded ones are counted, too.
const COUNTED: usize = 60;
/// Wrong regroupings are made of books with fewer.
const FEW_MACROS: usize = 50;
/// So long a run is written out.
const MOST_KEYS: u64 = 5000;

pub fn all(checks: &mut Checks) {
    let fixed = fixed_regroup::regroupings();
    let seeded: Vec<Regrouping> = make_regroup::regroupings(SEED, SEEDED).collect();
    for regrouping in fixed.iter().chain(&seeded) {
        let new = regrouped(&regrouping.macros, &regrouping.cut);
        checks.check(is_right(regrouping, &new), || regrouping.about());
    }
    for regrouping in fixed.iter().chain(&seeded[..COUNTED]) {
        lines(checks, regrouping);
    }
    wrong_ones(checks, &fixed, &seeded[..COUNTED / 2]);
    front_words(checks);
    refused_ones(checks);
    selftest_regroup_made::all(checks, &seeded);
}

/// Sound, one macro more, and each macro of the old book has its run, as far as runs are short, and its length.
pub fn is_right<E: Entry>(regrouping: &Regrouping<E>, new: &[Vec<E>]) -> bool {
    let bytes = [E::write(&regrouping.macros), E::write(new)];
    match (book::read(&bytes[0]), book::read(&bytes[1])) {
        (Ok(old), Ok(new)) => new.macros.len() == old.macros.len() + 1 && same_runs(regrouping, &old, &new),
        _ => false,
    }
}

fn same_runs<E: Entry>(regrouping: &Regrouping<E>, old: &Book, new: &Book) -> bool {
    let last = old.macros.len() - 1;
    let lengths = written::lengths(old, last);
    let whole = [reach::lengths(old, last), reach::lengths(new, last + 1)];
    let (mut old_runs, mut new_runs) = (Runs::of(old), Runs::of(new));
    (0..=last).all(|number| {
        let other = number + usize::from(number >= regrouping.cut.into);
        let short = lengths[number] <= MOST_KEYS;
        whole[0][number] == whole[1][other] && (!short || old_runs.keep(number) == new_runs.keep(other))
    })
}

/// The own answers keep the law; each line that is another is seen, and another count breaks the law.
pub fn lines<E: Entry>(checks: &mut Checks, regrouping: &Regrouping<E>) {
    let own: Vec<String> = regrouping.cases().iter().map(|(_, case)| answer(case)).collect();
    let well = regrouping.as_stated(&own) && fault(regrouping, &own, &own).is_none();
    checks.check(well, || regrouping.about());
    for place in 0..own.len() {
        let mut printed = own.clone();
        printed[place].push('0');
        let told = fault(regrouping, &own, &printed).is_some();
        checks.check(told, || format!("line {place} of {}", regrouping.about()));
        // Steps and work words may differ, the first words may not.
        let kept = |printed: &[String]| regrouping.laws(printed).iter().all(|law| law.holds);
        checks.check(kept(&printed), || format!("law, {place}: {}", regrouping.about()));
        printed[place] = own[place].replacen(' ', " 9", 1);
        checks.check(kept(&printed) == (place < 2), || format!("law, {place}: {}", regrouping.about()));
    }
}

/// Each wrong regrouping is seen in the runs, and by the lines that are compared.
fn wrong_ones(checks: &mut Checks, fixed: &[Regrouping], seeded: &[Regrouping]) {
    let mut seen = [[0; 4]; WRONG.len()];
    for (list, side) in [(fixed, 0), (seeded, 2)] {
        for regrouping in list.iter().filter(|each| each.macros.len() < FEW_MACROS) {
            let own: Vec<String> = regrouping.cases().iter().map(|(_, case)| answer(case)).collect();
            for (seen, (_, wrong)) in seen.iter_mut().zip(WRONG) {
                let new = wrong(&regrouping.macros, &regrouping.cut);
                seen[side] += usize::from(!is_right(regrouping, &new));
                seen[side + 1] += usize::from(is_seen(regrouping, &own, &new));
            }
        }
    }
    for (seen, (name, _)) in seen.iter().zip(WRONG) {
        checks.check(seen.iter().all(|&times| times > 0), || format!("{name}: seen {seen:?} times"));
    }
}

/// The new book is refused, or the counts are not the same.
fn is_seen(regrouping: &Regrouping, own: &[String], new: &Macros) -> bool {
    let cases = regrouping.cases_with(new);
    let sound = answer(&cases[1].1);
    let lines = [own[0].clone(), sound.clone(), own[2].clone(), answer(&cases[3].1)];
    sound != own[1] || regrouping.laws(&lines).iter().any(|law| !law.holds)
}

fn front_words(checks: &mut Checks) {
    for (line, front) in [
        ("lines 5 steps 7 work 1", Some("lines 5")),
        ("refused 12 work 1", Some("refused 12")),
        ("refused 11 work 1", None),
        ("refused 1 work 2", None),
        ("lines 5", None),
        ("", None),
    ] {
        checks.check(counted(line) == front, || format!("the front of {line}"));
    }
}

fn refused_ones(checks: &mut Checks) {
    let mut seen = [0; 7];
    let seeded = make_regroup::refused_ones(SEED, REFUSED);
    for fixed in fixed_regroup_refused::refused_ones().into_iter().chain(seeded) {
        let (own, stated) = (answer(&fixed.case), &fixed.stated);
        checks.check(own == *stated, || format!("a broken regrouping: stated {stated}, answered {own}"));
        for (number, times) in seen.iter_mut().enumerate() {
            *times += usize::from(own == format!("refused {number}"));
        }
    }
    let enough = [3, 4, 6].iter().all(|&number| seen[number] > 40);
    checks.check(enough, || format!("broken regroupings: {seen:?}"));
}
