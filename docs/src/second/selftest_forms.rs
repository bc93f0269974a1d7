//! Checks the forms of books and the regroupings of version 2 books (document 02, S-7 and S-8): that they write the
//! runs of the first book, that the own answers keep the laws, and that wrong forms and wrong lines are seen.

use crate::answer::answer;
use crate::book;
use crate::compare_repeats;
use crate::fixed_regroup_repeated;
use crate::forms::Forms;
use crate::group::{fault, Group};
use crate::make_book::Macros;
use crate::make_regroup;
use crate::reach;
use crate::regroup::{regrouped, Regrouping};
use crate::repeats::{gathered, single, write, Repeats};
use crate::selftest::Checks;
use crate::selftest_regroup::{is_right, lines};
use crate::written::{lengths, Runs};

const SEED: u64 = 0x5E1F;
const SEEDED: u64 = 90;
const REGROUPED: u64 = 400;
/// So many of the seeded regroupings are counted, too.
const COUNTED: usize = 60;
/// So long a run is written out.
const MOST_KEYS: u64 = 5000;

/// What a wrong form is called, and the form.
type Wrong = (&'static str, fn(&Macros) -> Repeats);

const WRONG: [Wrong; 5] = [
    ("gathered with one fewer", |macros| counts(&gathered(macros), |repeat| repeat.max(2) - 1)),
    ("gathered without counts", |macros| counts(&gathered(macros), |_| 1)),
    ("gathered, and every item left", |macros| {
        let chunks = |items: &Vec<u16>| items.chunk_by(|one, other| one == other).map(<[u16]>::len).collect();
        let numbers: Vec<Vec<usize>> = macros.iter().map(chunks).collect();
        let again = |(items, numbers): (&Vec<u16>, &Vec<usize>)| {
            let each = numbers.iter().flat_map(|&number| vec![number as u16; number]);
            items.iter().copied().zip(each).collect()
        };
        macros.iter().zip(&numbers).map(again).collect()
    }),
    ("gathered across the macro", |macros| {
        let of_macro = |items: &Vec<u16>| {
            let mut own: Vec<(u16, u16)> = Vec::new();
            for &item in items {
                match own.iter_mut().find(|(known, _)| *known == item) {
                    Some((_, repeat)) => *repeat += 1,
                    None => own.push((item, 1)),
                }
            }
            own
        };
        macros.iter().map(of_macro).collect()
    }),
    ("each item twice", |macros| counts(&single(macros), |_| 2)),
];

fn counts(repeats: &Repeats, count: fn(u16) -> u16) -> Repeats {
    let of_macro = |items: &Vec<(u16, u16)>| items.iter().map(|&(item, own)| (item, count(own))).collect();
    repeats.iter().map(of_macro).collect()
}

pub fn all(checks: &mut Checks) {
    let forms: Vec<Forms> = compare_repeats::forms(SEED, SEEDED).collect();
    let mut seen = [0; WRONG.len()];
    for each in &forms {
        checks.check(same_runs(each), || each.about());
        let own: Vec<String> = each.cases().iter().map(|(_, case)| answer(case)).collect();
        let well = each.as_stated(&own) && fault(each, &own, &own).is_none();
        checks.check(well, || each.about());
        wrong_lines(checks, each, &own);
        for (times, (_, wrong)) in seen.iter_mut().zip(WRONG) {
            *times += usize::from(is_seen(each, wrong));
        }
    }
    for (times, (name, _)) in seen.iter().zip(WRONG) {
        checks.check(*times >= 5, || format!("forms: {name} is seen {times} times"));
    }
    regroupings(checks);
}

/// The same lengths of all macros, and the same runs where they are short.
fn same_runs(forms: &Forms) -> bool {
    let books = forms.books();
    let read: Vec<book::Book> = books.iter().filter_map(|bytes| book::read(bytes).ok()).collect();
    let last = forms.macros.len() - 1;
    if read.len() != 3 {
        return false;
    }
    let first = lengths(&read[0], last);
    let whole = read.iter().map(|book| reach::lengths(book, last)).collect::<Vec<_>>();
    let mut runs: Vec<Runs> = read.iter().map(Runs::of).collect();
    let mut same = |number: usize| {
        let written: Vec<Vec<u8>> = runs.iter_mut().map(|runs| runs.keep(number).to_vec()).collect();
        written[0] == written[1] && written[1] == written[2]
    };
    whole[0] == whole[1]
        && whole[1] == whole[2]
        && (0..=last).all(|number| first[number] > MOST_KEYS || same(number))
}

/// Every line that is another is seen.
fn wrong_lines(checks: &mut Checks, forms: &Forms, own: &[String]) {
    for place in 0..own.len() {
        let mut printed = own.to_vec();
        printed[place] = own[place].replacen(' ', " 9", 1);
        let broken = forms.laws(&printed).iter().any(|law| !law.holds);
        checks.check(broken, || format!("law, {place}: {}", forms.about()));
    }
}

/// A wrong form in the place of the third book breaks a law, or is refused.
fn is_seen(forms: &Forms, wrong: fn(&Macros) -> Repeats) -> bool {
    let [plain, once, _] = forms.books();
    let cases = forms.cases_with([plain, once, write(&wrong(&forms.macros))]);
    let printed: Vec<String> = cases.iter().map(|(_, case)| answer(case)).collect();
    forms.laws(&printed).iter().any(|law| !law.holds)
}

fn regroupings(checks: &mut Checks) {
    let fixed = fixed_regroup_repeated::regroupings();
    let seeded: Vec<Regrouping<(u16, u16)>> = make_regroup::repeated_ones(SEED, REGROUPED).collect();
    for regrouping in fixed.iter().chain(&seeded) {
        let new = regrouped(&regrouping.macros, &regrouping.cut);
        checks.check(is_right(regrouping, &new), || regrouping.about());
    }
    for regrouping in fixed.iter().chain(&seeded[..COUNTED]) {
        lines(checks, regrouping);
    }
}
