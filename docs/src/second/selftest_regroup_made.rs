//! Checks that the seeded regroupings ask enough (document 02, S-7): which macros they cut, where, and into what.

use crate::answer::answer;
use crate::book::{self, item, Item, FIRST_CALL};
use crate::group::Group;
use crate::letters::Letters;
use crate::make_book::{call, write};
use crate::regroup::{lowest, Cut, Regrouping};
use crate::selftest::Checks;
use crate::written::{lengths, Runs};
use std::collections::BTreeMap;

/// What must be seen among the seeded regroupings, and how often at least.
const LEAST: &[(&str, usize)] = &[
    ("1,024 macros then", 15),
    ("64 items", 42),
    ("64 items before and then", 16),
    ("CR and LF at the first seam", 26),
    ("CR and LF at the second seam", 31),
    ("X or Z calls a macro from j on", 100),
    ("Y calls", 240),
    ("Y is all", 110),
    ("Y is one item", 220),
    ("a count past 2^64 - 1", 18),
    ("a later macro calls another from j on", 160),
    ("a later macro calls m", 140),
    ("a line across all of Y", 68),
    ("a line across the first seam", 180),
    ("a line across the second seam", 170),
    ("a long run", 77),
    ("as low as it may be", 350),
    ("as low as it may be, not 0 and not m", 46),
    ("case ignored", 150),
    ("just below", 280),
    ("not the last macro", 160),
];

/// What was seen, and how often.
type Seen = BTreeMap<&'static str, usize>;

pub fn all(checks: &mut Checks, regroupings: &[Regrouping]) {
    let mut seen = Seen::new();
    for regrouping in regroupings {
        look_at(&mut seen, regrouping);
        look_at_seams(&mut seen, regrouping);
    }
    for (what, least) in LEAST {
        let times = seen.get(*what).copied().unwrap_or(0);
        checks.check(times >= *least, || format!("seeded regroupings: {what} {times} times, not {least}"));
    }
}

fn note(seen: &mut Seen, what: &'static str, holds: bool) {
    *seen.entry(what).or_default() += usize::from(holds);
}

fn look_at(seen: &mut Seen, regrouping: &Regrouping) {
    let Regrouping { macros, cut, question, .. } = regrouping;
    let Cut { number, from, to, into } = *cut;
    let items = &macros[number];
    let low = lowest(macros, number, from, to);
    let later = macros[number + 1..].iter().flatten();
    note(seen, "case ignored", question.letters == Letters::Alike);
    note(seen, "Y is all", to - from == items.len());
    note(seen, "Y is one item", to - from == 1);
    note(seen, "Y calls", items[from..to].iter().any(|&item| item >= FIRST_CALL));
    note(seen, "as low as it may be", into == low);
    note(seen, "as low as it may be, not 0 and not m", into == low && into > 0 && into < number);
    note(seen, "just below", into == number);
    note(seen, "not the last macro", number + 1 < macros.len());
    note(seen, "a later macro calls m", later.clone().any(|&item| item == call(number)));
    note(seen, "a later macro calls another from j on", later.clone().any(|&item| item >= call(into)));
    let around = items[..from].iter().chain(&items[to..]);
    note(seen, "X or Z calls a macro from j on", around.clone().any(|&item| item >= call(into)));
    note(seen, "64 items", items.len() == 64);
    note(seen, "64 items before and then", items.len() == 64 && to - from == 1);
    note(seen, "1,024 macros then", macros.len() == 1023);
}

/// The first and the last key of Y's run, and those before and behind it; of short runs alone.
fn look_at_seams(seen: &mut Seen, regrouping: &Regrouping) {
    let bytes = write(&regrouping.macros);
    let Cut { number, from, to, .. } = regrouping.cut;
    let book = match book::read(&bytes) {
        Ok(book) => book,
        Err(_) => return,
    };
    if lengths(&book, number)[number] > 5000 {
        note(seen, "a long run", true);
        let line = answer(&regrouping.cases()[2].1);
        return note(seen, "a count past 2^64 - 1", line.starts_with("refused 12"));
    }
    let mut runs = Runs::of(&book);
    let mut run_of = |items: &[u16]| -> Vec<u8> {
        let of_item = |&written: &u16| match item(written) {
            Item::Key(key) => vec![key],
            Item::Call(called) => runs.keep(called).to_vec(),
        };
        items.iter().flat_map(of_item).collect()
    };
    let items = book.items(number);
    let [before, middle, behind] = [&items[..from], &items[from..to], &items[to..]].map(|part| run_of(part));
    let meet = |one: &[u8], other: &[u8]| (one.last(), other.first()) == (Some(&13), Some(&10));
    let open = |one: &[u8], other: &[u8]| one.last().is_some_and(|&key| key != 10) && !other.is_empty();
    note(seen, "CR and LF at the first seam", meet(&before, &middle));
    note(seen, "CR and LF at the second seam", meet(&middle, &behind));
    note(seen, "a line across the first seam", open(&before, &middle));
    note(seen, "a line across the second seam", open(&middle, &behind));
    note(
        seen,
        "a line across all of Y",
        open(&before, &middle) && open(&middle, &behind) && !middle.contains(&10),
    );
}
