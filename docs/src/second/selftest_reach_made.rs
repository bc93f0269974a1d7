//! Checks that the seeded cases ask enough about reach lists (document 02, S-5): how often each wrong order would
//! be seen, and what books, macros and entries they have.

use crate::book::{self, Book, MOST_MACROS};
use crate::case::Case;
use crate::make;
use crate::operations::reach;
use crate::reach::reached;
use crate::selftest::Checks;
use crate::selftest_reach_wrong::WRONG;
use std::collections::BTreeMap;

const SEEDED: u64 = 7000;

/// What must be seen among the seeded cases, and how often at least.
const LEAST: &[(&str, usize)] = &[
    ("rising", 230),
    ("falling", 180),
    ("nearest first", 175),
    ("last call first", 190),
    ("inner one first", 205),
    ("callers first", 190),
    ("known when called", 105),
    ("last entry", 165),
    ("inner one first at the same key", 200),
    ("five numbers or more", 185),
    ("twenty numbers or more", 80),
    ("a hundred numbers or more", 7),
    ("macros left out", 180),
    ("not the last macro", 120),
    ("as many macros as there may be", 5),
    ("exactly the entries needed", 195),
    ("more entries", 55),
    ("refused 10", 40),
    ("refused 11", 65),
];

/// What was seen, and how often.
type Seen = BTreeMap<String, usize>;

pub fn all(checks: &mut Checks) {
    let mut seen = Seen::new();
    for case in make::cases(0x5E1F, SEEDED) {
        if let Case::Reach { number, entries, book } = &case {
            look_at(&mut seen, *number, *entries, book);
        }
    }
    for (what, least) in LEAST {
        let times = seen.get(*what).copied().unwrap_or(0);
        checks.check(times >= *least, || format!("seeded reach lists: {what} {times} times, not {least}"));
    }
}

fn note(seen: &mut Seen, what: &str, holds: bool) {
    *seen.entry(String::from(what)).or_default() += usize::from(holds);
}

fn look_at(seen: &mut Seen, number: usize, entries: usize, bytes: &[u8]) {
    if let Err(refusal) = reach(number, bytes, &mut vec![0; entries]) {
        return note(seen, &format!("refused {refusal}"), true);
    }
    if let Ok(book) = book::read(bytes) {
        look_at_list(seen, &book, number);
        note(seen, "exactly the entries needed", entries == number + 1);
        note(seen, "more entries", entries > number + 1);
    }
}

fn look_at_list(seen: &mut Seen, book: &Book, number: usize) {
    let list = reached(book, number);
    note(seen, "five numbers or more", list.len() >= 5);
    note(seen, "twenty numbers or more", list.len() >= 20);
    note(seen, "a hundred numbers or more", list.len() >= 100);
    note(seen, "macros left out", list.len() < number + 1);
    note(seen, "not the last macro", number + 1 < book.macros.len());
    note(seen, "as many macros as there may be", book.macros.len() == MOST_MACROS);
    for (name, wrong) in WRONG {
        note(seen, name, wrong(book, number) != list);
    }
}
