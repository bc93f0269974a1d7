//! Checks that the seeded cases ask enough about repeat counts (document 02, S-8): what is repeated, how often, what
//! meets where one pass ends and the next begins, and which answers come.

use crate::answer::answer;
use crate::book::{self, Book, Item, REPEATING_VERSION};
use crate::case::Case;
use crate::line_ends::{CR, LF};
use crate::make_repeats;
use crate::selftest::Checks;
use std::collections::BTreeMap;

const SEEDED: u64 = 4000;

/// What must be seen among the seeded cases, and how often at least.
const LEAST: &[(&str, usize)] = &[
    ("C", 900),
    ("c", 400),
    ("D", 450),
    ("H", 320),
    ("K", 350),
    ("B", 180),
    ("a repeated key", 1_200),
    ("a repeated LF", 250),
    ("a repeated CR", 150),
    ("a repeated call", 1_500),
    ("65,535 times", 400),
    ("256 times", 100),
    ("CR and LF meet between passes", 150),
    ("a CR stands alone, repeated", 100),
    ("a line goes from pass to pass", 400),
    ("lines", 600),
    ("end", 200),
    ("reached", 150),
    ("body", 100),
    ("sound", 80),
    ("refused 1", 7),
    ("refused 2", 30),
    ("refused 3", 20),
    ("refused 4", 150),
    ("refused 5", 20),
    ("refused 6", 40),
    ("refused 7", 1),
    ("refused 8", 15),
    ("refused 9", 4),
    ("refused 10", 150),
    ("refused 11", 150),
    ("refused 12", 60),
    ("refused 18", 15),
    ("refused 19", 60),
    ("refused 20", 70),
    ("lines 18446744073709551615", 10),
];

/// What was seen, and how often.
type Seen = BTreeMap<String, usize>;

pub fn all(checks: &mut Checks) {
    let mut seen = Seen::new();
    for case in make_repeats::cases(0x5E20, SEEDED) {
        note(&mut seen, &char::from(case.kind()).to_string(), true);
        note_answer(&mut seen, &answer(&case));
        if let Case::Count { book, .. } = &case {
            look_at(&mut seen, book);
        }
    }
    for (what, least) in LEAST {
        let times = seen.get(*what).copied().unwrap_or(0);
        checks.check(times >= *least, || format!("seeded repeat counts: {what} {times} times, not {least}"));
    }
}

fn note(seen: &mut Seen, what: &str, holds: bool) {
    *seen.entry(String::from(what)).or_default() += usize::from(holds);
}

/// By its first word, a refusal by its number, and the highest count.
fn note_answer(seen: &mut Seen, line: &str) {
    let words: Vec<&str> = line.split(' ').collect();
    match words[0] {
        "refused" => note(seen, &format!("refused {}", words[1]), true),
        first => note(seen, first, true),
    }
    note(seen, "lines 18446744073709551615", line.starts_with("lines 18446744073709551615 "));
}

fn look_at(seen: &mut Seen, bytes: &[u8]) {
    let book = match book::read(bytes) {
        Ok(book) if book.version() == REPEATING_VERSION => book,
        _ => return,
    };
    let items: Vec<(Item, u16)> = (0..book.macros.len()).flat_map(|number| book.repeated(number)).collect();
    let any = |holds: &dyn Fn(Item, u16) -> bool| items.iter().any(|&(item, repeat)| holds(item, repeat));
    let repeated = |key: u8| any(&|item, repeat| repeat > 1 && matches!(item, Item::Key(own) if own == key));
    note(seen, "a repeated key", any(&|item, repeat| repeat > 1 && matches!(item, Item::Key(_))));
    note(seen, "a repeated LF", repeated(LF));
    note(seen, "a repeated CR", repeated(CR));
    note(seen, "a repeated call", any(&|item, repeat| repeat > 1 && matches!(item, Item::Call(_))));
    note(seen, "65,535 times", any(&|_, repeat| repeat == 65_535));
    note(seen, "256 times", any(&|_, repeat| repeat == 256));
    let ends = ends(&book);
    let meet = |holds: &dyn Fn((u8, u8)) -> bool| {
        any(&|item, repeat| repeat > 1 && matches!(item, Item::Call(called) if holds(ends[called])))
    };
    note(seen, "CR and LF meet between passes", meet(&|(first, last)| first == LF && last == CR));
    note(
        seen,
        "a CR stands alone, repeated",
        meet(&|(first, last)| first == CR && last == CR) || repeated(CR),
    );
    note(seen, "a line goes from pass to pass", meet(&|(first, last)| first != LF && last != LF));
}

/// The first and the last key of each macro's run.
fn ends(book: &Book) -> Vec<(u8, u8)> {
    let mut ends: Vec<(u8, u8)> = Vec::new();
    for number in 0..book.macros.len() {
        let of_item = |item: Item| match item {
            Item::Key(key) => (key, key),
            Item::Call(called) => ends[called],
        };
        let mut items = book.repeated(number).map(|(item, _)| of_item(item));
        let first = items.next().unwrap_or_default();
        let last = items.last().unwrap_or(first);
        ends.push((first.0, last.1));
    }
    ends
}
