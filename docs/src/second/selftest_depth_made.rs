//! Checks that the seeded cases ask enough about depths (document 02, S-6): how often each wrong answer would be
//! seen, and what books, macros and words they have.

use crate::book::{self, MOST_MACROS};
use crate::case::Case;
use crate::depth_figures::{figures, LONGEST};
use crate::make;
use crate::make_depth;
use crate::selftest::Checks;
use crate::selftest_depth_told::Asked;
use crate::selftest_depth_wrong::WRONG;
use std::collections::BTreeMap;

const SEEDED: u64 = 3000;

/// What must be seen among the seeded cases, and how often at least.
const LEAST: &[(&str, usize)] = &[
    ("18 behind the book", 6),
    ("19 for any macro below m", 180),
    ("2^62 + 1 not too long", 43),
    ("2^62 too long", 200),
    ("S-4's line ends", 170),
    ("a call's low byte as a key", 660),
    ("a length without the cap", 270),
    ("a lower macro too long", 180),
    ("as many macros as there may be", 32),
    ("closings without an opening left out", 1280),
    ("end above 0", 580),
    ("end at 0 and lowest below", 90),
    ("end below 0", 640),
    ("end of the last item", 1380),
    ("end over 2^58", 32),
    ("exactly 2^62 keys", 41),
    ("exactly the words needed", 920),
    ("lowest at item ends", 740),
    ("lowest below the end", 570),
    ("lowest of the items, each from 0", 940),
    ("lowest under -2^58", 30),
    ("lowest without the start", 680),
    ("more words", 570),
    ("neither below nor above", 160),
    ("not the last macro", 640),
    ("over 2^60 keys", 80),
    ("refused 1", 28),
    ("refused 2", 29),
    ("refused 3", 13),
    ("refused 4", 90),
    ("refused 5", 6),
    ("refused 6", 32),
    ("refused 10", 260),
    ("refused 11", 250),
    ("refused 18", 90),
    ("refused 19", 80),
    ("the keys the other way round", 1520),
    ("words as before after 19", 80),
    ("words of the reached macros alone", 1030),
];

/// What was seen, and how often.
type Seen = BTreeMap<String, usize>;

pub fn all(checks: &mut Checks) {
    let mut seen = Seen::new();
    for case in make_depth::cases(0x5E1F, SEEDED) {
        look_at(&mut seen, &case);
    }
    for (what, least) in LEAST {
        let times = seen.get(*what).copied().unwrap_or(0);
        checks.check(times >= *least, || format!("seeded depths: {what} {times} times, not {least}"));
    }
    let share = make::cases(0x5E1F, 800).filter(|case| case.kind() == b'D').count();
    checks.check(share == 100, || format!("seeded depths: {share} of 800 cases"));
}

fn note(seen: &mut Seen, what: &str, holds: bool) {
    *seen.entry(String::from(what)).or_default() += usize::from(holds);
}

fn look_at(seen: &mut Seen, case: &Case) {
    let asked = match Asked::of(case) {
        Some(asked) => asked,
        None => return,
    };
    let first: Vec<&str> = asked.own.split(' ').take(2).collect();
    if first[0] == "refused" {
        note(seen, &first.join(" "), true);
    }
    for (name, wrong) in WRONG {
        note(seen, name, wrong(&asked) != asked.own);
    }
    if first[0] == "end" {
        look_at_figures(seen, &asked);
    }
}

/// Of those that are answered.
fn look_at_figures(seen: &mut Seen, asked: &Asked) {
    let book = match book::read(asked.book) {
        Ok(book) => book,
        Err(_) => return,
    };
    let all = figures(&book, asked.keys, asked.number);
    if let Some(own) = all[asked.number] {
        note(seen, "answered", true);
        note(seen, "end below 0", own.end < 0);
        note(seen, "end above 0", own.end > 0);
        note(seen, "end at 0 and lowest below", own.end == 0 && own.lowest < 0);
        note(seen, "neither below nor above", own.end == 0 && own.lowest == 0);
        note(seen, "lowest below the end", own.lowest < own.end.min(0));
        note(seen, "over 2^60 keys", own.length > 1 << 60);
        note(seen, "exactly 2^62 keys", own.length == LONGEST);
        note(seen, "lowest under -2^58", own.lowest < -(1 << 58));
        note(seen, "end over 2^58", own.end > 1 << 58);
        note(seen, "a lower macro too long", all.contains(&None));
        note(seen, "not the last macro", asked.number + 1 < book.macros.len());
        note(seen, "as many macros as there may be", book.macros.len() == MOST_MACROS);
        note(seen, "exactly the words needed", asked.words == 3 * all.len());
        note(seen, "more words", asked.words > 3 * all.len());
    }
}
