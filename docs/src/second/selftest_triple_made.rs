//! Checks that the seeded triples ask enough (document 02, S-7): which flags, states, rows and sums they have.

use crate::answer::answer;
use crate::case::Case;
use crate::report::{Report, BEGINS_WITH_LF, ENDS_IN_CR};
use crate::selftest::Checks;
use crate::triple::{joined, unit, Triple};
use std::collections::BTreeMap;

/// What must be seen among the seeded triples, and how often at least.
const LEAST: &[(&str, usize)] = &[
    ("CR and LF meet in A B", 120),
    ("CR and LF meet in B C", 160),
    ("CR and LF meet past an empty run", 28),
    ("a line across through rows", 90),
    ("an empty run between", 180),
    ("an empty run first", 190),
    ("an empty run last", 190),
    ("both without LF, joined not empty", 550),
    ("empty rows", 170),
    ("exactly 2^64 - 1", 120),
    ("exactly 2^64 - 1 by a line across", 58),
    ("flag 2 with a word of S-4", 11),
    ("full rows", 140),
    ("looks empty and is not", 970),
    ("more closed lines than one", 330),
    ("no line across", 470),
    ("one line across", 480),
    ("one state in each row", 1410),
    ("past by one", 78),
    ("past by one by a line across", 68),
    ("past in A B alone", 61),
    ("past in B C alone", 72),
    ("past in both first joins", 44),
    ("past in the last joins alone", 90),
    ("rows that make another report in another order", 290),
    ("runs", 1140),
    ("runs past 2^64 - 1 in a join alone", 19),
    ("state 31", 500),
    ("states without a final CR", 650),
    ("states without a final CR, through rows", 72),
    ("the unit", 720),
    ("two lines across", 72),
];

/// What was seen, and how often.
type Seen = BTreeMap<String, usize>;

pub fn all(checks: &mut Checks, triples: &[Triple]) {
    let mut seen = Seen::new();
    for triple in triples {
        look_at(&mut seen, triple);
        match triple.whole {
            None => look_at_sums(&mut seen, &triple.parts),
            Some(_) => look_at_words(&mut seen, &triple.parts),
        }
    }
    for s in 3..=32 {
        let times = seen.get(&format!("s {s}")).copied().unwrap_or(0);
        checks.check(times >= 20, || format!("seeded triples: s {s} {times} times"));
    }
    for mix in 0..27 {
        let mix = format!("flags {} {} {}", mix / 9, mix / 3 % 3, mix % 3);
        let times = seen.get(&mix).copied().unwrap_or(0);
        checks.check(times >= 5, || format!("seeded triples: {mix} {times} times"));
    }
    for (what, least) in LEAST {
        let times = seen.get(*what).copied().unwrap_or(0);
        checks.check(times >= *least, || format!("seeded triples: {what} {times} times, not {least}"));
    }
    let refused = triples.iter().any(|triple| {
        let [left, right, _] = triple.parts.clone();
        answer(&Case::Join { left, right }).starts_with("refused")
    });
    checks.check(!refused, || String::from("seeded triples: a join is refused"));
}

fn note(seen: &mut Seen, what: &str, holds: bool) {
    *seen.entry(String::from(what)).or_default() += usize::from(holds);
}

fn look_at(seen: &mut Seen, triple: &Triple) {
    let [a, b, c] = &triple.parts;
    note(seen, &format!("s {}", a.s), true);
    if triple.whole.is_none() {
        note(seen, &format!("flags {} {} {}", a.flag, b.flag, c.flag), true);
    }
    let open = |report: &&Report| report.flag == 0;
    for part in triple.parts.iter().filter(open) {
        let rows = &part.rows[..part.s as usize];
        let same = *part == unit(part.s);
        note(seen, "the unit", same);
        note(seen, "looks empty and is not", !same && rows[0] & 1 == 1);
        note(seen, "empty rows", rows.iter().all(|&row| row == 0));
        note(seen, "full rows", rows.iter().all(|row| row.count_ones() == part.s as u32));
        note(seen, "one state in each row", rows.iter().all(|row| row.count_ones() == 1));
        note(seen, "state 31", rows.iter().any(|row| row >> 31 == 1));
    }
    let order = [a, b].iter().all(open) && joined(a, b) != joined(b, a);
    note(seen, "rows that make another report in another order", order);
    note(seen, "both without LF, joined not empty", [a, b].iter().all(open) && joined(a, b).rows != [0; 32]);
}

/// What the sums come to, and where they pass 2^64 - 1 first.
fn look_at_sums(seen: &mut Seen, [a, b, c]: &[Report; 3]) {
    let counted = |report: &Report| report.flag < 2;
    if ![a, b, c].into_iter().all(counted) {
        return;
    }
    let bare = |report: &Report| Report { closed: 0, ..report.clone() };
    let across = joined(&joined(&bare(a), &bare(b)), &bare(c)).closed;
    let closed: u128 = [a, b, c].map(|report| u128::from(report.closed)).iter().sum();
    let sum = closed + u128::from(across);
    let over = |left: &Report, right: &Report| joined(left, right).flag == 2;
    let top = u128::from(u64::MAX);
    note(seen, "no line across", a.flag + b.flag + c.flag > 1 && across == 0);
    note(seen, "one line across", across == 1);
    note(seen, "two lines across", across == 2);
    note(seen, "a line across through rows", b.flag == 0 && across == 1);
    note(seen, "exactly 2^64 - 1", sum == top);
    note(seen, "exactly 2^64 - 1 by a line across", sum == top && across > 0);
    note(seen, "past by one", sum == top + 1);
    note(seen, "past by one by a line across", sum == top + 1 && across > 0);
    note(seen, "past in A B alone", over(a, b) && !over(b, c));
    note(seen, "past in B C alone", !over(a, b) && over(b, c));
    note(seen, "past in both first joins", over(a, b) && over(b, c));
    note(seen, "past in the last joins alone", sum > top && !over(a, b) && !over(b, c));
}

/// Where CR and LF stand at the cuts of runs.
fn look_at_words(seen: &mut Seen, parts: &[Report; 3]) {
    let [a, b, c] = parts;
    let meet =
        |left: &Report, right: &Report| left.edges & ENDS_IN_CR != 0 && right.edges & BEGINS_WITH_LF != 0;
    let empty = |report: &Report| *report == unit(report.s);
    note(seen, "runs", true);
    note(seen, "CR and LF meet in A B", meet(a, b));
    note(seen, "CR and LF meet in B C", meet(b, c));
    note(seen, "CR and LF meet past an empty run", empty(b) && meet(a, c));
    note(seen, "an empty run first", empty(a));
    note(seen, "an empty run between", empty(b));
    note(seen, "an empty run last", empty(c));
    note(seen, "states without a final CR", parts.iter().any(|part| part.trimmed != 0));
    note(
        seen,
        "states without a final CR, through rows",
        a.flag == 0 && a.edges == 0 && b.trimmed != 0 && b.flag == 0,
    );
    note(seen, "flag 2 with a word of S-4", parts.iter().any(|part| part.flag == 2 && part.edges > 0));
    let over = |left: &Report, right: &Report| joined(left, right).flag == 2;
    let counted = parts.iter().all(|part| part.flag < 2);
    note(seen, "runs past 2^64 - 1 in a join alone", counted && over(&joined(a, b), c));
    note(seen, "more closed lines than one", parts.iter().any(|part| part.closed > 1));
}
