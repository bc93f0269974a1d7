//! Fixed triples of reports (document 02, S-7): sums about 2^64 - 1, and all mixes of flags.

use crate::fixed_triple_rows::{rows, units};
use crate::fixed_triple_runs::runs;
use crate::join_by_states;
use crate::report::Report;
use crate::triple::Triple;

const TOP: u64 = u64::MAX;
const HALF: u64 = 1 << 63;
const OVER: Option<u64> = None;
/// More than 32 bits hold.
const PAST_32: u64 = 1 << 32;

pub fn triples() -> Vec<Triple> {
    let mut triples: Vec<Triple> = SUMS.iter().map(sum).collect();
    triples.extend(around_open());
    triples.extend((0..27).map(mixed));
    triples.extend(units());
    triples.extend(rows());
    triples.extend(runs());
    triples
}

/// Without LF; s is the number of rows.
pub fn open(rows: &[u64]) -> Report {
    let mut report = Report::empty(rows.len() as u64);
    report.rows[..rows.len()].copy_from_slice(rows);
    report
}

/// With LF: heads, closed, tail.
pub fn ended(s: u64, flag: u64, [heads, closed, tail]: [u64; 3]) -> Report {
    Report { flag, heads, closed, tail, ..Report::empty(s) }
}

/// The whole was worked out by hand.
pub fn by_hand(why: &str, parts: [Report; 3], whole: Report) -> Triple {
    Triple { why: String::from(why), parts, whole: Some(whole) }
}

/// The whole comes from JOINING.md read a second time, state by state, the first two first.
pub fn by_states(why: &str, parts: [Report; 3]) -> Triple {
    let [a, b, c] = &parts;
    let whole = join_by_states::joined(&join_by_states::joined(a, b), c);
    by_hand(why, parts, whole)
}

/// The closed lines of three reports with LF, whether the lines across match, and what they make.
type Sum = (&'static str, [u64; 3], [bool; 2], Option<u64>);

const SUMS: &[Sum] = &[
    ("no matching line at all", [0, 0, 0], [false, false], Some(0)),
    ("both lines across, and no others", [0, 0, 0], [true, true], Some(2)),
    ("a sum of 33 bits", [PAST_32 - 1, 1, 5], [false, false], Some(PAST_32 + 5)),
    ("2^64 - 1 without a line across", [TOP - 5, 3, 2], [false, false], Some(TOP)),
    ("2^64 - 1 with both lines across", [TOP - 7, 3, 2], [true, true], Some(TOP)),
    ("2^64 - 1 by the first line across", [TOP - 1, 0, 0], [true, false], Some(TOP)),
    ("2^64 - 1 by the second line across", [0, 0, TOP - 1], [false, true], Some(TOP)),
    ("2^64 - 1 of two halves", [HALF, 0, HALF - 1], [false, false], Some(TOP)),
    ("2^64 - 1 of two halves and a line across", [HALF - 1, 0, HALF - 1], [true, false], Some(TOP)),
    ("past by one, by the line across in A B", [TOP, 0, 0], [true, false], OVER),
    ("past by one, by the line across in B C", [0, 0, TOP], [false, true], OVER),
    ("past by one, by the line across behind AB", [TOP, 0, 0], [false, true], OVER),
    ("past by one, by the line across before BC", [0, 0, TOP], [true, false], OVER),
    ("past by one, by both lines across", [TOP - 1, 0, 0], [true, true], OVER),
    ("past by one, the full one between", [0, TOP, 0], [true, false], OVER),
    ("past by one, the halves apart", [HALF - 1, 0, HALF - 1], [true, true], OVER),
    ("past by one, by closed lines alone", [TOP, 0, 1], [false, false], OVER),
    ("past in A B, and only with A in A BC", [HALF, HALF, 0], [false, false], OVER),
    ("past in B C, and only with C in AB C", [0, HALF, HALF], [false, false], OVER),
    ("past in neither first join", [HALF, 0, HALF], [false, false], OVER),
    ("past in every join", [TOP, TOP, TOP], [true, true], OVER),
    ("past, and cut to 64 bits 5", [TOP, 1, 5], [false, false], OVER),
    ("past, and cut to 64 bits 2^64 - 1", [TOP, TOP, 1], [false, false], OVER),
];

/// A line across matches where the states of the tail before it and of the heads behind it have one in common.
fn sum((why, [a, b, c], across, made): &Sum) -> Triple {
    let [first, second] = across.map(|matches| if matches { 3 } else { 4 });
    let parts = [ended(3, 1, [2, *a, 1]), ended(3, 1, [first, *b, 2]), ended(3, 1, [second, *c, 4])];
    let whole = match made {
        Some(closed) => ended(3, 1, [2, *closed, 4]),
        None => ended(3, 2, [2, 0, 4]),
    };
    by_hand(why, parts, whole)
}

/// The line across goes through a report without LF, or a report without LF stands beside a full one.
fn around_open() -> Vec<Triple> {
    let leads = || open(&[2, 4, 1]);
    let end = |heads: u64, closed: u64, tail: u64| ended(3, 1, [heads, closed, tail]);
    let over = |heads: u64, tail: u64| ended(3, 2, [heads, 0, tail]);
    vec![
        by_hand("past by one, by a line through B", [end(5, TOP, 1), leads(), end(2, 0, 4)], over(5, 4)),
        by_hand("2^64 - 1 by a line through B", [end(5, TOP - 1, 1), leads(), end(2, 0, 4)], end(5, TOP, 4)),
        by_hand("2^64 - 1, no line through B", [end(5, TOP, 1), leads(), end(5, 0, 4)], end(5, TOP, 4)),
        by_hand("past by one behind an A without LF", [leads(), end(1, TOP, 1), end(1, 0, 4)], over(4, 4)),
        by_hand("past by one before a C without LF", [end(4, 0, 1), end(1, TOP, 1), leads()], over(4, 2)),
        by_hand(
            "2^64 - 1 before a C without LF",
            [end(4, 1, 1), end(1, TOP - 2, 1), leads()],
            end(4, TOP, 2),
        ),
        by_hand("2^64 - 1 between two without LF", [leads(), end(6, TOP, 3), leads()], end(3, TOP, 6)),
    ]
}

/// Each mix of three flags, and each s from 3 to 29.
fn mixed(mix: u64) -> Triple {
    let s = 3 + mix;
    let flags = [mix / 9, mix / 3 % 3, mix % 3];
    let part = |place: u64| match flags[place as usize] {
        0 => {
            let row = |state: u64| 1 << ((2 * state + place + 1) % s) | (state % 3 / 2) << (state % s);
            open(&(0..s).map(row).collect::<Vec<u64>>())
        }
        flag => {
            let set =
                |step: u64| (0..s).filter(|state| (state + mix) % step == 0).map(|state| 1 << state).sum();
            ended(s, flag, [set(3 + place), if flag == 1 { 10 + mix } else { 0 }, set(4 - place)])
        }
    };
    by_states(&format!("flags {}, {} and {}", flags[0], flags[1], flags[2]), [part(0), part(1), part(2)])
}
