//! Fixed triples of reports whose rows tell one join from another (document 02, S-7): full and empty ones, the last
//! state, rows that look like the empty run's, and the report of the empty run in each place.

use crate::fixed_triple::{by_hand, by_states, ended, open};
use crate::report::Report;
use crate::triple::{unit, Triple};

const TOP: u64 = u64::MAX;
const FULL: u64 = (1 << 32) - 1;
const LAST: u64 = 1 << 31;

/// The unit in each place; the join of the two others must come through.
pub fn units() -> Vec<Triple> {
    let e = || unit(32);
    let swap = |one: usize, other: usize| {
        let mut report = e();
        report.rows.swap(one, other);
        report
    };
    let full = || ended(32, 1, [LAST, TOP, LAST]);
    let line = || ended(32, 1, [LAST, 0, 1]);
    let over = ended(32, 2, [LAST, 0, 1]);
    vec![
        by_hand("three empty runs, s 3", [unit(3), unit(3), unit(3)], unit(3)),
        by_hand("three empty runs, s 32", [e(), e(), e()], e()),
        by_hand("the unit first, a line across behind it", [e(), full(), line()], over.clone()),
        by_hand("the unit in a line across", [full(), e(), line()], over.clone()),
        by_hand("the unit last, a line across before it", [full(), line(), e()], over),
        by_states("the unit first, rows behind it", [e(), swap(0, 31), swap(31, 30)]),
        by_states("the unit between rows", [swap(0, 31), e(), swap(31, 30)]),
        by_states("the unit behind rows, s 31", [near(&unit(31), 30), near(&unit(31), 0), unit(31)]),
    ]
}

/// The same with one row that leads nowhere.
fn near(report: &Report, row: usize) -> Report {
    let mut near = report.clone();
    near.rows[row] = 0;
    near
}

pub fn rows() -> Vec<Triple> {
    [wide(), last_state(), looking_empty(), told_apart()].concat()
}

fn wide() -> Vec<Triple> {
    let (full, none) = (|| open(&[FULL; 32]), || open(&[0; 32]));
    let end = |closed: u64| ended(32, 1, [FULL, closed, FULL]);
    vec![
        by_hand("full rows, s 32", [full(), full(), full()], full()),
        by_hand("empty rows between full ones", [full(), none(), full()], none()),
        by_hand("full rows in a line across", [end(1), full(), end(1)], end(3)),
        by_hand("empty rows in a line across", [end(1), none(), end(1)], end(2)),
        by_hand("empty rows before heads", [none(), end(1), none()], ended(32, 1, [0, 1, 0])),
    ]
}

/// Of 32 states, of 31 and of 3 only the last one leads on.
fn last_state() -> Vec<Triple> {
    let mut triples = Vec::new();
    for s in [3, 31, 32] {
        let last = 1 << (s - 1);
        let only = |row: usize, to: u64| {
            let mut report = Report::empty(s);
            report.rows[row] = to;
            report
        };
        let top = s as usize - 1;
        triples.push(by_hand(
            "through the last state",
            [only(0, last), only(top, last), only(top, 2)],
            only(0, 2),
        ));
        let ends = || ended(s, 1, [last, TOP, last]);
        let parts = [ends(), only(top, last), ended(s, 1, [last, 0, last])];
        triples.push(by_hand("a line across by the last state", parts, ended(s, 2, [last, 0, last])));
    }
    triples
}

/// Row 0 has state 0, and yet the report is not that of the empty run. s is 4.
fn looking_empty() -> Vec<Triple> {
    let (bare, more) = (|| open(&[1, 0, 0, 0]), || open(&[9, 4, 2, 1]));
    let key = || open(&[2, 2, 4, 8]);
    let end = |heads: u64, tail: u64| ended(4, 1, [heads, 7, tail]);
    let over = |heads: u64, tail: u64| ended(4, 2, [heads, 0, tail]);
    vec![
        by_hand("A looks empty", [bare(), key(), end(14, 8)], end(1, 8)),
        by_hand("B looks empty", [key(), bare(), end(15, 8)], end(0, 8)),
        by_hand("C looks empty", [end(6, 8), key(), bare()], end(6, 0)),
        by_hand("A looks empty before a flag 2", [more(), over(8, 8), end(1, 2)], over(1, 2)),
        by_hand("B looks empty in a line across", [end(6, 6), more(), end(9, 1)], ended(4, 1, [6, 14, 1])),
        by_hand("C looks empty behind a flag 2", [over(6, 1), key(), more()], over(6, 4)),
        by_hand("all look empty", [more(), bare(), more()], open(&[9, 0, 0, 9])),
        // 0 leads to 1, and 1 back to 0.
        by_hand("AB looks empty, A and B do not", [key(), open(&[0, 1, 1, 0]), end(3, 1)], end(7, 1)),
    ]
}

/// Where an easy mistake makes another report.
fn told_apart() -> Vec<Triple> {
    let round = || open(&[2, 4, 8, 16, 1]);
    let swap = || open(&[2, 1, 4, 8, 16]);
    let up = || open(&[30, 28, 24, 16, 0]);
    let end = |heads: u64, tail: u64| ended(5, 1, [heads, 3, tail]);
    vec![
        by_hand("rows in their order", [round(), swap(), round()], open(&[2, 8, 16, 1, 4])),
        by_hand("rows not turned round", [up(), up(), up()], open(&[24, 16, 0, 0, 0])),
        by_hand("heads of other states than line-start", [up(), swap(), end(16, 1)], end(15, 1)),
        by_hand("a tail of other states than line-start", [end(1, 12), round(), swap()], end(1, 24)),
        by_hand(
            "sets that have nothing in common",
            [end(1, 21), end(10, 10), end(21, 4)],
            ended(5, 1, [1, 9, 4]),
        ),
        by_hand(
            "sets with one state in common",
            [end(1, 21), end(14, 17), end(19, 4)],
            ended(5, 1, [1, 11, 4]),
        ),
    ]
}
