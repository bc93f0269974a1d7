//! Seeded pairs of reports for joining: real ones, and any numbers at all.

use crate::line_ends::LF;
use crate::make_line;
use crate::make_question::{some_letters, sound_question};
use crate::make_returns;
use crate::meaning::Tester;
use crate::report::{Report, MOST_STATES};
use crate::rng::Rng;
use crate::states::States;
use crate::written;

pub fn pair(rng: &mut Rng) -> (Report, Report) {
    let (mut left, mut right) = if rng.chance(50) { real(rng) } else { any(rng) };
    for report in [&mut left, &mut right] {
        if rng.chance(35) {
            rubbish(rng, report);
        }
        if rng.chance(30) {
            report.closed = near_top(rng);
        }
        if rng.chance(20) {
            report.trimmed = thin(rng);
        }
        if rng.chance(20) {
            report.edges = some_edges(rng);
        }
        if rng.chance(15) {
            report.flag = rng.pick(&[0, 1, 2, 3, 255, 256, 257, 1 << 32, u64::MAX]);
        }
    }
    if rng.chance(12) {
        right.s = rng.pick(&[0, 2, 3, 31, 32, 33, 64, left.s, left.s + 256, left.s + (1 << 32)]);
    }
    (left, right)
}

/// The reports of two runs under one question.
fn real(rng: &mut Rng) -> (Report, Report) {
    let letters = some_letters(rng);
    let (question, tree) = sound_question(rng, letters);
    let states = States::of(&tree);
    let mut tester = Tester::new(&tree);
    let mut one = |rng: &mut Rng| {
        let mut run = make_line::run(rng, &question);
        if rng.chance(40) {
            run.retain(|&key| key != LF);
        }
        if rng.chance(20) {
            run = make_returns::lone(rng).to_vec();
        }
        make_returns::stray(rng, &mut run);
        written::report(&states, &mut tester, &run)
    };
    (one(rng), one(rng))
}

fn any(rng: &mut Rng) -> (Report, Report) {
    let s = rng.pick(&[2, 3, 3, 4, 5, 8, 16, 31, 32, 32, 33, 1 << 33]);
    let one = |rng: &mut Rng| {
        let mut report = Report::empty(s);
        for row in report.rows.iter_mut() {
            *row = thin(rng);
        }
        report.flag = rng.pick(&[0, 0, 1, 1, 1, 2, 3]);
        report.heads = thin(rng);
        report.closed = near_top(rng);
        report.tail = thin(rng);
        report.trimmed = thin(rng);
        report.edges = some_edges(rng);
        if rng.chance(25) {
            // So a report without LF looks empty.
            report.rows[0] |= 1;
        }
        report
    };
    (one(rng), one(rng))
}

/// The two bits that are read, sometimes with others.
fn some_edges(rng: &mut Rng) -> u64 {
    let read = rng.below(4) as u64;
    match rng.below(4) {
        0 => read | rng.next() & !3,
        1 => read | 4 << rng.below(62),
        _ => read,
    }
}

/// Few bits, so that sets sometimes have nothing in common; bits above 32 too.
fn thin(rng: &mut Rng) -> u64 {
    let word = rng.next() & rng.next() & rng.next();
    match rng.below(4) {
        0 => word & 0xFF,
        1 => word & rng.next(),
        2 => 0,
        _ => word,
    }
}

fn near_top(rng: &mut Rng) -> u64 {
    match rng.below(5) {
        0 => rng.below(5) as u64,
        1 => u64::MAX - rng.below(4) as u64,
        2 => (1 << 63) - rng.below(3) as u64,
        3 => (1 << 63) + rng.below(3) as u64,
        _ => rng.next(),
    }
}

/// Fills what the join must ignore: rows and bits at s and above, and what the flag empties; of the last word
/// all bits but two.
fn rubbish(rng: &mut Rng, report: &mut Report) {
    let s = report.s.min(MOST_STATES as u64) as usize;
    let above = !((1u64 << s) - 1);
    report.trimmed |= rng.next() & above;
    report.edges |= rng.next() & !3;
    for row in report.rows[s..].iter_mut() {
        *row = rng.next();
    }
    for row in report.rows[..s].iter_mut() {
        *row = if report.flag == 0 { *row | (rng.next() & above) } else { rng.next() };
    }
    if report.flag == 0 {
        report.heads = rng.next();
        report.closed = rng.next();
        report.tail = rng.next();
        return;
    }
    report.heads |= rng.next() & above;
    report.tail |= rng.next() & above;
    if report.flag != 1 {
        report.closed = rng.next();
    }
}
