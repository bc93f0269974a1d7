//! Fixed joins of reports with the two words of document 02, S-4: of runs, and of numbers that no run gives
//! (JOINING.md).

use crate::answer::report_answer;
use crate::case::Case;
use crate::fixed::Fixed;
use crate::join_by_states::joined;
use crate::report::Report;

pub fn returns_joined() -> Vec<Fixed> {
    let mut fixed = of_runs();
    fixed.extend(of_numbers());
    fixed.extend(edges_and_flags());
    fixed.extend(trimmed_words());
    fixed.extend(wide());
    fixed
}

fn join(left: &Report, right: &Report, expected: &Report) -> Fixed {
    Fixed::new(Case::Join { left: left.clone(), right: right.clone() }, &report_answer(expected))
}

fn open(rows: [u64; 4], trimmed: u64, edges: u64) -> Report {
    let mut report = Report { trimmed, edges, ..Report::empty(4) };
    report.rows[..4].copy_from_slice(&rows);
    report
}

/// Flag 1; heads, closed, tail.
fn ended(fields: [u64; 3], trimmed: u64, edges: u64) -> Report {
    let [heads, closed, tail] = fields;
    Report { flag: 1, heads, closed, tail, trimmed, edges, ..Report::empty(4) }
}

/// The reports of some runs under `a$`, worked out by hand, as fixed_returns_books.rs has them.
fn of_runs() -> Vec<Fixed> {
    let nothing = open([1, 2, 4, 8], 0, 0);
    let a = open([10, 10, 4, 0], 0, 0);
    let cr = open([2, 2, 4, 0], 12, 2);
    let a_cr = open([2, 2, 4, 0], 7, 2);
    let lf = ended([12, 0, 1], 0, 1);
    let lf_a_cr = ended([12, 0, 2], 1, 3);
    let mut fixed = vec![
        join(&a, &cr, &a_cr),
        join(&cr, &cr, &open([2, 2, 4, 0], 4, 2)),
        join(&cr, &a, &open([10, 10, 4, 0], 0, 0)),
        join(&a_cr, &lf, &ended([7, 0, 1], 0, 0)),
        join(&cr, &lf, &ended([12, 0, 1], 0, 0)),
        join(&lf, &cr, &ended([12, 0, 2], 0, 3)),
        join(&lf, &a_cr, &lf_a_cr),
        join(&lf_a_cr, &lf, &ended([12, 1, 1], 0, 1)),
        join(&lf_a_cr, &cr, &ended([12, 0, 2], 0, 3)),
        join(&lf_a_cr, &a, &ended([12, 0, 10], 0, 1)),
        join(&lf_a_cr, &lf_a_cr, &ended([12, 1, 2], 1, 3)),
        join(&a_cr, &lf_a_cr, &ended([7, 0, 2], 1, 2)),
        join(&a, &lf_a_cr, &ended([7, 0, 2], 1, 2)),
    ];
    for report in [&nothing, &a, &cr, &a_cr, &lf, &lf_a_cr] {
        fixed.push(join(&nothing, report, report));
        fixed.push(join(report, &nothing, report));
    }
    fixed
}

/// By hand: words that no run gives. A report without LF looks empty if its first row has line-start.
fn of_numbers() -> Vec<Fixed> {
    let max = u64::MAX;
    let rows = [2, 2, 4, 0];
    let same = [1, 2, 4, 8];
    vec![
        // Only two bits of the one word are read, and only states of the other.
        join(&open(rows, max, max), &ended([0, 5, 1], max, max), &ended([15, 5, 1], 15, 3)),
        join(&open(rows, 0xF0, 4), &ended([2, 5, 1], 0xF0, 0xFC), &ended([3, 5, 1], 0, 0)),
        // A set without a CR, and a CR without a set.
        join(&open(rows, 9, 0), &ended([4, 0, 1], 0, 1), &ended([4, 0, 1], 0, 0)),
        join(&open(rows, 0, 2), &ended([4, 0, 1], 0, 1), &ended([0, 0, 1], 0, 0)),
        join(&open(rows, 8, 0), &open(rows, 2, 1), &open([2, 2, 4, 0], 3, 0)),
        // Without LF an LF at the front is kept all the same.
        join(&open(rows, 0, 3), &open(rows, 0, 3), &open([2, 2, 4, 0], 0, 3)),
        join(&open(same, 0, 0), &open(rows, 4, 3), &open([2, 2, 4, 0], 4, 3)),
        // Looks empty: both words of the other side come through, and its own.
        join(&open(rows, 9, 2), &open(same, 4, 1), &open([2, 2, 4, 0], 13, 2)),
        join(&open(rows, 9, 2), &open([3, 2, 4, 8], 0, 0), &open([2, 2, 4, 0], 9, 2)),
        join(&open(rows, 9, 2), &open([2, 3, 5, 9], 0, 0), &open([3, 3, 5, 0], 0, 0)),
        // All states of the set stay behind an LF, and line-start comes to them.
        join(&ended([4, 7, 2], 12, 2), &open(same, 0, 0), &ended([4, 7, 2], 12, 2)),
        join(&ended([4, 7, 2], 12, 2), &open(same, 2, 3), &ended([4, 7, 2], 13, 2)),
        join(&ended([4, 7, 2], 12, 2), &open(rows, 14, 0), &ended([4, 7, 2], 1, 0)),
        // The line across goes by line-start alone where CR and LF meet.
        join(&ended([4, 7, 2], 14, 2), &ended([2, 1, 1], 6, 1), &ended([4, 8, 1], 6, 0)),
        join(&ended([4, 7, 2], 15, 3), &ended([4, 1, 1], 6, 3), &ended([4, 9, 1], 6, 3)),
        join(&ended([4, 7, 2], 15, 1), &ended([4, 1, 1], 6, 3), &ended([4, 8, 1], 6, 3)),
    ]
}

/// Rows that look like a run's, like the empty run's, and with line-start among others behind line-start.
const ROWS: [[u64; 4]; 3] = [[2, 6, 4, 8], [1, 2, 4, 8], [11, 0, 4, 3]];
const FLAGS: [u64; 4] = [0, 1, 2, 3];
const TRIMMED: [u64; 9] = [0, 1, 2, 4, 13, 14, 15, 0xFFFF_FFFF_0000_0010, u64::MAX];
/// Added to the two bits that are read.
const ABOVE: [u64; 5] = [0, 4, 0, 1 << 63, !3];
const HEADS: [u64; 5] = [0, 2, 12, 15, 0xF1];

/// The number's digits, as it were, pick the fields.
fn picked(rows: [u64; 4], flag: u64, edges: u64, number: usize) -> Report {
    let pick = |list: &[u64], every: usize| list[number / every % list.len()];
    let mut report = open(rows, pick(&TRIMMED, 1), edges | pick(&ABOVE, 2));
    report.flag = flag;
    report.heads = pick(&HEADS, 1);
    report.tail = pick(&HEADS, 3);
    report.closed = pick(&[0, 5, u64::MAX, 1 << 63, u64::MAX - 1], 4);
    report
}

fn by_states(left: &Report, right: &Report) -> Fixed {
    join(left, right, &joined(left, right))
}

/// Every pair of flags, of edges and of looks.
fn edges_and_flags() -> Vec<Fixed> {
    let mut sides = Vec::new();
    for flag in FLAGS {
        for edges in 0..4 {
            for rows in &ROWS[..2] {
                sides.push((*rows, flag, edges));
            }
        }
    }
    let mut fixed = Vec::new();
    for (one, left) in sides.iter().enumerate() {
        for (other, right) in sides.iter().enumerate() {
            let number = one * 37 + other * 11;
            let left = picked(left.0, left.1, left.2, number);
            let right = picked(right.0, right.1, right.2, number + one + 5);
            fixed.push(by_states(&left, &right));
        }
    }
    fixed
}

/// Every pair of sets, for each pair of with and without LF, with and without a CR and an LF that meet.
fn trimmed_words() -> Vec<Fixed> {
    let mut fixed = Vec::new();
    for (one, trimmed) in TRIMMED.iter().enumerate() {
        for (other, next) in TRIMMED.iter().enumerate() {
            for (kind, flags) in [[0, 0], [0, 1], [1, 0], [1, 1]].iter().enumerate() {
                let number = 9 * one + other + kind;
                let edges = [[2, 1], [0, 3], [2, 2], [3, 1], [1, 1]][number % 5];
                let mut left = picked(ROWS[number % 3], flags[0], edges[0], number);
                let mut right = picked(ROWS[number / 3 % 3], flags[1], edges[1], number + 7);
                left.trimmed = *trimmed;
                right.trimmed = *next;
                fixed.push(by_states(&left, &right));
            }
        }
    }
    fixed
}

/// With as few and as many states as there can be: 3 and 32.
fn wide() -> Vec<Fixed> {
    let mut fixed = Vec::new();
    for s in [3, 32] {
        for number in 0..32 {
            let side = |flag: u64, edges: u64, number: u64| {
                let mut report = Report { s, flag, edges, ..Report::empty(s) };
                for (place, row) in report.rows.iter_mut().enumerate() {
                    *row = 1 << ((place as u64 * 5 + number) % 33);
                }
                report.trimmed = 0x1_8000_0005 << (number % 3);
                report.heads = 0x1_8000_0006 >> (number % 2);
                report.tail = 0x1_8000_0001 << (number % 2);
                report
            };
            let left = side(number & 1, number >> 1 & 3, number);
            let right = side(number >> 3 & 1, number >> 2 & 3, number + 1);
            fixed.push(by_states(&left, &right));
        }
    }
    fixed
}
