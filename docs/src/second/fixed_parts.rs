//! Fixed cases for the book reader, bodies, reach lists and joins, with stated answers.

use crate::case::Case;
use crate::fixed::Fixed;
use crate::fixed_books::example;
use crate::make_book::{call, keys, write, Macros};
use crate::report::Report;

/// The hash of 32 rows that are all 0.
const NO_ROWS: &str = "7253525369073312775";

pub fn parts() -> Vec<Fixed> {
    let mut fixed = heads();
    fixed.extend(readings());
    fixed.extend(bodies());
    fixed.extend(reaches());
    fixed.extend(joins());
    fixed.extend(join_edges());
    fixed
}

fn sound(book: &[u8], stated: &str) -> Fixed {
    Fixed::new(Case::Sound { book: book.to_vec() }, stated)
}

/// Refusals 1 to 3, and what comes before what.
fn heads() -> Vec<Fixed> {
    vec![
        sound(b"", "refused 1"),
        sound(b"MBK", "refused 1"),
        sound(b"MBK\x03\0\0", "refused 1"),
        sound(b"MBL\x01\0\x01\0\x01\0a\0", "refused 1"),
        sound(b"mbk\x01\0\x01\0\x01\0a\0", "refused 1"),
        sound(b"MBK\x03\0\0\0", "refused 2"),
        sound(b"MBK\0\0\x01\0\x01\0a\0", "refused 2"),
        sound(b"MBK\x01\x01\x01\0\x01\0a\0", "refused 2"),
        sound(b"MBK\x01\0\0\0", "refused 3"),
        sound(b"MBK\x01\0\x01\x04", "refused 3"),
        sound(b"MBK\x01\0\0\x04", "refused 4"),
        sound(b"MBK\x01\0\x01\0", "refused 4"),
        sound(b"MBK\x01\0\x01\0\x01", "refused 4"),
        sound(b"MBK\x01\0\x01\0\x01\0", "refused 4"),
        sound(b"MBK\x01\0\x01\0\x01\0a", "refused 4"),
        sound(b"MBK\x01\0\x01\0\x01\0a\0", "sound 1"),
        sound(b"MBK\x01\0\x01\0\x01\0a\0\0", "refused 4"),
        sound(b"MBK\x01\0\x02\0\x01\0a\0", "refused 4"),
    ]
}

/// Refusals 4 to 6, item by item.
fn readings() -> Vec<Fixed> {
    vec![
        sound(&write(&[vec![]]), "refused 4"),
        sound(&write(&[vec![97; 64]]), "sound 1"),
        sound(&write(&[vec![97; 65]]), "refused 4"),
        sound(&write(&vec![vec![97]; 1024]), "sound 1024"),
        sound(&write(&vec![vec![97]; 1025]), "refused 3"),
        sound(&write(&[vec![0]]), "refused 5"),
        sound(&write(&[vec![255]]), "sound 1"),
        sound(&write(&[vec![256]]), "refused 6"),
        sound(&write(&[vec![1], vec![256]]), "sound 2"),
        sound(&write(&[vec![1], vec![257]]), "refused 6"),
        sound(&write(&[vec![1], vec![65535]]), "refused 6"),
        sound(&write(&[vec![0, 256]]), "refused 5"),
        sound(&write(&[vec![256, 0]]), "refused 6"),
        sound(&write(&[vec![256], vec![]]), "refused 6"),
        sound(&write(&[vec![97], vec![], vec![0]]), "refused 4"),
        sound(b"MBK\x01\0\x01\0\x03\0a\0\0\0", "refused 5"),
        sound(b"MBK\x01\0\x01\0\x03\0a\0\0\x01", "refused 6"),
        sound(b"MBK\x01\0\x01\0\x02\0a\0\0", "refused 4"),
        sound(b"MBK\x01\0\x01\0\x01\0\0\0\0", "refused 5"),
        sound(b"MBK\x01\0\x01\0\0\x01a\0", "refused 4"),
    ]
}

fn bodies() -> Vec<Fixed> {
    let body = |number, macros: &[Vec<u16>], stated: &str| {
        Fixed::new(Case::Body { number, book: write(macros) }, stated)
    };
    vec![
        body(0, &example(), "body 4 8431163"),
        body(1, &example(), "body 6 6215445286"),
        body(2, &example(), "refused 10"),
        body(65_536, &example(), "refused 10"),
        body(2, &[vec![0]], "refused 5"),
        body(1, &[keys(b"a"), vec![call(0); 64]], "body 128 5187013749084657735"),
    ]
}

/// The entries begin as 65535, 65534 and so on; those behind the written ones stay.
fn reaches() -> Vec<Fixed> {
    let reach = |number, entries, macros: &[Vec<u16>], stated: &str| {
        Fixed::new(Case::Reach { number, entries, book: write(macros) }, stated)
    };
    let skipping: Macros = vec![keys(b"a"), keys(b"b"), vec![call(0), 98, call(0)]];
    vec![
        reach(1, 2, &example(), "reached 2: 1 0 rest 7"),
        reach(1, 3, &example(), "reached 2: 1 0 rest 65750"),
        reach(0, 1, &example(), "reached 1: 0 rest 7"),
        reach(0, 0, &example(), "refused 11 rest 7"),
        reach(1, 1, &example(), "refused 11 rest 65752"),
        reach(2, 0, &example(), "refused 10 rest 7"),
        reach(2, 3, &skipping, "reached 2: 2 0 rest 65750"),
        reach(2, 2, &skipping, "refused 11 rest 2103846"),
        reach(1, 2, &skipping, "reached 1: 1 rest 65751"),
        reach(3, 0, &[vec![0]], "refused 5 rest 7"),
    ]
}

/// The reports of the example's parts under `B`, worked out by hand: s = 4.
fn open(rows: [u64; 4]) -> Report {
    let mut report = Report::empty(4);
    report.rows[..4].copy_from_slice(&rows);
    report
}

fn ended(flag: u64, heads: u64, closed: u64, tail: u64) -> Report {
    Report { flag, heads, closed, tail, ..Report::empty(4) }
}

fn join(left: &Report, right: &Report, stated: &str) -> Fixed {
    let stated = stated.replace("none", NO_ROWS);
    Fixed::new(Case::Join { left: left.clone(), right: right.clone() }, &stated)
}

fn joins() -> Vec<Fixed> {
    let key_b = open([14, 14, 4, 0]);
    let key_c = open([2, 2, 4, 0]);
    let line = ended(1, 7, 0, 1);
    vec![
        join(&key_b, &key_c, "report 4 0 0 0 0 0 0 10578302484079379267"),
        join(&key_c, &key_b, "report 4 0 0 0 0 0 0 6757500766874190915"),
        join(&line, &key_c, "report 4 1 7 0 2 0 0 none"),
        join(&ended(1, 7, 0, 2), &line, "report 4 1 7 1 1 0 0 none"),
        join(&line, &line, "report 4 1 7 1 1 0 0 none"),
        join(&key_c, &line, "report 4 1 7 0 1 0 0 none"),
        join(&key_c, &ended(1, 4, 5, 1), "report 4 1 4 5 1 0 0 none"),
        join(&ended(1, 7, 5, 8), &ended(1, 7, 6, 2), "report 4 1 7 11 2 0 0 none"),
        join(&ended(1, 7, 5, 8), &ended(1, 15, 6, 2), "report 4 1 7 12 2 0 0 none"),
    ]
}

/// The top of the range, flags over 2, what must be ignored, and refusal 13.
fn join_edges() -> Vec<Fixed> {
    let max = u64::MAX;
    let with_s = |s: u64| Report { s, ..Report::empty(s) };
    let mut fixed = vec![
        join(&ended(1, 7, max, 1), &ended(1, 6, 0, 2), "report 4 1 7 18446744073709551615 2 0 0 none"),
        join(&ended(1, 7, max, 1), &ended(1, 7, 0, 2), "report 4 2 7 0 2 0 0 none"),
        join(&ended(1, 7, 1 << 63, 1), &ended(1, 6, 1 << 63, 2), "report 4 2 7 0 2 0 0 none"),
        join(&ended(2, 7, 9, 1), &ended(1, 6, 0, 2), "report 4 2 7 0 2 0 0 none"),
        join(&ended(1, 7, 9, 1), &ended(9, 6, 0, 2), "report 4 2 7 0 2 0 0 none"),
        join(&ended(max, 7, 9, 1), &open([2, 2, 4, 0]), "report 4 2 7 0 2 0 0 none"),
        join(&open([2, 2, 4, 0]), &ended(256, 4, 9, 1), "report 4 2 4 0 1 0 0 none"),
        join(&ended(1, max, 1, 1), &ended(1, 240, 1, max), "report 4 1 15 2 15 0 0 none"),
        join(&open([18, 16, 0, 0]), &ended(1, 18, 1, 1), "report 4 1 1 1 1 0 0 none"),
        join(&ended(0, 7, 9, 1), &ended(0, 7, 9, 1), "report 4 0 0 0 0 0 0 none"),
    ];
    for (left, right) in [(2, 2), (33, 33), (0, 0), (4, 5), (3, 259), (max, max)] {
        fixed.push(join(&with_s(left), &with_s(right), "refused 13"));
    }
    fixed.push(join(&with_s(3), &with_s(3), "report 3 0 0 0 0 0 0 none"));
    fixed.push(join(&with_s(32), &with_s(32), "report 32 0 0 0 0 0 0 none"));
    fixed
}
