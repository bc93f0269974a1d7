//! Fixed depths of runs up to 2^62 keys and beyond (document 02, S-6): chains of macros that each call the one
//! below twice, so that macro i has macro 0's run 2^i times.

use crate::fixed::Fixed;
use crate::fixed_depth::{asked, each_way, refused, stated, Row, MANY, ROUND};
use crate::make_book::{call, keys, write, Macros};

pub const LONGEST: i128 = 1 << 62;

pub fn long_depths() -> Vec<Fixed> {
    [doublings(), far(), behind_too_long(), powers_of_64(), orders()].concat()
}

pub fn chain(first: &[u8], last: usize) -> Macros {
    let mut macros = vec![keys(first)];
    macros.extend((1..=last).map(|number| vec![call(number - 1); 2]));
    macros
}

/// The figures of such a chain from those of its first macro. Where the depth falls from one time to the next, the
/// last time is the lowest, else the first.
pub fn rows(first: (i128, i128, i128), last: usize) -> Vec<Row> {
    let (length, end, lowest) = first;
    let row = |number: usize| -> Row {
        let times = 1i128.checked_shl(number as u32).filter(|_| number < 70)?;
        let low = if end < 0 { (times - 1) * end + lowest } else { lowest };
        Some((times * length, times * end, low)).filter(|row| row.0 <= LONGEST)
    };
    (0..=last).map(row).collect()
}

/// Around 2^62, 2^63 and 2^64 keys, with depths as high and as low as such runs allow.
fn doublings() -> Vec<Fixed> {
    let mut fixed = Vec::new();
    for (first, figures) in [
        (&b"("[..], (1, 1, 0)),
        (b")", (1, -1, -1)),
        (b"a", (1, 0, 0)),
        (b"\r", (1, 0, 0)),
        (b"()", (2, 0, 0)),
        (b")(", (2, 0, -1)),
        (b"))", (2, -2, -2)),
        (b"))(", (3, -1, -2)),
        (b"(()", (3, 1, 0)),
        (b"))((", (4, 0, -2)),
        (b"))a(", (4, -1, -2)),
    ] {
        for last in [60, 61, 62, 63, 64, 65] {
            fixed.extend(each_way(ROUND, &chain(first, last), &rows(figures, last)));
        }
    }
    fixed
}

/// A chain of 1,024 macros; lengths past 2^128 and 2^1000.
fn far() -> Vec<Fixed> {
    let mut fixed = Vec::new();
    for (first, figures) in [(&b"("[..], (1, 1, 0)), (b"))(", (3, -1, -2))] {
        let (macros, all) = (chain(first, 1023), rows(figures, 1023));
        for last in [62, 63, 127, 128, 129, 1023] {
            let book = write(&macros);
            fixed.push(asked(last, MANY, ROUND, book, &stated(&all[..=last], MANY)));
        }
    }
    fixed
}

/// Behind macros that are too long: macros that call them, and some that do not.
fn behind_too_long() -> Vec<Fixed> {
    let (mut macros, mut all) = (chain(b")", 66), rows((1, -1, -1), 66));
    let a = u16::from(b'a');
    let more: [(Vec<u16>, Row); 12] = [
        (vec![call(63)], None),
        (vec![a, call(63)], None),
        (vec![call(64), a], None),
        (vec![call(66); 64], None),
        (vec![call(62), a], None),
        (vec![a, call(62)], None),
        (vec![call(62)], Some((LONGEST, -LONGEST, -LONGEST))),
        (vec![call(62), call(0)], None),
        (vec![call(73), call(73)], None),
        (vec![a, call(0)], Some((2, -1, -1))),
        (vec![call(3), u16::from(b'(')], Some((9, -7, -8))),
        (vec![call(76), call(70), call(76)], None),
    ];
    let mut fixed = Vec::new();
    for (items, row) in more {
        macros.push(items);
        all.push(row);
        fixed.extend(each_way(ROUND, &macros, &all));
    }
    fixed
}

/// Each macro calls the one below 64 times, from 64 keys on: macro 9 has 2^60.
fn powers_of_64() -> Vec<Fixed> {
    let mut fixed = Vec::new();
    for (key, sign) in [(b'(', 1), (b')', -1)] {
        let figures = |length: i128| Some((length, sign * length, (sign * length).min(0)));
        let mut macros = vec![keys(&[key; 64])];
        macros.extend((1..10).map(|number| vec![call(number - 1); 64]));
        let all: Vec<Row> = (1..=10).map(|number| figures(1 << (6 * number))).collect();
        for (items, row) in [
            (vec![call(9); 4], figures(LONGEST)),
            (vec![call(9); 3], figures(LONGEST - (1 << 60))),
            (vec![call(9); 5], None),
            (vec![call(9); 16], None),
            (vec![call(9); 64], None),
            ([vec![call(9); 4], keys(b"x")].concat(), None),
            ([vec![call(9); 4], vec![call(0)]].concat(), None),
        ] {
            let (macros, all) = ([&macros[..], &[items]].concat(), [&all[..], &[row]].concat());
            fixed.extend(each_way(ROUND, &macros, &all));
        }
    }
    fixed
}

/// 10 and 11 come before 19 and leave the words as they were.
fn orders() -> Vec<Fixed> {
    let book = write(&chain(b"(", 63));
    let ask = |number, words, refusal| asked(number, words, ROUND, book.clone(), &refused(refusal, words));
    vec![ask(64, MANY, 10), ask(64, 0, 10), ask(63, 191, 11), ask(63, 1, 11), ask(63, 189, 11)]
}
