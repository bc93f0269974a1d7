//! Fixed depths of books whose macros are nested forty deep and deeper, and of the largest books (document 02,
//! S-6). The figures of macro i are stated by formulas in i.

use crate::depth::Keys;
use crate::fixed::Fixed;
use crate::fixed_depth::{asked, each_way, Row, ROUND};
use crate::make_book::{call, keys, write, Macros};

const DEEP: usize = 40;
const LAST: usize = 1023;
const OPEN: u16 = b'(' as u16;
const CLOSE: u16 = b')' as u16;

pub fn deep_depths() -> Vec<Fixed> {
    [around(), one_sided(), doubled(), low_bytes(), every_key(), chains(), full()].concat()
}

/// Macro 0 is these keys, and each macro above calls the one below between some keys.
fn nested(first: &[u8], before: &[u16], behind: &[u16], last: usize) -> Macros {
    let mut macros = vec![keys(first)];
    macros.extend((1..=last).map(|number| [before, &[call(number - 1)], behind].concat()));
    macros
}

fn rows(last: usize, row: impl Fn(i128) -> (i128, i128, i128)) -> Vec<Row> {
    (0..=last as i128).map(|number| Some(row(number))).collect()
}

/// An opening before and a closing behind, or the other way round, or nothing.
fn around() -> Vec<Fixed> {
    let pit = [[b')'; 20], [b'('; 20]].concat();
    [
        each_way(
            ROUND,
            &nested(b")(", &[OPEN], &[CLOSE], DEEP),
            &rows(DEEP, |i| (2 * i + 2, 0, -(1 - i).max(0))),
        ),
        each_way(ROUND, &nested(b")(", &[CLOSE], &[OPEN], DEEP), &rows(DEEP, |i| (2 * i + 2, 0, -i - 1))),
        each_way(
            ROUND,
            &nested(&pit, &[OPEN], &[CLOSE], DEEP),
            &rows(DEEP, |i| (40 + 2 * i, 0, (i - 20).min(0))),
        ),
        each_way(ROUND, &nested(&pit, &[CLOSE], &[OPEN], DEEP), &rows(DEEP, |i| (40 + 2 * i, 0, -20 - i))),
        each_way(ROUND, &nested(b"))(", &[], &[], DEEP), &rows(DEEP, |_| (3, -1, -2))),
    ]
    .concat()
}

/// What macro 0 opens is closed by those above, and what it closes is opened by them.
fn one_sided() -> Vec<Fixed> {
    let (opened, closed) = ([b'('; 40], [b')'; 40]);
    [
        each_way(ROUND, &nested(b"(", &[], &[CLOSE], DEEP), &rows(DEEP, |i| (i + 1, 1 - i, (1 - i).min(0)))),
        each_way(ROUND, &nested(b")", &[OPEN], &[], DEEP), &rows(DEEP, |i| (i + 1, i - 1, (i - 1).min(0)))),
        each_way(ROUND, &nested(&closed, &[OPEN], &[], DEEP), &rows(DEEP, |i| (40 + i, i - 40, i - 40))),
        each_way(ROUND, &nested(&closed, &[], &[OPEN], DEEP), &rows(DEEP, |i| (40 + i, i - 40, -40))),
        each_way(ROUND, &nested(&opened, &[], &[CLOSE], DEEP), &rows(DEEP, |i| (40 + i, 40 - i, 0))),
        each_way(ROUND, &nested(&opened, &[CLOSE], &[], DEEP), &rows(DEEP, |i| (40 + i, 40 - i, -i))),
    ]
    .concat()
}

/// Each macro calls the one below twice, so that macro i has macro 0's run 2^i times.
fn doubled() -> Vec<Fixed> {
    let twice = |first: &[u8]| {
        let mut macros = vec![keys(first)];
        macros.extend((1..=DEEP).map(|number| vec![call(number - 1); 2]));
        macros
    };
    let power = |i: i128| 1i128 << i;
    [
        each_way(ROUND, &twice(b"))("), &rows(DEEP, |i| (3 * power(i), -power(i), -power(i) - 1))),
        each_way(ROUND, &twice(b"(()"), &rows(DEEP, |i| (3 * power(i), power(i), 0))),
        each_way(ROUND, &twice(b")(("), &rows(DEEP, |i| (3 * power(i), power(i), -1))),
        each_way(ROUND, &twice(b"())"), &rows(DEEP, |i| (3 * power(i), -power(i), -power(i)))),
        each_way(ROUND, &twice(b"a\r\n"), &rows(DEEP, |i| (3 * power(i), 0, 0))),
    ]
    .concat()
}

/// The calls of macros 40 and 41 have the low bytes 40 and 41, which are the two keys; they are no keys.
fn low_bytes() -> Vec<Fixed> {
    let mut macros: Macros = vec![keys(b"a"); 42];
    macros.push(vec![call(41), call(40), call(41), call(41)]);
    each_way(ROUND, &macros, &rows(42, |i| (if i == 42 { 4 } else { 1 }, 0, 0)))
}

/// A run of all keys from 1 to 255 in order, and each pair of neighbours without the LF: every second pair with
/// the lower one as the opening key, the others with the higher one.
fn every_key() -> Vec<Fixed> {
    let all: Vec<u16> = (1..=255).collect();
    let mut macros: Macros = all.chunks(64).map(|part| part.to_vec()).collect();
    macros.push((0..4).map(call).collect());
    let book = write(&macros);
    let mut fixed = Vec::new();
    for key in (1..255).filter(|&key| key != 9 && key != 10) {
        let ask = |opening, closing, lowest: &str| {
            asked(4, 15, Keys { opening, closing }, book.clone(), &format!("end 0 lowest {lowest}"))
        };
        fixed.push(if key % 2 == 0 { ask(key, key + 1, "0") } else { ask(key + 1, key, "-1") });
    }
    fixed
}

/// As many macros as there may be, the last one asked for and one in the middle.
fn chains() -> Vec<Fixed> {
    let closing = nested(b"(", &[], &[CLOSE], LAST);
    let opening = nested(&[b')'; 64], &[OPEN], &[], LAST);
    let closing_rows = rows(LAST, |i| (i + 1, 1 - i, (1 - i).min(0)));
    let opening_rows = rows(LAST, |i| (64 + i, i - 64, (i - 64).min(0)));
    [
        each_way(ROUND, &closing, &closing_rows),
        each_way(ROUND, &closing, &closing_rows[..512]),
        each_way(ROUND, &opening, &opening_rows),
        each_way(ROUND, &opening, &opening_rows[..=64]),
    ]
    .concat()
}

/// The largest books: 1,023 macros of 64 keys, openings and closings in turn, and a last one that calls 64 of
/// them.
fn full() -> Vec<Fixed> {
    let book = |calls: &dyn Fn(usize) -> usize| {
        let mut macros: Macros = (0..LAST).map(|number| vec![[OPEN, CLOSE][number % 2]; 64]).collect();
        macros.push((0..64).map(|place| call(calls(place))).collect());
        macros
    };
    let last = |end, lowest| {
        let mut all = rows(LAST, |i| if i % 2 == 0 { (64, 64, 0) } else { (64, -64, -64) });
        all[LAST] = Some((4_096, end, lowest));
        all
    };
    let ask = |macros: Macros, all: &[Row]| each_way(ROUND, &macros, all)[..2].to_vec();
    [
        ask(book(&|place| place), &last(0, 0)),
        ask(book(&|place| 1_021 - place), &last(0, -64)),
        ask(book(&|place| 2 * place + usize::from(place >= 32)), &last(0, 0)),
        ask(book(&|place| 2 * place + usize::from(place < 32)), &last(0, -2_048)),
    ]
    .concat()
}
