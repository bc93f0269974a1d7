//! Fixed refusals of the reach list: 1 to 6 in reading order, then 10, then 11, whatever else is wrong.

use crate::fixed::Fixed;
use crate::fixed_reach::{asked, macros, refused, stated};
use crate::make_book::{call, write};

pub fn refused_reaches() -> Vec<Fixed> {
    [heads(), bodies(), in_turn(), numbers(), entries()].concat()
}

/// Macro 4 has the list 4 3 1 2 0.
const SOUND: &[&str] = &["a", "b", "x 0", "1 2", "y 3 0 1"];

fn sound() -> Vec<u8> {
    write(&macros(SOUND))
}

/// Asked for the last macro, for a lower one and for one that is not there, with entries and without.
fn whoever_asks(book: &[u8], refusal: usize) -> Vec<Fixed> {
    let asks = [(4, 5), (4, 4), (0, 1), (1, 0), (5, 1_100), (65_536, 0), (1_023, 1_024)];
    asks.iter()
        .map(|&(number, entries)| asked(number, entries, book.to_vec(), &refused(refusal, entries)))
        .collect()
}

/// The sound book with other bytes from a place on.
fn with(changes: &[(usize, &[u8])]) -> Vec<u8> {
    let mut book = sound();
    for (at, bytes) in changes {
        book[*at..*at + bytes.len()].copy_from_slice(bytes);
    }
    book
}

/// The mark, the version and the macro count, each before what stands behind it.
fn heads() -> Vec<Fixed> {
    [
        whoever_asks(b"", 1),
        whoever_asks(b"MBK\x03\0\0", 1),
        whoever_asks(&with(&[(0, b"m")]), 1),
        whoever_asks(&with(&[(2, b"k\x03\0\0\0")]), 1),
        whoever_asks(&with(&[(3, b"\x03")]), 2),
        whoever_asks(&with(&[(3, b"\0\0\0\0\0")]), 2),
        whoever_asks(&with(&[(4, b"\x01")]), 2),
        whoever_asks(&with(&[(5, b"\0")]), 3),
        whoever_asks(&with(&[(5, b"\x01\x04\0")]), 3),
        whoever_asks(&with(&[(5, b"\xff\xff")]), 3),
    ]
    .concat()
}

/// The first macro's count stands at 7, its item at 9; the second's at 11 and 13; the third has two items, at 17
/// and 19, and so has the fourth, at 23 and 25; the last has four, from 29 on.
fn bodies() -> Vec<Fixed> {
    let whole = sound();
    [
        whoever_asks(&with(&[(7, b"\0")]), 4),
        whoever_asks(&with(&[(11, b"\x41")]), 4),
        whoever_asks(&with(&[(8, b"\x01")]), 4),
        whoever_asks(&with(&[(5, b"\x06")]), 4),
        whoever_asks(&with(&[(5, b"\x04")]), 4),
        whoever_asks(&whole[..whole.len() - 1], 4),
        whoever_asks(&[&whole[..], b"\0"].concat(), 4),
        whoever_asks(&with(&[(9, b"\0")]), 5),
        whoever_asks(&with(&[(17, b"\0\0")]), 5),
        whoever_asks(&with(&[(29, b"\0\0")]), 5),
        whoever_asks(&with(&[(9, b"\0\x01")]), 6),
        whoever_asks(&with(&[(19, b"\x02\x01")]), 6),
        whoever_asks(&with(&[(23, b"\x03\x01")]), 6),
        whoever_asks(&with(&[(35, b"\x04\x01")]), 6),
        whoever_asks(&with(&[(35, b"\xff\xff")]), 6),
    ]
    .concat()
}

/// Of two faults the one that is read first.
fn in_turn() -> Vec<Fixed> {
    let whole = sound();
    [
        whoever_asks(&with(&[(7, b"\0"), (13, b"\0\0")]), 4),
        whoever_asks(&with(&[(9, b"\0"), (11, b"\0")]), 5),
        whoever_asks(&with(&[(9, b"\0\x01"), (11, b"\0")]), 6),
        whoever_asks(&with(&[(17, b"\0\0\x05\x01")]), 5),
        whoever_asks(&with(&[(17, b"\x05\x01\0\0")]), 6),
        whoever_asks(&with(&[(23, b"\x09\x01"), (29, b"\0\0")]), 6),
        whoever_asks(&[&with(&[(35, b"\0\0")])[..], b"\0"].concat(), 5),
        whoever_asks(&with(&[(35, b"\x04\x01")])[..whole.len() - 1], 4),
        whoever_asks(&write(&[vec![call(0)], vec![], vec![0]]), 6),
    ]
    .concat()
}

/// No such macro, also where the number cut to 16 bits is one, and before the entries are looked at.
fn numbers() -> Vec<Fixed> {
    let ask = |number, entries| asked(number, entries, sound(), &refused(10, entries));
    let mut fixed = Vec::new();
    for number in [5, 6, 255, 256, 1_023, 1_024, 65_535, 65_536, 65_540, 131_076, 16_777_215] {
        fixed.extend([ask(number, 0), ask(number, 5), ask(number, 1_100)]);
    }
    fixed
}

/// m + 1 entries are needed, also where the list is shorter than that.
fn entries() -> Vec<Fixed> {
    let short = |number, entries, texts: &[&str]| {
        asked(number, entries, write(&macros(texts)), &refused(11, entries))
    };
    let given = |number, entries, texts: &[&str], list: &str| {
        asked(number, entries, write(&macros(texts)), &stated(list, entries))
    };
    let sparse = &["a", "b", "c", "d", "e", "f", "g", "1 5 3"];
    let mut fixed = vec![
        short(0, 0, SOUND),
        short(4, 0, SOUND),
        short(4, 1, SOUND),
        short(4, 4, SOUND),
        given(4, 5, SOUND, "4 3 1 2 0"),
        given(4, 6, SOUND, "4 3 1 2 0"),
        given(0, 1, SOUND, "0"),
        given(0, 5, SOUND, "0"),
    ];
    fixed.extend((0..8).map(|entries| short(7, entries, sparse)));
    fixed.extend((8..16).map(|entries| given(7, entries, sparse, "7 1 5 3")));
    fixed
}
