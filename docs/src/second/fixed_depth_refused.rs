//! Fixed refusals of the depths (document 02, S-6): 18 before the book is read, then 1 to 6 in reading order, then
//! 10, then 11; the words stay as they were.

use crate::depth::Keys;
use crate::fixed::Fixed;
use crate::fixed_depth::{asked, macros, refused, MANY, ROUND};
use crate::fixed_depth_long::chain;
use crate::make_book::write;

/// Keys that are refused: equal, or one is 0 or 10.
const BAD: &[(u8, u8)] = &[
    (b'(', b'('),
    (1, 1),
    (13, 13),
    (255, 255),
    (0, 0),
    (10, 10),
    (0, 10),
    (10, 0),
    (0, b')'),
    (10, b')'),
    (b'(', 0),
    (b'(', 10),
    (0, 255),
    (255, 10),
];

/// Keys near those, of which none is refused.
const GOOD: &[(u8, u8)] =
    &[(1, 2), (9, 11), (11, 9), (255, 254), (13, 1), (b'0', b'9'), (128, 127), (138, 74), (26, 42)];

pub fn refused_depths() -> Vec<Fixed> {
    let mut fixed = bad_keys();
    for (book, refusal) in damaged() {
        fixed.extend(whoever_asks(&book, ROUND, refusal));
    }
    fixed.extend(numbers());
    fixed.extend(words());
    fixed.extend(good_keys());
    fixed
}

fn sound() -> Vec<u8> {
    write(&macros(&["(", ")", "0 1", "2 a 2"]))
}

/// Asked for the last macro, for a lower one and for one that is not there, with words and without.
fn whoever_asks(book: &[u8], keys: Keys, refusal: usize) -> Vec<Fixed> {
    let asks = [(3, 12), (3, 11), (0, 3), (1, 0), (4, MANY), (65_536, 0), (1_023, 3_072)];
    let ask = |&(number, words)| asked(number, words, keys, book.to_vec(), &refused(refusal, words));
    asks.iter().map(ask).collect()
}

fn bad_keys() -> Vec<Fixed> {
    let mut fixed = Vec::new();
    for &(opening, closing) in BAD {
        let keys = Keys { opening, closing };
        fixed.extend(whoever_asks(&sound(), keys, 18));
        fixed.extend(whoever_asks(&write(&chain(b"(", 63)), keys, 18));
        for (book, _) in damaged() {
            fixed.push(asked(3, 12, keys, book.clone(), &refused(18, 12)));
            fixed.push(asked(4, 0, keys, book, &refused(18, 0)));
        }
    }
    fixed
}

fn good_keys() -> Vec<Fixed> {
    let one = |&(opening, closing): &(u8, u8)| {
        let book = write(&[vec![u16::from(closing), 10, u16::from(opening)]]);
        asked(0, 3, Keys { opening, closing }, book, "end 0 lowest -1")
    };
    GOOD.iter().map(one).collect()
}

/// The sound book with other bytes from some places on.
fn with(changes: &[(usize, &[u8])]) -> Vec<u8> {
    let mut book = sound();
    for (at, bytes) in changes {
        book[*at..*at + bytes.len()].copy_from_slice(bytes);
    }
    book
}

/// Books of every refusal from 1 to 6, some with two faults of which the first is told. The item counts stand at
/// 7, 11, 15 and 21, the items at 9, 13, 17 and 19, 23 to 27.
fn damaged() -> Vec<(Vec<u8>, usize)> {
    let whole = sound();
    vec![
        (Vec::new(), 1),
        (b"MBK\x01\0\x01".to_vec(), 1),
        (with(&[(0, b"m")]), 1),
        (with(&[(2, b"k\x03\0\0\0")]), 1),
        (with(&[(3, b"\x03")]), 2),
        (with(&[(3, b"\0\0\0\0\0")]), 2),
        (with(&[(4, b"\x01")]), 2),
        (with(&[(5, b"\0")]), 3),
        (with(&[(5, b"\x01\x04\0")]), 3),
        (with(&[(7, b"\0")]), 4),
        (with(&[(11, b"\x41")]), 4),
        (with(&[(5, b"\x05")]), 4),
        (with(&[(5, b"\x03")]), 4),
        (whole[..whole.len() - 1].to_vec(), 4),
        ([&whole[..], b"\0"].concat(), 4),
        (with(&[(7, b"\0"), (13, b"\0\0")]), 4),
        (with(&[(9, b"\0")]), 5),
        (with(&[(27, b"\0\0")]), 5),
        (with(&[(17, b"\0\0\x02\x01")]), 5),
        (with(&[(9, b"\0\x01")]), 6),
        (with(&[(19, b"\x02\x01")]), 6),
        (with(&[(27, b"\xff\xff")]), 6),
        (with(&[(17, b"\x02\x01\0\0")]), 6),
    ]
}

/// No such macro, also where the number cut to 16 bits is one, and before the words are looked at.
fn numbers() -> Vec<Fixed> {
    let mut fixed = Vec::new();
    for number in [4, 5, 255, 256, 1_023, 1_024, 65_535, 65_536, 65_539, 131_075, 16_777_215] {
        for words in [0, 12, MANY] {
            fixed.push(asked(number, words, ROUND, sound(), &refused(10, words)));
        }
    }
    fixed
}

/// Three words a macro from 0 to m are needed, also where m reaches fewer macros.
fn words() -> Vec<Fixed> {
    let book = write(&macros(&["(", "(", "(", "a"]));
    let ask = |number, words| asked(number, words, ROUND, book.clone(), &refused(11, words));
    let mut fixed: Vec<Fixed> = (0..12).map(|words| ask(3, words)).collect();
    fixed.extend((0..3).map(|words| ask(0, words)));
    fixed
}
