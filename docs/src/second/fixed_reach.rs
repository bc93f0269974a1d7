//! Fixed reach lists of small books (document 02, S-5). Each list was worked out by hand: reading the run from
//! its start, a macro is put down when it is entered for the first time.

use crate::case::Case;
use crate::fixed::Fixed;
use crate::make_book::{call, write, Macros};

/// More entries than any list needs.
const MANY: usize = 1_100;

/// The items of each macro from 0 on, the macro asked for, and its list. An item is a letter, which is a key, or
/// the number of the macro it calls.
type Small = (&'static [&'static str], usize, &'static str);

/// A macro that two others call.
const SHARED: &[Small] = &[
    (&["a", "0", "0", "1 2"], 3, "3 1 0 2"),
    (&["a", "0", "0", "2 1"], 3, "3 2 0 1"),
    (&["a", "x 0", "0 y", "1 2"], 3, "3 1 0 2"),
    (&["a", "x 0", "0 y", "z 2 1"], 3, "3 2 0 1"),
    (&["a", "0", "0", "0 1 2"], 3, "3 0 1 2"),
    (&["a", "0", "0", "0 2 1"], 3, "3 0 2 1"),
    (&["a", "0", "0", "1 0 2"], 3, "3 1 0 2"),
    (&["a", "b", "0 1", "1 0", "2 3"], 4, "4 2 0 1 3"),
    (&["a", "b", "0 1", "1 0", "3 2"], 4, "4 3 1 0 2"),
    (&["a", "0", "0", "1 2", "2 1", "3 4"], 5, "5 3 1 0 2 4"),
    (&["a", "0", "0", "1 2", "2 1", "4 3"], 5, "5 4 2 0 1 3"),
    (&["a", "b", "1 0", "0 1", "3 x 2", "2 y 3", "5 4"], 6, "6 5 2 1 0 3 4"),
];

/// A macro entered first deep inside and then again directly.
const DEEP_FIRST: &[Small] = &[
    (&["a", "0", "1", "2", "3 0"], 4, "4 3 2 1 0"),
    (&["a", "b", "0 1", "2", "3 1 0"], 4, "4 3 2 0 1"),
    (&["a", "b", "c", "0 1", "3 2", "4 1 0 2"], 5, "5 4 3 0 1 2"),
    (&["a", "b", "x 0", "y 2", "3 0 1 2"], 4, "4 3 2 0 1"),
    (&["a", "b", "c", "2 x 0", "3", "4", "5 0 1 2"], 6, "6 5 4 3 2 0 1"),
];

/// A macro called directly first and then again deep inside.
const DIRECT_FIRST: &[Small] = &[
    (&["a", "0", "1", "2", "0 3"], 4, "4 0 3 2 1"),
    (&["a", "b", "0 1", "2", "1 3 0"], 4, "4 1 3 2 0"),
    (&["a", "b", "c", "0 1 2", "3", "2 1 4"], 5, "5 2 1 4 3 0"),
    (&["a", "b", "c", "0 1 2", "3", "1 4 2"], 5, "5 1 4 3 0 2"),
    (&["a", "0", "1", "2", "1 3 2"], 4, "4 1 0 3 2"),
    (&["a", "0", "1", "2", "3", "2 0 4 3 1"], 5, "5 2 1 0 4 3"),
];

/// Macros entered at the same key: the outer one first.
const SAME_KEY: &[Small] = &[
    (&["a", "0"], 1, "1 0"),
    (&["a", "0", "1"], 2, "2 1 0"),
    (&["a", "0", "1", "2", "3", "4"], 5, "5 4 3 2 1 0"),
    (&["a", "b", "0", "2 1", "3", "4", "5 1"], 6, "6 5 4 3 2 0 1"),
    (&["a", "b", "0", "c", "2", "4 3", "5 1"], 6, "6 5 4 2 0 3 1"),
    (&["a", "x 0", "1 y", "2", "z 3", "4"], 5, "5 4 3 2 1 0"),
    (&["a", "0", "1", "b", "3", "4", "2 5"], 6, "6 2 1 0 5 4 3"),
    (&["a", "0", "1", "b", "3", "4", "5 2"], 6, "6 5 4 3 2 1 0"),
    (&["a", "b", "0", "1", "2", "3", "4 5"], 6, "6 4 2 0 5 3 1"),
    (&["a", "b", "0", "1", "2", "3", "5 4"], 6, "6 5 3 1 4 2 0"),
    (&["a", "b", "1", "0", "3", "2", "4 5", "6", "x 7", "8"], 9, "9 8 7 6 4 3 0 5 2 1"),
    (&["a", "0", "b", "1", "3", "4", "5", "6", "7", "2 8", "9"], 10, "10 9 2 8 7 6 5 4 3 1 0"),
];

/// Macros between the reached ones that nothing reaches.
const UNREACHED: &[Small] = &[
    (&["a", "b", "c", "0 2", "d", "3 0"], 5, "5 3 0 2"),
    (&["a", "b", "c", "d", "e", "f", "g", "1 5 3"], 7, "7 1 5 3"),
    (&["a", "0", "1", "0", "b", "3 1"], 5, "5 3 0 1"),
    (&["a", "b", "0 1", "0", "1", "x"], 5, "5"),
    (&["a", "b", "0 1", "1", "0", "4 3"], 5, "5 4 0 3 1"),
    (&["a", "0", "0", "0", "0", "0", "4 2"], 6, "6 4 0 2"),
];

/// Keys before calls, between them and behind them.
const KEYS: &[Small] = &[
    (&["a", "b", "x 1 0"], 2, "2 1 0"),
    (&["a", "b", "x y 0 z 1"], 2, "2 0 1"),
    (&["a", "b", "1 x 0 y"], 2, "2 1 0"),
    (&["a", "b", "0 x y z 1 x 0"], 2, "2 0 1"),
    (&["a", "b", "c", "x 1 y", "0 z 3 2"], 4, "4 0 3 1 2"),
    (&["a", "b", "x 0", "1 2", "y 3 0 1"], 4, "4 3 1 2 0"),
    (&["a b c d e f", "g", "0", "x x x x x 1", "2 3 0"], 4, "4 2 0 3 1"),
    (&["a", "0 0 0 0 0 0 0 0", "1 1 1 1 1 1 1 1", "b", "2 3 0"], 4, "4 2 1 0 3"),
    (&["a", "x y z 0", "b", "1 x 2", "2 3 1"], 4, "4 2 3 1 0"),
];

/// Calls that stand again: a later entry moves nothing.
const AGAIN: &[Small] = &[
    (&["a", "b", "0 1 0"], 2, "2 0 1"),
    (&["a", "b", "1 0 1"], 2, "2 1 0"),
    (&["a", "b", "0 0 0 0 1"], 2, "2 0 1"),
    (&["a", "0 0", "1 1", "2 2", "3 3"], 4, "4 3 2 1 0"),
    (&["a", "b", "c", "0 1 2 0 1 2 2 1 0"], 3, "3 0 1 2"),
    (&["a", "b", "c", "2 1 0 0 1 2"], 3, "3 2 1 0"),
    (&["a", "b", "c", "1 0 1 2 0"], 3, "3 1 0 2"),
    (&["a", "b", "c", "0", "1 3 2 0 1", "4 0 1 2 3"], 5, "5 4 1 3 0 2"),
    (&["a", "b", "0 1", "1 0", "2 3 2 3", "3 3 4 2"], 5, "5 3 1 0 4 2"),
];

/// The same book, asked for every macro of it.
const MIDDLE: &[&str] = &["a", "b", "1 0", "0 x", "2", "4 3 0", "3 5", "6 c"];
const MIDDLE_LISTS: [&str; 8] =
    ["0", "1", "2 1 0", "3 0", "4 2 1 0", "5 4 2 1 0 3", "6 3 0 5 4 2 1", "7 6 3 0 5 4 2 1"];

pub fn reaches() -> Vec<Fixed> {
    let mut fixed = Vec::new();
    for tables in [SHARED, DEEP_FIRST, DIRECT_FIRST, SAME_KEY, UNREACHED, KEYS, AGAIN] {
        for (texts, number, list) in tables {
            fixed.extend(each_way(*number, &macros(texts), list));
        }
    }
    for (number, list) in MIDDLE_LISTS.iter().enumerate() {
        fixed.extend(each_way(number, &macros(MIDDLE), list));
    }
    fixed
}

/// The macros that such texts stand for.
pub fn macros(texts: &[&str]) -> Macros {
    let one = |text: &&str| text.split(' ').map(item).collect();
    texts.iter().map(one).collect()
}

fn item(word: &str) -> u16 {
    word.parse().map_or_else(|_| u16::from(word.as_bytes()[0]), call)
}

pub fn asked(number: usize, entries: usize, book: Vec<u8>, stated: &str) -> Fixed {
    Fixed::new(Case::Reach { number, entries, book }, stated)
}

/// With exactly the entries needed, m + 1, with one too few, with a few more and with many more.
pub fn each_way(number: usize, macros: &[Vec<u16>], list: &str) -> Vec<Fixed> {
    let book = write(macros);
    let given = |entries| asked(number, entries, book.clone(), &stated(list, entries));
    let short = asked(number, number, book.clone(), &refused(11, number));
    vec![given(number + 1), short, given(number + 3), given(MANY)]
}

/// The answer with this list, and with a refusal.
pub fn stated(list: &str, entries: usize) -> String {
    let count = list.split(' ').count();
    format!("reached {count}: {list} rest {}", rest(count, entries))
}

pub fn refused(refusal: usize, entries: usize) -> String {
    format!("refused {refusal} rest {}", rest(0, entries))
}

/// The hash of the entries from a place on, which are as they were (PROTOCOL.md).
fn rest(from: usize, entries: usize) -> u64 {
    let as_before = |place: usize| 65_535 - place as u64;
    (from..entries).fold(7, |sum: u64, place| sum.wrapping_mul(31).wrapping_add(as_before(place)))
}
