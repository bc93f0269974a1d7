//! Fixed depths of small books (document 02, S-6). The figures of every macro were worked out by hand, key by key.

use crate::case::Case;
use crate::depth::Keys;
use crate::fixed::Fixed;
use crate::make_book::{named, write, Macros};

/// More words than any case needs.
pub const MANY: usize = 4_096;
pub const ROUND: Keys = Keys { opening: b'(', closing: b')' };

/// Length, end and lowest depth of a macro's run; nothing if it is too long.
pub type Row = Option<(i128, i128, i128)>;
type Rows = &'static [(i128, i128, i128)];
/// The items of each macro from 0 on, and the figures of macros 0 to m. An item is a key, by a letter or a name,
/// or the number of the macro it calls.
type Small = (&'static [&'static str], Rows);

const NEITHER: &[Small] = &[
    (&["a"], &[(1, 0, 0)]),
    (&["LF", "0 CR 0"], &[(1, 0, 0), (3, 0, 0)]),
    (&["a b c", "0 x 0"], &[(3, 0, 0), (7, 0, 0)]),
    (&["[ ] { }", "0 0", "< 1 >"], &[(4, 0, 0), (8, 0, 0), (10, 0, 0)]),
];

const ONE_MACRO: &[Small] = &[
    (&["("], &[(1, 1, 0)]),
    (&[")"], &[(1, -1, -1)]),
    (&["( )"], &[(2, 0, 0)]),
    (&[") ("], &[(2, 0, -1)]),
    (&["( ( ("], &[(3, 3, 0)]),
    (&[") ) )"], &[(3, -3, -3)]),
    (&["( ( ) )"], &[(4, 0, 0)]),
    (&[") ) ( ("], &[(4, 0, -2)]),
    (&[") ) ("], &[(3, -1, -2)]),
    (&[") ( ) )"], &[(4, -2, -2)]),
    (&["( ) ) ( ( )"], &[(6, 0, -1)]),
    (&["( ) ) ) ( ( ("], &[(7, 1, -2)]),
    (&["a ) b ( c"], &[(5, 0, -1)]),
    (&["a ( b ( c ) d"], &[(7, 1, 0)]),
    (&[") a"], &[(2, -1, -1)]),
    (&["a )"], &[(2, -1, -1)]),
    (&["( a LF a )"], &[(5, 0, 0)]),
];

const ACROSS: &[Small] = &[
    (&["(", ")", "0 1"], &[(1, 1, 0), (1, -1, -1), (2, 0, 0)]),
    (&["(", ")", "1 0"], &[(1, 1, 0), (1, -1, -1), (2, 0, -1)]),
    (&["(", ")", "0 1", "2 2"], &[(1, 1, 0), (1, -1, -1), (2, 0, 0), (4, 0, 0)]),
    (&["(", ")", "1 0", "2 2"], &[(1, 1, 0), (1, -1, -1), (2, 0, -1), (4, 0, -1)]),
    (&["(", ")", "1 0", "( 2 )"], &[(1, 1, 0), (1, -1, -1), (2, 0, -1), (4, 0, 0)]),
    (&["( (", ") )", "0 a 1 b 1"], &[(2, 2, 0), (2, -2, -2), (8, -2, -2)]),
    (&["( ( (", "0 ) )", "1 1 ) )", "2 ) )"], &[(3, 3, 0), (5, 1, 0), (12, 0, 0), (14, -2, -2)]),
    (&["a", "( 0", "1 0 )", "2 0 0"], &[(1, 0, 0), (2, 1, 0), (4, 0, 0), (6, 0, 0)]),
];

/// Inside a called macro the depth falls lower than at the end of any item.
const INSIDE: &[Small] = &[
    (&[") (", "0"], &[(2, 0, -1), (2, 0, -1)]),
    (&[") ) ( (", "0", "1 1"], &[(4, 0, -2), (4, 0, -2), (8, 0, -2)]),
    (&[") ) ( (", "( 0 )"], &[(4, 0, -2), (6, 0, -1)]),
    (&[") ) ( (", "( ( 0 ) )"], &[(4, 0, -2), (8, 0, 0)]),
    (&[") ) ( (", "( 0 )", ") 1 ("], &[(4, 0, -2), (6, 0, -1), (8, 0, -2)]),
    (&[") ) ) ( ( ( (", "0 0 0"], &[(7, 1, -3), (21, 3, -3)]),
    (&["( ) ) (", "0 )", "( 1"], &[(4, 0, -1), (5, -1, -1), (6, 0, 0)]),
    (&[") ) ) ( ( (", "( 0", "( 1", "( 2"], &[(6, 0, -3), (7, 1, -2), (8, 2, -1), (9, 3, 0)]),
    (&[") ( ( )", "0 0", "( 1 ) )"], &[(4, 0, -1), (8, 0, -1), (11, -1, -1)]),
    (&["( (", ") ) ) ( (", "0 1"], &[(2, 2, 0), (5, -1, -3), (7, 1, -1)]),
    (&[") ) (", "0 0", "1 1"], &[(3, -1, -2), (6, -2, -3), (12, -4, -5)]),
];

/// Macros that m does not reach have their words all the same; macros above m have none.
const BESIDE: &[Small] = &[
    (&["( ( (", ") ) )", "a"], &[(3, 3, 0), (3, -3, -3), (1, 0, 0)]),
    (&[")", "( (", "0 1 0 0", "1"], &[(1, -1, -1), (2, 2, 0), (5, -1, -1), (2, 2, 0)]),
    (&["( )", ") )", ") ) ) )"], &[(2, 0, 0)]),
    (&["(", "0 )", "1 1 1 1"], &[(1, 1, 0), (2, 0, 0)]),
];

/// The two keys, and the rest as above. A CR before an LF is a key like another.
const OTHER_KEYS: &[(u8, u8, &[&str], Rows)] = &[
    (13, 255, &["CR TOP"], &[(2, 0, 0)]),
    (255, 13, &["CR TOP"], &[(2, 0, -1)]),
    (13, b')', &["CR LF CR LF )"], &[(5, 1, 0)]),
    (b'(', 13, &["( CR LF ( CR"], &[(5, 0, 0)]),
    (b'(', 13, &["CR", "LF", "0 1 0 1"], &[(1, -1, -1), (1, 0, 0), (4, -2, -2)]),
    (13, 1, &["CR", "LF", "ONE", "0 1 2 2"], &[(1, 1, 0), (1, 0, 0), (1, -1, -1), (4, -1, -1)]),
    (1, 255, &["ONE ONE TOP", "0 0 TOP TOP"], &[(3, 1, 0), (8, 0, 0)]),
    (255, 1, &["ONE ONE TOP", "0 0 TOP TOP"], &[(3, -1, -2), (8, 0, -3)]),
    (254, 255, &["TOP", "0 TOP"], &[(1, -1, -1), (2, -2, -2)]),
    (b'a', b'b', &["( ) a", "0 b b"], &[(3, 1, 0), (5, -1, -1)]),
    (b'A', b'a', &["a A A"], &[(3, 1, -1)]),
    (b'x', b'y', &["( ( )", "0 0"], &[(3, 0, 0), (6, 0, 0)]),
    (b'(', b'y', &["( ( )", "0 0"], &[(3, 2, 0), (6, 4, 0)]),
    (b'x', b')', &["( ( )", "0 0"], &[(3, -1, -1), (6, -2, -2)]),
    (9, 11, &["a LF a"], &[(3, 0, 0)]),
    // The calls of macros 1 and 2 are 257 and 258, whose low bytes are the keys.
    (1, 2, &["a", "b", "0 1 1", "2 2"], &[(1, 0, 0), (1, 0, 0), (3, 0, 0), (6, 0, 0)]),
];

pub fn depths() -> Vec<Fixed> {
    let mut fixed = Vec::new();
    for (texts, rows) in [NEITHER, ONE_MACRO, ACROSS, INSIDE, BESIDE].concat() {
        fixed.extend(each_way(ROUND, &macros(texts), &known(rows)));
    }
    for (opening, closing, texts, rows) in OTHER_KEYS {
        let keys = Keys { opening: *opening, closing: *closing };
        fixed.extend(each_way(keys, &macros(texts), &known(rows)));
    }
    fixed
}

fn known(rows: Rows) -> Vec<Row> {
    rows.iter().map(|&row| Some(row)).collect()
}

/// The macros that such texts stand for.
pub fn macros(texts: &[&str]) -> Macros {
    texts.iter().map(|text| text.split(' ').map(named).collect()).collect()
}

pub fn asked(number: usize, words: usize, keys: Keys, book: Vec<u8>, stated: &str) -> Fixed {
    Fixed::new(Case::Depth { number, words, keys, book }, stated)
}

/// The macro of the last row, with exactly the words needed, with one too few, none, one more and many more.
pub fn each_way(keys: Keys, macros: &[Vec<u16>], rows: &[Row]) -> Vec<Fixed> {
    let (number, needed, book) = (rows.len() - 1, 3 * rows.len(), write(macros));
    let given = |words| asked(number, words, keys, book.clone(), &stated(rows, words));
    let short = |words| asked(number, words, keys, book.clone(), &refused(11, words));
    vec![given(needed), short(needed - 1), short(0), given(needed + 1), given(MANY)]
}

/// The answer with these figures, the last row's first, and with a refusal that leaves the words as they were.
pub fn stated(rows: &[Row], words: usize) -> String {
    let answer = match rows[rows.len() - 1] {
        Some((_, end, lowest)) => format!("end {end} lowest {lowest}"),
        None => String::from("refused 19"),
    };
    format!("{answer} work {}", work(rows, words))
}

pub fn refused(refusal: usize, words: usize) -> String {
    format!("refused {refusal} work {}", work(&[], words))
}

/// The hash of the words (PROTOCOL.md): three for each row, and then those as before.
fn work(rows: &[Row], words: usize) -> u64 {
    let row = |row: &Row| row.map_or([u64::MAX, 0, 0], |(l, end, low)| [l as u64, end as u64, low as u64]);
    let written: Vec<u64> = rows.iter().flat_map(row).collect();
    let as_before = (written.len()..words).map(|place| 1_000_003 * (place as u64 + 1));
    let add = |sum: u64, word: u64| sum.wrapping_mul(31).wrapping_add(word);
    as_before.fold(written.iter().copied().fold(7, add), add)
}
