//! Fixed depths of books of version 2 (document 02, S-6 and S-8). The figures were told from those of one pass: where
//! the depth rises from pass to pass the lowest is met in the first one, where it falls in the last one.

use crate::depth::Keys;
use crate::fixed::Fixed;
use crate::fixed_depth::{asked, refused, stated, Row, MANY, ROUND};
use crate::repeats::{macros, write};

const LONGEST: i128 = 1 << 62;
const TIMES: [i128; 5] = [1, 2, 3, 256, 65_535];

/// The texts of the macros, and the figures of macros 0 to m: length, end and lowest depth.
type Small = (&'static [&'static str], &'static [(i128, i128, i128)]);

const SMALL: &[Small] = &[
    (&["(*5 )*7"], &[(12, -2, -2)]),
    (&[")*65535 (*65535"], &[(131_070, 0, -65_535)]),
    (&["(*65535 )*65535"], &[(131_070, 0, 0)]),
    (&["a*400 LF*300 CR*200"], &[(900, 0, 0)]),
    (&["( a )", "0*400"], &[(3, 0, 0), (1_200, 0, 0)]),
    (&[") (", "0*400"], &[(2, 0, -1), (800, 0, -1)]),
    (&["( ( )", "0*400"], &[(3, 1, 0), (1_200, 400, 0)]),
    (&["( ) )", "0*400"], &[(3, -1, -1), (1_200, -400, -400)]),
    (&[") ) (", "0*400"], &[(3, -1, -2), (1_200, -400, -401)]),
    (&[") ) ) ( (", "0*400"], &[(5, -1, -3), (2_000, -400, -402)]),
    (&[") ) ( ( (", "0*400"], &[(5, 1, -2), (2_000, 400, -2)]),
    (&[")*9 (*10", "0*400", "(*8 1"], &[(19, 1, -9), (7_600, 400, -9), (7_608, 408, -1)]),
    (&[")*9 (*8", "0*400", "(*408 1"], &[(17, -1, -9), (6_800, -400, -408), (7_208, 8, 0)]),
    (&["( )", "0*3", ") 1*2 ("], &[(2, 0, 0), (6, 0, 0), (14, 0, -1)]),
    (&["(", ")", "0*3 1*5", "2*10"], &[(1, 1, 0), (1, -1, -1), (8, -2, -2), (80, -20, -20)]),
    (&["(", ")", "1*5 0*3", "2*10"], &[(1, 1, 0), (1, -1, -1), (8, -2, -5), (80, -20, -23)]),
    (&["(", ")", "1*5 0*7", "2*10"], &[(1, 1, 0), (1, -1, -1), (12, 2, -5), (120, 20, -5)]),
    (&[") (*3", "0*3", "1*3", ")*17 2"], &[(4, 2, -1), (12, 6, -1), (36, 18, -1), (53, 1, -18)]),
    (&["a", "(*3", ")*4", "0*9"], &[(1, 0, 0), (3, 3, 0), (4, -4, -4), (9, 0, 0)]),
];

pub fn depths() -> Vec<Fixed> {
    let mut fixed = Vec::new();
    for (texts, rows) in SMALL {
        let rows: Vec<Row> = rows.iter().map(|&row| Some(row)).collect();
        fixed.extend(each_way(ROUND, texts, &rows));
    }
    for times in TIMES {
        fixed.extend(by_times(times));
    }
    fixed.extend(other_keys());
    fixed.extend(long());
    fixed
}

/// The macro of the last row, with exactly the words needed and with one too few.
fn each_way(keys: Keys, texts: &[&str], rows: &[Row]) -> Vec<Fixed> {
    let (number, needed, book) = (rows.len() - 1, 3 * rows.len(), write(&macros(texts)));
    vec![
        asked(number, needed, keys, book.clone(), &stated(rows, needed)),
        asked(number, needed - 1, keys, book, &refused(11, needed - 1)),
    ]
}

fn given(texts: &[&str], rows: &[Row], words: usize) -> Fixed {
    asked(rows.len() - 1, words, ROUND, write(&macros(texts)), &stated(rows, words))
}

/// Rising, falling and level, and keys alone.
fn by_times(times: i128) -> Vec<Fixed> {
    let passes = format!("0*{times}");
    let of = |below: &str, once: (i128, i128, i128), lowest: i128| {
        let all = (times * once.0, times * once.1, lowest);
        given(&[below, &passes], &[Some(once), Some(all)], 6)
    };
    let keys = format!(")*{times}");
    vec![
        of(") ( (", (3, 1, -1), -1),
        of(") ) (", (3, -1, -2), -times - 1),
        of(") (", (2, 0, -1), -1),
        of("( )*3", (4, -2, -2), -2 * times),
        given(&[&keys], &[Some((times, -times, -times))], 3),
    ]
}

/// A 13 is that key whatever follows it in the next pass, and a repeat count is no key.
fn other_keys() -> Vec<Fixed> {
    let keys = |opening: u8, closing: u8| Keys { opening, closing };
    [
        each_way(keys(13, b'x'), &["LF CR", "0*400"], &[Some((2, 1, 0)), Some((800, 400, 0))]),
        each_way(keys(b'x', 13), &["LF CR", "0*400 LF"], &[Some((2, -1, -1)), Some((801, -400, -400))]),
        each_way(keys(1, 255), &["a*255", "0*1 ONE*2"], &[Some((255, 0, 0)), Some((257, 2, 0))]),
        each_way(keys(144, 1), &["a*400", "0*257"], &[Some((400, 0, 0)), Some((102_800, 0, 0))]),
        each_way(keys(b'A', b'a'), &["a*3 A*2", "0*3"], &[Some((5, -1, -3)), Some((15, -3, -5))]),
    ]
    .concat()
}

/// Macros 1, 2 and 3 are 2^16, 2^32 and 2^48 keys, so that 2^14 of the last are 2^62.
fn powers(key: &str, more: &[&str]) -> Vec<String> {
    let below = [key, "0*65535 0", "1*65535 1", "2*65535 2"];
    below.iter().chain(more).map(|text| String::from(*text)).collect()
}

fn long() -> Vec<Fixed> {
    let mut fixed = Vec::new();
    for (key, step) in [("(", 1), (")", -1)] {
        let row = |keys: i128| Some((keys, step * keys, (step * keys).min(0)));
        let first = [row(1), row(1 << 16), row(1 << 32), row(1 << 48)];
        let of = |more: &[&str], rows: &[Row]| {
            let texts = powers(key, more);
            let texts: Vec<&str> = texts.iter().map(String::as_str).collect();
            let rows = [&first[..], rows].concat();
            given(&texts, &rows, [3 * rows.len(), MANY][more.len() % 2])
        };
        fixed.extend([
            of(&["3*16384"], &[row(LONGEST)]),
            of(&["3*16383 2*65535 1*65535 0*65535"], &[row(LONGEST - 1)]),
            of(&["3*16383 2*65535 1*65535 0*65535 0"], &[row(LONGEST)]),
            of(&["3*16383 2*65535 1*65535 0*65535 0*2"], &[None]),
            of(&["3*16384 0"], &[None]),
            of(&["3*16385"], &[None]),
            of(&["3*65535"], &[None]),
            of(&["3*16384", "4 0"], &[row(LONGEST), None]),
            of(&["3*16384", "4*2", "0*5"], &[row(LONGEST), None, row(5)]),
            of(&["3*16384", "4*2", "5*65535", "4*1"], &[row(LONGEST), None, None, row(LONGEST)]),
            of(&["3*65535", "4*65535", "5", "2*65535"], &[None, None, None, row(65_535 << 32)]),
            of(&["3*65535", "0*3 4"], &[None, None]),
        ]);
    }
    fixed.extend(balanced());
    fixed.extend(levels());
    fixed
}

/// As many closings as openings, 2^61 of each, pass by pass or one behind the other.
fn balanced() -> Vec<Fixed> {
    let half: i128 = 1 << 61;
    let pairs = |keys: i128, lowest: i128| Some((2 * keys, 0, lowest));
    let rows = |lowest: i128| [1, 1 << 16, 1 << 32, 1 << 48].map(|keys| pairs(keys, lowest)).to_vec();
    let with = |key: &str, more: &[&str]| powers(key, more);
    let ask = |texts: Vec<String>, rows: &[Row]| {
        let texts: Vec<&str> = texts.iter().map(String::as_str).collect();
        given(&texts, rows, 3 * rows.len())
    };
    let mut apart = with("(", &["3*8192", ")", "5*65535 5", "6*65535 6", "7*65535 7", "8*8192"]);
    let side = |step: i128| [1, 1 << 16, 1 << 32, 1 << 48, half].map(|keys| (keys, step * keys));
    let one = |(keys, end): (i128, i128)| Some((keys, end, end.min(0)));
    let sides: Vec<Row> = [side(1), side(-1)].concat().into_iter().map(one).collect();
    let mut fixed = vec![
        ask(with("( )", &["3*8192"]), &[rows(0), vec![pairs(half, 0)]].concat()),
        ask(with(") (", &["3*8192"]), &[rows(-1), vec![pairs(half, -1)]].concat()),
        ask(with(") (", &["3*8192 a"]), &[rows(-1), vec![None]].concat()),
    ];
    apart.push(String::from("9 4"));
    fixed.push(ask(apart.clone(), &[&sides[..], &[Some((LONGEST, 0, -half))]].concat()));
    apart[10] = String::from("4 9");
    fixed.push(ask(apart.clone(), &[&sides[..], &[Some((LONGEST, 0, 0))]].concat()));
    apart[10] = String::from("4 9 a");
    fixed.push(ask(apart, &[&sides[..], &[None]].concat()));
    fixed
}

/// 41 macros above the first, each with the one below 65,535 times: from the fourth on they are too long.
fn levels() -> Vec<Fixed> {
    let mut texts = vec![String::from(") ) (")];
    texts.extend((0..41).map(|number| format!("{number}*65535")));
    let row = |level: u32| {
        let passes = 65_535i128.pow(level);
        Some((3 * passes, -passes, -passes - 1))
    };
    let rows: Vec<Row> = (0..42).map(|level| if level < 4 { row(level) } else { None }).collect();
    let texts: Vec<&str> = texts.iter().map(String::as_str).collect();
    [0, 1, 2, 3, 4, 5, 41].map(|number| given(&texts, &rows[..=number], 3 * (number + 1))).to_vec()
}
