//! Fixed reach lists and bodies of books of version 2 (document 02, S-8). A repeated call enters its macro in the
//! first pass; the others enter nothing new.

use crate::case::Case;
use crate::fixed::Fixed;
use crate::fixed_reach::{asked, refused, stated};
use crate::hash::hash;
use crate::repeats::{macros, write};

/// The texts of the macros, the macro asked for, and its list.
type Small = (&'static [&'static str], usize, &'static str);

const LISTS: &[Small] = &[
    (&["a*400"], 0, "0"),
    (&["a", "0*400"], 1, "1 0"),
    (&["a", "b", "0*2 1"], 2, "2 0 1"),
    (&["a", "b", "1*65535 0*65535"], 2, "2 1 0"),
    (&["a", "b", "x*65535 1 0"], 2, "2 1 0"),
    (&["a", "b", "0 1", "2*3"], 3, "3 2 0 1"),
    (&["a", "b", "0*5 1", "2*3 0"], 3, "3 2 0 1"),
    (&["a", "b", "1*5 0", "0*3 2"], 3, "3 0 2 1"),
    (&["a", "0*9", "0*9", "2*9 1*9"], 3, "3 2 0 1"),
    (&["a", "0*9", "0*9", "1*9 2*9"], 3, "3 1 0 2"),
    (&["a", "0*65535", "1*65535", "2*65535", "b", "3*65535 4"], 5, "5 3 2 1 0 4"),
    (&["a", "0*65535", "1*65535", "2*65535", "b", "4*65535 3"], 5, "5 4 3 2 1 0"),
    (&["a", "b", "c", "d", "3*2", "0*2", "5*7 4*7 1"], 6, "6 5 0 4 3 1"),
    (&["a", "b", "x*3 0", "1*3 2", "y*3 3*2 0*2 1*2"], 4, "4 3 1 2 0"),
    (&["a", "b", "c", "0*2 1*2 2*2 0 1 2"], 3, "3 0 1 2"),
    (&["a", "b", "c", "2*400 1*300 0*200"], 3, "3 2 1 0"),
    (&["a", "b", "c", "0*2 2", "1 3*2", "4*65535 x"], 5, "5 4 1 3 0 2"),
    // The last entry of one and the first entry of the other stand at places past 2^64.
    (
        &["a", "0*65535", "1*65535", "2*65535", "3*65535", "4*65535", "b", "5 6 x", "5 x 6", "8*2 7*2"],
        9,
        "9 8 5 4 3 2 1 0 6 7",
    ),
    (&["a", "b*65535", "1*65535", "2*65535", "3*65535", "4*65535 0", "x 0", "5*2 6"], 7, "7 5 4 3 2 1 0 6"),
];

/// The same book, asked for every macro of it.
const MIDDLE: &[&str] = &["a*9", "b", "1*3 0*3", "0*2 x*4", "2*65535", "4 3*2 0", "3*7 5*7", "6*65535 c"];
const MIDDLE_LISTS: [&str; 8] =
    ["0", "1", "2 1 0", "3 0", "4 2 1 0", "5 4 2 1 0 3", "6 3 0 5 4 2 1", "7 6 3 0 5 4 2 1"];

pub fn reaches_and_bodies() -> Vec<Fixed> {
    let mut fixed = Vec::new();
    for (place, (texts, number, list)) in LISTS.iter().enumerate() {
        fixed.extend(each_way(*number, texts, list, place));
    }
    for (number, list) in MIDDLE_LISTS.iter().enumerate() {
        fixed.extend(each_way(number, MIDDLE, list, number));
    }
    let book = || write(&macros(MIDDLE));
    for (number, entries) in [(8, 9), (8, 0), (65_536, 1_100)] {
        fixed.push(asked(number, entries, book(), &refused(10, entries)));
    }
    fixed.push(asked(7, 0, book(), &refused(11, 0)));
    fixed.extend(tall());
    fixed.extend(bodies());
    fixed
}

/// With exactly the entries needed, and in turn with one too few or with more.
fn each_way(number: usize, texts: &[&str], list: &str, place: usize) -> Vec<Fixed> {
    let book = || write(&macros(texts));
    let given = |entries| asked(number, entries, book(), &stated(list, entries));
    let other = match place % 2 {
        0 => asked(number, number, book(), &refused(11, number)),
        _ => given(number + 2 + place),
    };
    vec![given(number + 1), other]
}

/// Macro i has macro i - 1 65,535 times; behind all of that the last one calls macro 0 and a macro of its own.
fn tall() -> Vec<Fixed> {
    let mut texts: Vec<String> = vec![String::from("a"), String::from("b")];
    texts.extend((1..60).map(|number| format!("{number}*65535")));
    texts.push(String::from("60*65535 0*65535"));
    texts.push(String::from("0*65535 60*65535"));
    let texts: Vec<&str> = texts.iter().map(String::as_str).collect();
    let falling: Vec<String> = (1..=60).rev().map(|number| number.to_string()).collect();
    let falling = falling.join(" ");
    let book = write(&macros(&texts));
    vec![
        asked(61, 62, book.clone(), &stated(&format!("61 {falling} 0"), 62)),
        asked(62, 63, book.clone(), &stated(&format!("62 0 {falling}"), 63)),
        asked(62, 62, book, &refused(11, 62)),
    ]
}

/// Four bytes an item: the item and its repeat count, each with the low byte first.
fn bodies() -> Vec<Fixed> {
    let book = || write(&macros(&["a*3", "0*400 b", "1*65535 0*256 CR*255 LF*1", "TOP*257"]));
    let part = |number: usize, bytes: &[u8]| {
        let shown = hash(bytes.iter().map(|&byte| u64::from(byte)));
        Fixed::new(Case::Body { number, book: book() }, &format!("body {} {shown}", bytes.len()))
    };
    let none = |number: usize| Fixed::new(Case::Body { number, book: book() }, "refused 10");
    let full = Case::Body { number: 0, book: write(&[vec![(97, 98); 64]]) };
    let shown = hash([97, 0, 98, 0].repeat(64).into_iter());
    vec![
        part(0, &[97, 0, 3, 0]),
        part(1, &[0, 1, 144, 1, 98, 0, 1, 0]),
        part(2, &[1, 1, 255, 255, 0, 1, 0, 1, 13, 0, 255, 0, 10, 0, 1, 0]),
        part(3, &[255, 0, 1, 1]),
        none(4),
        none(5),
        none(65_536),
        none(65_539),
        Fixed::new(full, &format!("body 256 {shown}")),
    ]
}
