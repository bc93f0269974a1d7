//! Fixed brackets that are the whole pattern (document 02, S-2), from its first byte to its last, and brackets
//! that are not closed where the pattern ends.

use crate::fixed::Fixed;
use crate::fixed_ends::{ending, FRONTS, TOO_LONG};
use crate::fixed_sets::{exactly, holds, Ranges};
use crate::letters::{Letters, BOTH};
use crate::parser::MOST_BYTES;

const BAD: &str = "refused 8";

/// A bracket's first element and its end, the keys of both, and those that come to them with case ignored.
type Whole = (&'static str, &'static str, Ranges, Ranges);

const WHOLE: &[Whole] = &[
    ("", "k]", &[(107, 107)], &[(75, 75)]),
    ("k", "]", &[(107, 107)], &[(75, 75)]),
    ("]", "]", &[(93, 93)], &[]),
    ("]", "k]", &[(93, 93), (107, 107)], &[(75, 75)]),
    ("]", "-]", &[(45, 45), (93, 93)], &[]),
    ("]-b", "k]", &[(93, 98), (107, 107)], &[(65, 66), (75, 75)]),
    ("-", "]", &[(45, 45)], &[]),
    ("-", "k]", &[(45, 45), (107, 107)], &[(75, 75)]),
    ("--/", "]", &[(45, 47)], &[]),
    ("", "-]", &[(45, 45)], &[]),
    ("", "b-d]", &[(98, 100)], &[(66, 68)]),
    ("k", "Z-[]", &[(90, 91), (107, 107)], &[(75, 75), (122, 122)]),
    ("", "[]", &[(91, 91)], &[]),
    ("", "^]", &[(94, 94)], &[]),
    ("", "\\]", &[(92, 92)], &[]),
    ("", "[:upper:]]", &[(65, 90)], &[(97, 122)]),
    ("[:space:]", "]", &[(9, 13), (32, 32)], &[]),
    ("", "[:alpha:]-]", &[(45, 45), (65, 90), (97, 122)], &[]),
    ("]", "[:xdigit:]]", &[(48, 57), (65, 70), (93, 93), (97, 102)], &[]),
];

/// An element that fills a bracket up, and its keys; what is left over are bytes `7`.
const FILLS: &[(&str, Ranges)] = &[
    ("7", &[(55, 55)]),
    ("0-9", &[(48, 57)]),
    ("[:digit:]", &[(48, 57)]),
    ("[:xdigit:]", &[(48, 57), (65, 70), (97, 102)]),
];

/// Not closed, wherever the pattern ends; a blank after each.
const UNCLOSED: &str = r"
    [ [^ [a [^a [] [^] []a [^]a [a- [^a- [a-z [a-z- [[ [a[ [^[ [A-[ [a-[ [A-[: [A-[. [A-[= [- [-- [--- [^- [^^ []-
    []-a [\ [[: [[:a [[:alpha [[:alpha: [[:alpha:] [[:alpha:]- [[:xdigit: [[:xdigit:] [[:alpha:][ [[:alpha:][:
    [a[:digit:] [[. [[.a [[.a. [[.a.] [[= [[=a= [[=a=] [a[. [a[= [a[: [a]]][ []][] [[]][ [a][^] [\]\[[ \\[
";

pub fn wholes() -> Vec<Fixed> {
    let mut fixed = Vec::new();
    for (place, row) in WHOLE.iter().enumerate() {
        for round in [false, true] {
            fixed.extend(whole(place, row, round));
            fixed.extend(cut_off(row, round));
        }
    }
    for tail in UNCLOSED.split_whitespace() {
        fixed.extend(unclosed(tail.as_bytes()));
    }
    let closed = [&vec![b'a'; MOST_BYTES - 3][..], b"[]]"].concat();
    fixed.push(Fixed::line(Letters::Apart, &closed, b"a", "refused 9"));
    fixed
}

fn text((first, last, ..): &Whole, round: bool, fill: &str, length: usize) -> Vec<u8> {
    let opening = if round { "[^" } else { "[" };
    let missing = length - opening.len() - first.len() - last.len();
    let filling = [fill.repeat(missing / fill.len()), "7".repeat(missing % fill.len())].concat();
    [opening, first, &filling, last].concat().into_bytes()
}

/// With every filling at the longest length that passes, with one of them a byte shorter and a byte longer.
fn whole(place: usize, row: &Whole, round: bool) -> Vec<Fixed> {
    let (_, _, apart, more) = *row;
    let has = |letters, keys: Ranges, key: u8| {
        let named = holds(apart, key) || holds(keys, key) || letters == Letters::Alike && holds(more, key);
        named != round
    };
    let mut fixed = Vec::new();
    for (fill, keys) in FILLS {
        let pattern = text(row, round, fill, MOST_BYTES);
        for letters in BOTH {
            fixed.extend(exactly(letters, &pattern, b"", |key| has(letters, keys, key)));
        }
    }
    let (fill, keys) = FILLS[place % FILLS.len()];
    let shorter = text(row, round, fill, MOST_BYTES - 1);
    fixed.extend(exactly(Letters::Apart, &shorter, b"", |key| has(Letters::Apart, keys, key)));
    let longer = text(row, round, fill, MOST_BYTES + 1);
    fixed.push(Fixed::line(Letters::Apart, &longer, b"7", TOO_LONG));
    fixed
}

/// Without its last byte, the `]`, such a bracket is not closed.
fn cut_off(row: &Whole, round: bool) -> Vec<Fixed> {
    let mut fixed = Vec::new();
    for (place, (fill, _)) in FILLS.iter().enumerate() {
        for length in [MOST_BYTES - 1, MOST_BYTES, MOST_BYTES + 1] {
            let stated = if length > MOST_BYTES { TOO_LONG } else { BAD };
            let pattern = &text(row, round, fill, length + 1)[..length];
            fixed.push(Fixed::line(BOTH[place % 2], pattern, b"7", stated));
        }
    }
    fixed
}

/// Behind every kind of first part; also behind so many atoms that they alone would be refused.
fn unclosed(tail: &[u8]) -> Vec<Fixed> {
    let mut fixed = Vec::new();
    for length in [MOST_BYTES - 1, MOST_BYTES, MOST_BYTES + 1] {
        let stated = if length > MOST_BYTES { TOO_LONG } else { BAD };
        for kind in 0..FRONTS {
            let (pattern, line) = ending(kind, length, tail);
            for letters in BOTH {
                fixed.push(Fixed::line(letters, &pattern, &[line, b"a"].concat(), stated));
            }
            fixed.push(Fixed::run(BOTH[kind % 2], &pattern, b"a\n]\n", stated));
        }
        let atoms = [&vec![b'a'; length - tail.len()], tail].concat();
        fixed.push(Fixed::line(Letters::Apart, &atoms, b"a", stated));
    }
    fixed
}
