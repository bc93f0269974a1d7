//! Fixed brackets that close at a pattern's end (document 02, S-2), at the longest length that passes, one
//! below and one above. The bytes that are missing stand before the bracket.

use crate::case::Case;
use crate::fixed::Fixed;
use crate::fixed_sets::{exactly, names, turned, Named};
use crate::letters::{Letters, BOTH};
use crate::make_book::{keys, write};
use crate::parser::MOST_BYTES;
use crate::question::Question;

const YES: &str = "match";
const NO: &str = "no match";
const BAD: &str = "refused 8";
pub const TOO_LONG: &str = "refused 7";
/// How many kinds of first parts there are.
pub const FRONTS: usize = 3;
/// Keys that tell one bracket from another.
const TELLING: &[u8] = b"]^-[kK7:";

const LAST: &[Named] = &[
    (b"[k]", &[(107, 107)], &[(75, 75)]),
    (b"[\xff]", &[(255, 255)], &[]),
    (b"[b-d]", &[(98, 100)], &[(66, 68)]),
    (b"[\x80-\xff]", &[(128, 255)], &[]),
    (b"[k^]", &[(94, 94), (107, 107)], &[(75, 75)]),
    (b"[\\]", &[(92, 92)], &[]),
    (b"[.]", &[(46, 46)], &[]),
    (b"[:]", &[(58, 58)], &[]),
    (b"[[:digit:]]", &[(48, 57)], &[]),
    (b"[[:upper:]]", &[(65, 90)], &[(97, 122)]),
    (b"[[:xdigit:]]", &[(48, 57), (65, 70), (97, 102)], &[]),
    (b"[[:digit:][:xdigit:]k]", &[(48, 57), (65, 70), (97, 102), (107, 107)], &[(75, 75)]),
    (b"[[:digit:]-]", &[(45, 45), (48, 57)], &[]),
    (b"[[:upper:][]", &[(65, 91)], &[(97, 122)]),
    (b"[]]", &[(93, 93)], &[]),
    (b"[]k]", &[(93, 93), (107, 107)], &[(75, 75)]),
    (b"[]-b]", &[(93, 98)], &[(65, 66)]),
    (b"[]-]", &[(45, 45), (93, 93)], &[]),
    (b"[][:digit:]]", &[(48, 57), (93, 93)], &[]),
    (b"[][]", &[(91, 91), (93, 93)], &[]),
    (b"[-]", &[(45, 45)], &[]),
    (b"[--]", &[(45, 45)], &[]),
    (b"[---]", &[(45, 45)], &[]),
    (b"[+--]", &[(43, 45)], &[]),
    (b"[k-]", &[(45, 45), (107, 107)], &[(75, 75)]),
    (b"[b-d-]", &[(45, 45), (98, 100)], &[(66, 68)]),
    (b"[[]", &[(91, 91)], &[]),
    (b"[k[]", &[(91, 91), (107, 107)], &[(75, 75)]),
    (b"[Z-[]", &[(90, 91)], &[(122, 122)]),
];

/// What a pattern ends with, a text, and whether the end takes it; the same under both choices of case.
const TAILS: &[(&str, &str, &str)] = &[
    ("[a]]", "a]", YES),
    ("[a]]", "a", NO),
    ("[a]]", "]", NO),
    ("[]]]", "]]", YES),
    ("[]]]", "]", NO),
    ("[^]]]", "a]", YES),
    ("[^]]]", "]]", NO),
    ("[a]*", "", YES),
    ("[a]+", "", NO),
    ("[a]+", "a", YES),
    ("[]]?", "]", YES),
    ("[a]$", "a", YES),
    ("[a]$", "ab", NO),
    ("[^]]$", "]", NO),
    ("([a])", "a", YES),
    ("(b|[]])", "]", YES),
    ("(b|[]])", "[", NO),
    ("\\[a]", "[a]", YES),
    ("\\[a]", "a", NO),
    ("\\[", "[", YES),
    ("\\[]", "[]", YES),
    ("\\[]", "[", NO),
    ("[\\]", "\\", YES),
    ("[\\]]", "\\]", YES),
    ("[\\]]", "]", NO),
    ("[a][]]", "a]", YES),
    ("[a][]]", "a[", NO),
    ("[]a][^]b]", "]a", YES),
    ("[]a][^]b]", "ab", NO),
    ("[]a][^]b]", "]]", NO),
    ("[a]\\", "a", BAD),
    ("[a]|", "a", BAD),
    ("[a])", "a", BAD),
    ("[a](", "a", BAD),
    ("[a]{", "a", BAD),
    ("[a]^", "a", BAD),
    ("[a]**", "a", BAD),
    ("[b-a]", "a", BAD),
    ("[a--]", "a", BAD),
    ("[a[.]", ".", BAD),
    ("[[:foo:]]", "f", BAD),
    ("[[:alpha:]-z]", "a", BAD),
    ("[A-[:digit:]]", "A", BAD),
];

pub fn ends() -> Vec<Fixed> {
    let mut fixed = Vec::new();
    for named in LAST {
        fixed.extend(last(named, false));
        fixed.extend(last(named, true));
    }
    for &(tail, text, stated) in TAILS {
        fixed.extend(tailed(tail.as_bytes(), text.as_bytes(), stated));
    }
    fixed.extend(in_books());
    fixed
}

/// As many bytes of pattern as asked for, and the text they take.
pub fn front(kind: usize, bytes: usize) -> (Vec<u8>, &'static [u8]) {
    let filled = |fill: Vec<u8>| [b"[", &fill[..], b"]"].concat();
    match kind {
        0 => (filled(vec![b'q'; bytes - 2]), b"q"),
        1 => {
            let names = b"[:digit:]".repeat((bytes - 2) / 9);
            (filled([names, vec![b'7'; (bytes - 2) % 9]].concat()), b"7")
        }
        _ => {
            let depth = (bytes - 1) / 2;
            let text: &[u8] = if bytes % 2 == 1 { b"q" } else { b"qq" };
            ([&vec![b'('; depth], text, &vec![b')'; depth]].concat(), text)
        }
    }
}

/// A pattern of so many bytes that ends so, and the text its first part takes.
pub fn ending(kind: usize, length: usize, tail: &[u8]) -> (Vec<u8>, &'static [u8]) {
    let (mut pattern, text) = front(kind, length - tail.len());
    pattern.extend_from_slice(tail);
    assert_eq!(pattern.len(), length);
    (pattern, text)
}

/// One bracket behind every kind of first part: a line's last key must be in its set.
fn last(named: &Named, round: bool) -> Vec<Fixed> {
    let bracket = if round { turned(named.0) } else { named.0.to_vec() };
    let has = |letters, key| names(named, letters, key) != round;
    let mut fixed = Vec::new();
    for kind in 0..FRONTS {
        let (pattern, text) = ending(kind, MOST_BYTES, &bracket);
        for letters in BOTH {
            fixed.extend(exactly(letters, &pattern, text, |key| has(letters, key)));
            for &key in TELLING {
                let stated = if has(letters, key) { YES } else { NO };
                fixed.push(Fixed::line(letters, &pattern, &[text, &[key]].concat(), stated));
            }
        }
        let (shorter, text) = ending(kind, MOST_BYTES - 1, &bracket);
        fixed.extend(exactly(Letters::Apart, &shorter, text, |key| has(Letters::Apart, key)));
        let (longer, text) = ending(kind, MOST_BYTES + 1, &bracket);
        fixed.push(Fixed::line(BOTH[kind % 2], &longer, text, TOO_LONG));
        fixed.push(Fixed::run(BOTH[kind % 2], &longer, text, TOO_LONG));
    }
    fixed
}

fn tailed(tail: &[u8], text: &[u8], stated: &str) -> Vec<Fixed> {
    let mut fixed = Vec::new();
    for kind in 0..FRONTS {
        for length in [MOST_BYTES - 1, MOST_BYTES, MOST_BYTES + 1] {
            let (pattern, before) = ending(kind, length, tail);
            let stated = if length > MOST_BYTES { TOO_LONG } else { stated };
            for letters in BOTH {
                fixed.push(Fixed::line(letters, &pattern, &[before, text].concat(), stated));
            }
        }
    }
    fixed
}

/// Behind the pattern stands a book full of `]`, which closes nothing.
fn in_books() -> Vec<Fixed> {
    let book = write(&[keys(b"]]\nq]\nqk\nq]q\n")]);
    let count = |tail: &[u8], stated| {
        let (pattern, _) = ending(0, MOST_BYTES, tail);
        let question = Question::new(Letters::Apart, &pattern);
        Fixed::new(Case::Count { number: 0, words: 100, question, book: book.clone() }, stated)
    };
    vec![
        count(b"[]]", "lines 2"),
        count(b"[^]]", "lines 1"),
        count(b"[k-]", "lines 1"),
        count(b"[]k]", "lines 3"),
        count(b"[", BAD),
        count(b"[]", BAD),
        count(b"[^]", BAD),
        count(b"[k-", BAD),
        count(b"[[:alpha:", BAD),
    ]
}
