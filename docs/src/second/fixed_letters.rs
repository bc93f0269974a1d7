//! Fixed lines and sets for the choice of case (document 02, S-1), each stated for both choices.

use crate::fixed::Fixed;
use crate::fixed_sets::{exactly, names, turned, Named, Ranges};
use crate::letters::{Letters, BOTH};
use crate::parser::MARKS;

const YES: &str = "match";
const NO: &str = "no match";
const BAD: &str = "refused 8";

/// Pattern, line, document 01's answer, the answer with case ignored.
type Row = (&'static str, &'static str, &'static str, &'static str);

/// Plain bytes, anchors, marks.
const WORDS: &[Row] = &[
    ("GO", "GO", YES, YES),
    ("GO", "go", NO, YES),
    ("GO", "gO", NO, YES),
    ("go", "Go", NO, YES),
    ("go", "g0", NO, NO),
    ("^Go$", "gO", NO, YES),
    ("^Go$", "gOs", NO, NO),
    ("HOIST|haze", "hoist", NO, YES),
    ("HOIST|haze", "HAZE", NO, YES),
    ("HOIST|haze", "haZe off", NO, YES),
    ("HOIST|haze", "Haist", NO, NO),
    ("^(aB)+c?$", "AbaBABC", NO, YES),
    ("^(aB)+c?$", "AbaBABCc", NO, NO),
    ("(A|b)*$", "xyz", YES, YES),
    ("^(A|b)*$", "aBbA", NO, YES),
    ("^(A|b)*$", "aBcA", NO, NO),
    ("^A+$", "aAa", NO, YES),
    ("^A?$", "a", NO, YES),
    ("^$", "A", NO, NO),
    ("a.C", "A\rc", NO, YES),
    ("\\$GO\\^", "$go^", NO, YES),
    ("\\[x\\{", "[X{", NO, YES),
    ("\\[x\\{", "{X[", NO, NO),
    ("\\\\", "\\", YES, YES),
    ("\\\\", "|", NO, NO),
    ("\\|", "\\", NO, NO),
    ("\\^", "~", NO, NO),
    ("\\?", "_", NO, NO),
    ("_", "?", NO, NO),
    ("]", "}", NO, NO),
    ("}", "]", NO, NO),
    ("@", "`", NO, NO),
    ("`", "@", NO, NO),
];

/// The set of the elements, then the folding, then a leading `^`.
const BRACKETS: &[Row] = &[
    ("[^a]", "A", YES, NO),
    ("[^a]", "a", NO, NO),
    ("[^a]", "b", YES, YES),
    ("[^a]", "B", YES, YES),
    ("[^a]", "", NO, NO),
    ("[^a]", "aAb", YES, YES),
    ("^[^a]*$", "bAc", YES, NO),
    ("[^A]", "a", YES, NO),
    ("[^A]", "A", NO, NO),
    ("[^A]", "b", YES, YES),
    ("[^aA]", "a", NO, NO),
    ("[^aA]", "A", NO, NO),
    ("[Z-a]", "Y", NO, NO),
    ("[Z-a]", "Z", YES, YES),
    ("[Z-a]", "[", YES, YES),
    ("[Z-a]", "`", YES, YES),
    ("[Z-a]", "a", YES, YES),
    ("[Z-a]", "b", NO, NO),
    ("[Z-a]", "y", NO, NO),
    ("[Z-a]", "z", NO, YES),
    ("[Z-a]", "A", NO, YES),
    ("[Z-a]", "B", NO, NO),
    ("[Z-a]", "@", NO, NO),
    ("[Z-a]", "{", NO, NO),
    ("[^Z-a]", "Z", NO, NO),
    ("[^Z-a]", "z", YES, NO),
    ("[^Z-a]", "A", YES, NO),
    ("[^Z-a]", "b", YES, YES),
    ("[@-[]", "@", YES, YES),
    ("[@-[]", "A", YES, YES),
    ("[@-[]", "Z", YES, YES),
    ("[@-[]", "a", NO, YES),
    ("[@-[]", "z", NO, YES),
    ("[@-[]", "[", YES, YES),
    ("[@-[]", "`", NO, NO),
    ("[@-[]", "{", NO, NO),
    ("[^@-[]", "a", YES, NO),
    ("[^@-[]", "`", YES, YES),
    ("[^@-[]", "{", YES, YES),
    ("[[:upper:]]", "a", NO, YES),
    ("[[:upper:]]", "A", YES, YES),
    ("[[:upper:]]", "1", NO, NO),
    ("[[:lower:]]", "Q", NO, YES),
    ("[[:lower:]]", "@", NO, NO),
    ("[[:lower:]]", "[", NO, NO),
    ("[^[:lower:]]", "A", YES, NO),
    ("[^[:lower:]]", "a", NO, NO),
    ("[^[:lower:]]", "1", YES, YES),
    ("[^[:upper:]]", "a", YES, NO),
    ("[^[:upper:]]", "A", NO, NO),
    ("^[[:upper:]][[:lower:]]*$", "hOiSt", NO, YES),
    ("^[^[:upper:]]+$", "haze", YES, NO),
    ("^[^[:upper:]k]+$", "12-3", YES, YES),
    ("^[k-]$", "K", NO, YES),
    ("^[]k]$", "K", NO, YES),
    ("^[^]k]$", "K", YES, NO),
    ("^[[:digit:]k]+$", "1K2k", NO, YES),
    ("^[:upper:]+$", "SUPER:", NO, NO),
    ("^[:upper:]+$", "UPPER:", NO, YES),
];

/// Ranges go by raw bytes, and names are not folded: the refusals are the same.
const REFUSED: &[Row] = &[
    ("[a-Z]", "a", BAD, BAD),
    ("[a-A]", "a", BAD, BAD),
    ("[z-A]", "z", BAD, BAD),
    ("[_-A]", "a", BAD, BAD),
    ("[b-A]", "A", BAD, BAD),
    ("[b-a]", "B", BAD, BAD),
    ("[B-A]", "b", BAD, BAD),
    ("[B-a]", "b", NO, YES),
    ("[[:UPPER:]]", "A", BAD, BAD),
    ("[[:Lower:]]", "a", BAD, BAD),
    ("[[:upper:]-z]", "a", BAD, BAD),
    ("[A-[:lower:]]", "a", BAD, BAD),
    ("[[=A=]]", "a", BAD, BAD),
    ("[[.A.]]", "a", BAD, BAD),
    ("\\A", "a", BAD, BAD),
    ("\\K", "K", BAD, BAD),
    ("A**", "a", BAD, BAD),
    ("(A", "a", BAD, BAD),
    ("A{2}", "aa", BAD, BAD),
    ("A\n", "a", BAD, BAD),
    ("A\0", "a", BAD, BAD),
    ("", "A", "refused 7", "refused 7"),
    ("A", "a\n", "refused 5", "refused 5"),
    ("A", "a\0", "refused 5", "refused 5"),
    ("AaAaAaAaAaAaAaAaAaAaAaAaAaAaA", "aaaaaaaaaaaaaaaaaaaaaaaaaaaaA", NO, YES),
    ("AaAaAaAaAaAaAaAaAaAaAaAaAaAaAa", "aaaaaaaaaaaaaaaaaaaaaaaaaaaaaa", "refused 9", "refused 9"),
    ("AaAaAaAaAaAaAaAaAaAaAaAaAaAaAa(", "aaaaaaaaaaaaaaaaaaaaaaaaaaaaaa", BAD, BAD),
];

const SETS: &[Named] = &[
    (b"k", &[(107, 107)], &[(75, 75)]),
    (b"K", &[(75, 75)], &[(107, 107)]),
    (b"A", &[(65, 65)], &[(97, 97)]),
    (b"z", &[(122, 122)], &[(90, 90)]),
    (b"@", &[(64, 64)], &[]),
    (b"\\[", &[(91, 91)], &[]),
    (b"`", &[(96, 96)], &[]),
    (b"\\{", &[(123, 123)], &[]),
    (b"\xc1", &[(193, 193)], &[]),
    (b"\xe1", &[(225, 225)], &[]),
    (b"\xc0", &[(192, 192)], &[]),
    (b"\xfa", &[(250, 250)], &[]),
    (b".", &[(1, 255)], &[]),
    (b"[a]", &[(97, 97)], &[(65, 65)]),
    (b"[A]", &[(65, 65)], &[(97, 97)]),
    (b"[aA]", &[(65, 65), (97, 97)], &[]),
    (b"[zB]", &[(66, 66), (122, 122)], &[(90, 90), (98, 98)]),
    (b"[Z-a]", &[(90, 97)], &[(65, 65), (122, 122)]),
    (b"[@-[]", &[(64, 91)], &[(97, 122)]),
    (b"[`-{]", &[(96, 123)], &[(65, 90)]),
    (b"[@-A]", &[(64, 65)], &[(97, 97)]),
    (b"[z-{]", &[(122, 123)], &[(90, 90)]),
    (b"[[-`]", &[(91, 96)], &[]),
    (b"[M-m]", &[(77, 109)], &[(65, 76), (110, 122)]),
    (b"[B-Y]", &[(66, 89)], &[(98, 121)]),
    (b"[b-y]", &[(98, 121)], &[(66, 89)]),
    (b"[A-Za-z]", &[(65, 90), (97, 122)], &[]),
    (b"[--a]", &[(45, 97)], &[(98, 122)]),
    (b"[]-b]", &[(93, 98)], &[(65, 66)]),
    (b"[-k]", &[(45, 45), (107, 107)], &[(75, 75)]),
    (b"[k^]", &[(94, 94), (107, 107)], &[(75, 75)]),
    (b"[[k\\]", &[(91, 92), (107, 107)], &[(75, 75)]),
    (b"[\x01-@]", &[(1, 64)], &[]),
    (b"[\x01-A]", &[(1, 65)], &[(97, 97)]),
    (b"[{-\xff]", &[(123, 255)], &[]),
    (b"[z-\xff]", &[(122, 255)], &[(90, 90)]),
    (b"[\x01-\xff]", &[(1, 255)], &[]),
    (b"[\xc1]", &[(193, 193)], &[]),
    (b"[\xe0-\xfe]", &[(224, 254)], &[]),
    (b"[!-:]", &[(33, 58)], &[]),
    (b"[:upper:]", &[(58, 58), (101, 101), (112, 112), (114, 114), (117, 117)], UPPER_OF_UPER),
    (b"[[:upper:]]", &[(65, 90)], &[(97, 122)]),
    (b"[[:lower:]]", &[(97, 122)], &[(65, 90)]),
    (b"[[:upper:][:lower:]]", &[(65, 90), (97, 122)], &[]),
    (b"[[:upper:]0]", &[(48, 48), (65, 90)], &[(97, 122)]),
    (b"[[:alpha:]]", &[(65, 90), (97, 122)], &[]),
    (b"[[:alnum:]]", &[(48, 57), (65, 90), (97, 122)], &[]),
    (b"[[:digit:]g]", &[(48, 57), (103, 103)], &[(71, 71)]),
    (b"[[:xdigit:]]", &[(48, 57), (65, 70), (97, 102)], &[]),
    (b"[[:punct:]]", &[(33, 47), (58, 64), (91, 96), (123, 126)], &[]),
    (b"[[:graph:]]", &[(33, 126)], &[]),
    (b"[[:cntrl:]]", &[(1, 31), (127, 127)], &[]),
    (b"[[:space:]m]", &[(9, 13), (32, 32), (109, 109)], &[(77, 77)]),
];

/// E, P, R and U.
const UPPER_OF_UPER: Ranges = &[(69, 69), (80, 80), (82, 82), (85, 85)];

pub fn letters() -> Vec<Fixed> {
    let mut fixed = Vec::new();
    for (pattern, line, apart, alike) in WORDS.iter().chain(BRACKETS).chain(REFUSED) {
        fixed.push(Fixed::line(Letters::Apart, pattern.as_bytes(), line.as_bytes(), apart));
        fixed.push(Fixed::line(Letters::Alike, pattern.as_bytes(), line.as_bytes(), alike));
    }
    for named in SETS {
        fixed.extend(one_set(named));
    }
    fixed.extend(marks());
    fixed.extend(far_keys());
    fixed
}

/// The atom under both choices, and if it is a bracket, the same with `^`.
fn one_set(named: &Named) -> Vec<Fixed> {
    let atom = named.0;
    let mut fixed = Vec::new();
    for letters in BOTH {
        fixed.extend(exactly(letters, atom, b"", |key| names(named, letters, key)));
        if atom[0] == b'[' {
            fixed.extend(exactly(letters, &turned(atom), b"", |key| !names(named, letters, key)));
        }
    }
    fixed
}

/// An escaped mark stands for itself alone.
fn marks() -> Vec<Fixed> {
    let mut fixed = Vec::new();
    for letters in BOTH {
        for &mark in MARKS {
            fixed.extend(exactly(letters, &[b'\\', mark], b"", |key| key == mark));
        }
    }
    fixed
}

/// Every byte as an atom, on the key 32 above or below: with case ignored the letters match, nothing else.
fn far_keys() -> Vec<Fixed> {
    let mut fixed = Vec::new();
    for byte in (1..=255u8).filter(|&byte| ![10, 32, 42].contains(&byte)) {
        let atom = if MARKS.contains(&byte) { vec![b'\\', byte] } else { vec![byte] };
        let far = [byte ^ 32];
        if byte.is_ascii_alphabetic() {
            fixed.push(Fixed::line(Letters::Apart, &atom, &far, NO));
            fixed.push(Fixed::line(Letters::Alike, &atom, &far, YES));
        } else {
            fixed.push(Fixed::line(Letters::Alike, &atom, &far, NO));
        }
    }
    fixed
}
