//! Fixed brackets behind first parts of none, one, two and more bytes (document 02, S-2): a bracket's set does
//! not depend on the place it begins at.

use crate::fixed::Fixed;
use crate::fixed_sets::{exactly, names, turned, Named};
use crate::letters::BOTH;

/// A first part, and a text that it takes.
const FRONTS: &[(&str, &str)] = &[
    ("", ""),
    ("q", "q"),
    ("qr", "qr"),
    ("qrs", "qrs"),
    ("]", "]"),
    ("\\[", "["),
    ("\\\\", "\\"),
    ("[]]", "]"),
    ("[[]", "["),
    ("[^]]", "a"),
    ("[^^]", "]"),
    ("[a]]", "a]"),
    ("[a-]", "-"),
    ("[--/]", "."),
    ("q*", "qq"),
    ("(q)", "q"),
    ("([]])+", "]]"),
    ("(q|[])])", ")"),
    ("[[:digit:]]", "7"),
    ("[[:xdigit:]-]", "-"),
    ("\\[[^]]]", "[a]"),
];

const SAME: &[Named] = &[
    (b"[]k]", &[(93, 93), (107, 107)], &[(75, 75)]),
    (b"[--/]", &[(45, 47)], &[]),
    (b"[A-[]", &[(65, 91)], &[(97, 122)]),
    (b"[[:upper:]-]", &[(45, 45), (65, 90)], &[(97, 122)]),
    (b"[]-b^]", &[(93, 98)], &[(65, 66)]),
    (b"[.[k]", &[(46, 46), (91, 91), (107, 107)], &[(75, 75)]),
];

/// Between anchors, so that the bracket takes the line's last key. Behind every second first part it has `^`.
pub fn fronts() -> Vec<Fixed> {
    let mut fixed = Vec::new();
    for (place, (front, text)) in FRONTS.iter().enumerate() {
        let round = place % 2 == 1;
        for named in SAME {
            let bracket = if round { turned(named.0) } else { named.0.to_vec() };
            let pattern = [b"^", front.as_bytes(), &bracket, b"$"].concat();
            for letters in BOTH {
                let wanted = |key| names(named, letters, key) != round;
                fixed.extend(exactly(letters, &pattern, text.as_bytes(), wanted));
            }
        }
    }
    fixed
}
