//! Fixed runs and lines with CR (document 02, S-4), their answers written from its words. In a pattern `\r` is
//! the byte 13 itself.

use crate::fixed::Fixed;
use crate::letters::{Letters, BOTH};

/// A run, and for each pattern how many of its lines match; the same under both choices of case.
type Row = (&'static str, &'static [(&'static str, u64)]);

/// "A CR directly before an LF becomes part of the line end." "CR LF alone is an empty line."
const ENDED: &[Row] = &[
    ("a\r\n", &[("a$", 1), ("^a$", 1), ("^.$", 1), ("a", 1), ("a\r", 0), ("a\r$", 0), ("\r", 0)]),
    ("a\r\n", &[("a.", 0), ("a[[:space:]]", 0), ("a[[:cntrl:]]", 0), ("[^a]", 0), ("^..$", 0), ("^$", 0)]),
    ("\r\n", &[("^$", 1), ("$", 1), ("^", 1), ("a*", 1), ("^\r*$", 1), (".", 0), ("\r", 0)]),
    ("\r\n", &[("[[:space:]]", 0), ("[[:cntrl:]]", 0), ("[^a]", 0), ("^\r$", 0), ("^.*$", 1), ("^.+$", 0)]),
    ("\r\n\r\n", &[("^$", 2), (".", 0), ("a*", 2)]),
    ("\r\n\n", &[("^$", 2), (".", 0)]),
    ("\n\r\n", &[("^$", 2), (".", 0), ("\r", 0)]),
    ("\r\na", &[("^$", 1), ("a$", 1), (".", 1), ("^.$", 1)]),
    ("\r\na\r\n", &[("^$", 1), ("^a$", 1), (".", 1), ("a*", 2)]),
    ("a\nb\r\n", &[("a$", 1), ("b$", 1), ("^.$", 2), ("\r", 0)]),
    ("a\r\nb\n", &[("a$", 1), ("b$", 1), ("^.$", 2), ("\r", 0)]),
    ("a\r\nb\r\nb", &[("a$", 1), ("b$", 2), ("^.$", 3), ("ab", 0)]),
    ("aba\r\nab\r\nb", &[("a$", 1), ("b$", 2), ("^ab$", 1), ("a$|^b", 2)]),
];

/// "A CR that no LF follows is a key as before, at the end of the run too."
const KEYS: &[Row] = &[
    ("\r", &[("^$", 0), (".", 1), ("\r", 1), ("^\r$", 1), ("^.$", 1), ("^..$", 0), ("a*", 1), ("$", 1)]),
    ("\r", &[("[[:space:]]", 1), ("[[:cntrl:]]", 1), ("[[:print:]]", 0), ("[^a]", 1), ("a", 0), ("^a*$", 0)]),
    ("a\r", &[("a$", 0), ("^a", 1), ("a\r$", 1), ("^a\r$", 1), ("a.$", 1), ("^..$", 1), ("^.$", 0)]),
    ("a\r", &[("a[[:space:]]$", 1), ("a[[:cntrl:]]$", 1), ("a[^a]$", 1), ("a[[:blank:]]", 0), ("\r\r", 0)]),
    ("a\r\r", &[("a\r$", 0), ("a\r\r$", 1), ("^...$", 1), ("a$", 0), ("\r\r\r", 0)]),
    ("a\rb", &[("a$", 0), ("^b", 0), ("a\rb", 1), ("a.b$", 1), ("b$", 1), ("ab", 0)]),
    ("a\rb\n", &[("a$", 0), ("a\rb$", 1), ("^...$", 1), ("[[:cntrl:]]", 1)]),
    ("\ra\n", &[("^a", 0), ("^\ra$", 1), ("^..$", 1), ("^$", 0)]),
    ("\n\r", &[("^$", 1), (".", 1), ("^\r$", 1), ("a*", 2), ("^.$", 1)]),
    ("\n\ra", &[("^$", 1), ("^a", 0), ("\ra$", 1), ("^..$", 1)]),
    ("\r\n\r", &[("^$", 1), ("\r", 1), ("^.$", 1), ("a*", 2)]),
    ("a\r\na\r", &[("a$", 1), ("a\r$", 1), ("a", 2), ("^.$", 1), ("^..$", 1)]),
    ("a\n\r\r", &[("a$", 1), ("^\r\r$", 1), ("^$", 0)]),
    ("a\r\x0b\n", &[("a$", 0), ("a\r\x0b$", 1), ("^...$", 1)]),
];

/// Of two CR before an LF the first is a key: no LF follows it.
const TWICE: &[Row] = &[
    ("\r\r\n", &[("^$", 0), ("^.$", 1), ("^\r$", 1), ("^..$", 0), ("\r\r", 0), ("[[:space:]]$", 1)]),
    ("\r\r\r\n", &[("^..$", 1), ("^\r\r$", 1), ("\r\r\r", 0), ("^\r$", 0)]),
    ("a\r\r\n", &[("a$", 0), ("a\r$", 1), ("a.$", 1), ("a..", 0), ("a[[:cntrl:]]$", 1)]),
    ("\r\r\n\r\n", &[("^$", 1), ("^.$", 1), ("a*", 2)]),
    ("\r\r\n\r", &[("^$", 0), ("^.$", 2), ("\r", 2)]),
    ("\r\n\r\r\n", &[("^$", 1), ("^\r$", 1), ("^..$", 0)]),
    ("a\r\nb\r\r\n\r", &[("a$", 1), ("b$", 0), ("b\r$", 1), ("^.$", 2), ("^\r$", 1), ("[[:cntrl:]]", 2)]),
];

/// The request's own words: `GO$` finds something now. Pattern, run, document 01's choice, case ignored.
const CUES: &[(&str, &str, u64, u64)] = &[
    ("GO$", "GO\r\n", 1, 1),
    ("GO$", "GO\r\ngo\r\nGO 7\r\nNO GO\r\n", 2, 3),
    ("GO$", "GO\r\nGO\nGO\r", 2, 2),
    ("^go$", "GO\r\r\nGO\r\ngo", 1, 2),
];

/// The one-line test takes its line as it stands, the CR at its end too.
const LINES: &[(&str, &str, bool)] = &[
    ("a$", "a\r", false),
    ("a\r$", "a\r", true),
    ("a.$", "a\r", true),
    ("a[[:space:]]$", "a\r", true),
    ("a[[:cntrl:]]$", "a\r", true),
    ("^$", "\r", false),
    ("^\r$", "\r", true),
    ("^.$", "\r", true),
    ("^.$", "\r\r", false),
    ("^..$", "\r\r", true),
    ("^[^a]$", "\r", true),
    ("^[^\r]$", "\r", false),
];

pub fn returns() -> Vec<Fixed> {
    let mut fixed = Vec::new();
    for letters in BOTH {
        for (run, asked) in ENDED.iter().chain(KEYS).chain(TWICE) {
            for (pattern, lines) in *asked {
                fixed.push(run_of(letters, pattern, run, *lines));
            }
        }
        for (pattern, line, matches) in LINES {
            let stated = if *matches { "match" } else { "no match" };
            fixed.push(Fixed::line(letters, pattern.as_bytes(), line.as_bytes(), stated));
        }
    }
    for (pattern, run, apart, alike) in CUES {
        fixed.push(run_of(Letters::Apart, pattern, run, *apart));
        fixed.push(run_of(Letters::Alike, pattern, run, *alike));
    }
    fixed.push(Fixed::line(Letters::Apart, b"a$", b"a\r\n", "refused 5"));
    fixed.push(Fixed::run(Letters::Apart, b"a$", b"a\r\n\0", "refused 5"));
    fixed.push(Fixed::run(Letters::Apart, b"a\r\n", b"a\r\n", "refused 8"));
    fixed
}

fn run_of(letters: Letters, pattern: &str, run: &str, lines: u64) -> Fixed {
    Fixed::run(letters, pattern.as_bytes(), run.as_bytes(), &format!("lines {lines}"))
}
