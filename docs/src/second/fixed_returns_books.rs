//! Fixed books in which CR and LF meet across macros (document 02, S-4).

use crate::case::Case;
use crate::fixed::Fixed;
use crate::hash::hash;
use crate::letters::Letters;
use crate::make_book::{call, keys, write, Macros};
use crate::question::Question;

pub fn returns_in_books() -> Vec<Fixed> {
    [meeting(), deep()].concat()
}

pub fn count(pattern: &[u8], macros: &[Vec<u16>], words: usize, stated: &str) -> Fixed {
    let question = Question::new(Letters::Apart, pattern);
    Fixed::new(Case::Count { number: macros.len() - 1, words, question, book: write(macros) }, stated)
}

/// The words that so many macros need under a pattern with so many atoms.
pub fn words(macros: &[Vec<u16>], atoms: usize) -> usize {
    macros.len() * (atoms + 9)
}

/// A CR alone in its macro, an LF alone in its macro, and what stands around them.
fn meeting() -> Vec<Fixed> {
    let both = |last: &[u16]| vec![keys(b"\r"), keys(b"\n"), last.to_vec()];
    let (cr, lf) = (call(0), call(1));
    let (a, b) = (u16::from(b'a'), u16::from(b'b'));
    vec![
        count(b"^$", &both(&[cr, lf]), 27, "lines 1"),
        count(b".", &both(&[cr, lf]), 30, "lines 0"),
        count(b"^$", &both(&[lf, cr]), 27, "lines 1"),
        count(b"^.$", &both(&[lf, cr]), 30, "lines 1"),
        count(b"a$", &both(&[a, cr, lf]), 30, "lines 1"),
        count(b"a$", &both(&[a, cr]), 30, "lines 0"),
        count(b"a.$", &both(&[a, cr]), 33, "lines 1"),
        count(b"a$", &both(&[a, cr, cr, lf]), 30, "lines 0"),
        count(b"a.$", &both(&[a, cr, cr, lf]), 33, "lines 1"),
        count(b"a$", &both(&[a, cr, b, lf]), 30, "lines 0"),
        count(b"a.b$", &both(&[a, cr, b, lf]), 36, "lines 1"),
        count(b"[ab]$", &both(&[a, cr, lf, b, cr, lf]), 30, "lines 2"),
        count(b"^$", &both(&[cr, lf, cr, lf, cr, lf]), 27, "lines 3"),
        count(b"^$", &both(&[cr, lf, lf, cr, cr, lf]), 27, "lines 2"),
        count(b"^.$", &both(&[cr, lf, lf, cr, cr, lf]), 30, "lines 1"),
        count(b"a$", &[keys(b"a\r"), keys(b"\nb"), vec![call(0), call(1)]], 30, "lines 1"),
        count(b"a$", &[keys(b"xa\r"), keys(b"\n"), vec![call(0), call(1), call(0)]], 30, "lines 1"),
        count(b"a$", &[keys(b"a\r"), vec![call(0), 10, call(0)], vec![call(1), 10]], 30, "lines 2"),
        count(b"a$", &[keys(b"\na\r"), vec![call(0), call(0), call(0)], vec![call(1), 10]], 30, "lines 3"),
        count(b"a$", &[keys(b"\na\r"), vec![call(0), call(0), call(0)]], 20, "lines 2"),
        count(b"^$", &[keys(b"\n\r"), vec![call(0), call(0), call(0)]], 18, "lines 3"),
        count(b"^$", &[keys(b"\r\n\r"), vec![call(0), call(0), call(0)]], 18, "lines 1"),
        count(b"^\r$", &[keys(b"\r\n\r"), vec![call(0), call(0), call(0)]], 20, "lines 3"),
    ]
}

/// From the last macro forty calls lead to each half; with more keys on the way, or none.
fn deep() -> Vec<Fixed> {
    let mut fixed = Vec::new();
    for (left, right, pattern, atoms, lines) in [
        ("a\r", "\nb", "a$", 1, 1),
        ("a\r", "\nb", "a.$", 2, 0),
        ("a\r", "b\n", "a.b$", 3, 1),
        ("a\r\r", "\nb", "a.$", 2, 1),
        ("\r", "\n", "^$", 0, 1),
        ("\n\r", "\n\r", "^$", 0, 2),
        ("b\na\r", "\n\nb", "a$|^$", 1, 2),
    ] {
        let book = two_chains(keys(left.as_bytes()), keys(right.as_bytes()), &[], &[]);
        let (exact, stated) = (words(&book, atoms), format!("lines {lines}"));
        fixed.push(count(pattern.as_bytes(), &book, exact, &stated));
        fixed.push(count(pattern.as_bytes(), &book, exact - 1, "refused 11"));
    }
    let longer = two_chains(keys(b"a\r"), keys(b"\nb\r"), &keys(b"x"), &keys(b"\n"));
    fixed.push(count(b"^x*a$", &longer, words(&longer, 2), "lines 1"));
    fixed.push(count(b"b$", &longer, words(&longer, 1), "lines 1"));
    fixed.push(count(b"^$", &longer, words(&longer, 0), "lines 38"));
    fixed.push(count(b"\r", &longer, words(&longer, 1), "lines 0"));
    fixed
}

/// Two chains of forty macros; the left one puts keys before, the right one behind.
fn two_chains(left: Vec<u16>, right: Vec<u16>, before: &[u16], behind: &[u16]) -> Macros {
    let mut macros = vec![left];
    for number in 1..40 {
        macros.push([before, &[call(number - 1)]].concat());
    }
    macros.push(right);
    for number in 41..80 {
        macros.push([&[call(number - 1)], behind].concat());
    }
    macros.push(vec![call(39), call(79)]);
    macros
}

/// A run with its lines, steps, rows and other work words under `a$`.
type Worded = (&'static [u8], u64, u64, [u64; 4], [u64; 6]);

/// Worked out by hand: line-start, mid-line, found and the atom are 1, 2, 4 and 8. From the first three an `a` is
/// accepted, which makes 7; no key at all from found and the atom, 12.
const WORDED: &[Worded] = &[
    (b"\r", 0, 4, [2, 2, 4, 0], [0, 0, 0, 0, 12, 2]),
    (b"\n", 0, 4, [0; 4], [1, 12, 0, 1, 0, 1]),
    (b"a\r", 0, 9, [2, 2, 4, 0], [0, 0, 0, 0, 7, 2]),
    (b"a\r\n", 1, 12, [0; 4], [1, 7, 0, 1, 0, 0]),
    (b"\n\r", 0, 5, [0; 4], [1, 12, 0, 2, 0, 3]),
    (b"\na\r", 0, 7, [0; 4], [1, 12, 0, 2, 1, 3]),
    (b"\na", 1, 5, [0; 4], [1, 12, 0, 10, 0, 1]),
    (b"\r\r", 0, 7, [2, 2, 4, 0], [0, 0, 0, 0, 4, 2]),
    (b"\na\r\n", 1, 8, [0; 4], [1, 12, 1, 1, 0, 1]),
    (b"a\r\n\r\na\r\n\r", 2, 19, [0; 4], [1, 7, 1, 2, 0, 2]),
    (b"a", 1, 4, [10, 10, 4, 0], [0; 6]),
];

/// Each alone, and all in one book: its steps are those of all, its lines those of the last.
pub fn returns_in_words() -> Vec<Fixed> {
    let shown = |lines: u64, steps: u64, work: &[u64]| {
        format!("lines {lines} steps {steps} work {}", hash(work.iter().copied()))
    };
    let mut fixed = Vec::new();
    let mut macros = Macros::new();
    let mut work = Vec::new();
    for (run, lines, steps, rows, others) in WORDED {
        let own = [&rows[..], &others[..]].concat();
        fixed.push(count(b"a$", &[keys(run)], 10, &shown(*lines, *steps, &own)));
        fixed.push(count(b"a$", &[keys(run)], 9, "refused 11"));
        macros.push(keys(run));
        work.extend(own);
    }
    fixed.push(count(b"a$", &macros, 110, &shown(1, 84, &work)));
    fixed.push(count(b"a$", &macros, 109, "refused 11"));
    // A word more is not touched.
    work.push(1_000_003 * 111);
    fixed.push(count(b"a$", &macros, 111, &shown(1, 84, &work)));
    fixed
}
