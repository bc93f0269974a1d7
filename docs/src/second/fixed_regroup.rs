//! Fixed regroupings of small books (document 02, S-7). The lines were counted by hand, in the run written out.

use crate::fixed_depth::macros;
use crate::fixed_regroup_large::large;
use crate::letters::Letters;
use crate::make_book::Macros;
use crate::question::Question;
use crate::regroup::{Cut, Regrouping};

/// Why, the pattern, the items of each macro as fixed_depth.rs has them, the macro, where Y begins and ends, the
/// new macro's number, and the lines.
type Small = (&'static str, &'static str, &'static [&'static str], [usize; 4], u64);

const PLACES: &[Small] = &[
    ("Y is the whole macro, keys", "a", &["a LF b"], [0, 0, 3, 0], 1),
    ("Y is the whole macro, calls", "a", &["a LF", "0 0"], [1, 0, 2, 1], 2),
    ("Y is one key", "b", &["a b c"], [0, 1, 2, 0], 1),
    ("Y is the first item", "^a", &["a b c"], [0, 0, 1, 0], 1),
    ("Y is the last item", "c$", &["a b c"], [0, 2, 3, 0], 1),
    ("Y is one call, and stands as low as it may", "a", &["a LF", "b LF", "0 1 0"], [2, 0, 1, 1], 2),
    ("Y is one call, and stands just below", "a", &["a LF", "b LF", "0 1 0"], [2, 2, 3, 2], 2),
    ("keys alone in front of all macros", "^ab$", &["a LF", "b LF", "a b LF 0 1"], [2, 0, 3, 0], 1),
    ("a call of the macro below, no lower place", "a", &["x", "a LF 0", "1 1 LF"], [2, 0, 2, 2], 2),
    ("calls of 0 and 1, between others", "a", &["a", "LF", "0 1", "x 2", "3 0 1 2"], [4, 1, 3, 2], 3),
    ("document 01's example", "B", &["B LF", "0 C 0"], [1, 1, 3, 1], 2),
    ("an item that was called twice", "a", &["a LF", "0 0 0 0"], [1, 1, 3, 1], 4),
];

const CALLED: &[Small] = &[
    ("a later macro calls m", "a", &["a LF", "0 b 0", "1 1"], [1, 0, 2, 1], 2),
    (
        "later macros call every macro from j on",
        "a",
        &["a", "0 LF", "1 0 1", "2 1 0", "3 2 1"],
        [2, 0, 2, 2],
        2,
    ),
    ("macros from j to m call each other", "a", &["a LF", "0 0", "1 1", "2 1 0", "3 x y"], [4, 1, 3, 0], 7),
    ("the macro at j is called on both sides", "a", &["a LF", "b LF", "1 0", "2 1 2"], [3, 1, 2, 2], 2),
    ("the macro that was j is called in X and Z", "a", &["x", "a LF", "1 0 1"], [2, 1, 2, 1], 2),
    ("a macro that m does not reach", "a", &["a LF", "0 0 0", "a LF x"], [2, 0, 2, 0], 1),
];

const ACROSS: &[Small] = &[
    ("a match across both seams", "abc", &["x a b c x"], [0, 2, 3, 0], 1),
    ("a match into a call", "abc", &["b c", "a 0 LF a 0"], [1, 1, 4, 1], 2),
    ("a line across both seams", "^a*$", &["a a a a a"], [0, 1, 4, 0], 1),
    ("no line across: an LF within Y", "aa", &["a a LF a a"], [0, 1, 4, 0], 2),
    ("lines closed within Y", "^a$", &["LF a LF a LF a"], [0, 2, 5, 0], 3),
    ("CR ends X, LF begins Y", "a$", &["a CR LF b"], [0, 2, 4, 0], 1),
    ("CR ends Y, LF begins Z", "a$", &["b LF a CR LF"], [0, 1, 4, 0], 1),
    ("Y is CR", "a$", &["a CR LF"], [0, 1, 2, 0], 1),
    ("Y is LF", "a$", &["a CR LF"], [0, 2, 3, 0], 1),
    ("Y is CR LF", "^$", &["a LF CR LF"], [0, 2, 4, 0], 1),
    ("CR CR, and LF behind Y", "a.$", &["a CR CR LF"], [0, 1, 3, 0], 1),
    ("a final CR in Y, no LF behind it", "a.$", &["a LF a CR"], [0, 2, 4, 0], 1),
    ("CR and LF out of two calls", "a$", &["a CR", "LF", "0 1 0 1"], [2, 1, 3, 2], 2),
    ("empty lines on both sides of the seams", "^$", &["LF LF LF"], [0, 1, 2, 0], 3),
];

/// With case ignored.
const ALIKE: &[Small] = &[
    ("case ignored", "GO$", &["g O CR", "LF G o", "0 1"], [2, 1, 2, 2], 2),
    ("case ignored across a seam", "^abc$", &["A b C LF"], [0, 1, 2, 0], 1),
];

pub fn regroupings() -> Vec<Regrouping> {
    let mut all = Vec::new();
    for small in [PLACES, CALLED, ACROSS].concat() {
        all.push(of_small(Letters::Apart, &small));
    }
    all.extend(ALIKE.iter().map(|small| of_small(Letters::Alike, small)));
    all.extend(large());
    all
}

fn of_small(letters: Letters, (why, pattern, texts, cut, lines): &Small) -> Regrouping {
    let [number, from, to, into] = *cut;
    let cut = Cut { number, from, to, into };
    let question = Question::new(letters, pattern.as_bytes());
    stated(why, question, macros(texts), cut, &format!("lines {lines}"))
}

/// With exactly the words needed.
pub fn stated(why: &str, question: Question, macros: Macros, cut: Cut, lines: &str) -> Regrouping {
    let stated = Some(String::from(lines));
    Regrouping { why: String::from(why), macros, cut, question, more_words: 0, stated }
}
