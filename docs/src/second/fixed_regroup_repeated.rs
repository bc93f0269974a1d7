//! Fixed regroupings of version 2 books (document 02, S-7 and S-8): items keep their repeat counts, and the call of the
//! new macro stands once. The lines were told from the passes by hand.

use crate::letters::Letters;
use crate::question::Question;
use crate::regroup::{Cut, Regrouping};
use crate::repeats::macros;

/// Why, the pattern, the items of each macro as repeats.rs has them, the macro, where Y begins and ends, the new
/// macro's number, and the lines.
type Small = (&'static str, &'static str, &'static [&'static str], [usize; 4], &'static str);

const SMALL: &[Small] = &[
    ("Y is a chase", "a", &["a LF", "0*400"], [1, 0, 1, 1], "lines 400"),
    ("Y is one chase of three", "a", &["a LF", "0*400 0*30 0*2"], [1, 1, 2, 1], "lines 432"),
    ("Y is the first and the last item", "a", &["a LF", "0*400 0*30"], [1, 0, 2, 1], "lines 430"),
    ("Y is a repeated key", "^$", &["a LF*400 b"], [0, 1, 2, 0], "lines 399"),
    ("Y is below all macros", "^$", &["x LF", "0*3 LF*400 0"], [1, 1, 2, 0], "lines 400"),
    ("a repeated call goes up", "a", &["a LF", "0*9", "b LF*2 1*9 0*9"], [2, 0, 2, 1], "lines 90"),
    ("a match across both seams", "abbc", &["a*2 b*2 c*2"], [0, 1, 2, 0], "lines 1"),
    ("CR ends X, LF begins Y", "a$", &["a*3 CR LF*5 b"], [0, 2, 3, 0], "lines 1"),
    ("two CR end X, LF begins Y", "a$", &["a*3 CR*2 LF*5 b"], [0, 2, 3, 0], "lines 0"),
    ("CR ends Y, LF begins Z", "a$", &["LF a CR", "0*400 LF"], [1, 0, 1, 1], "lines 400"),
    ("a later macro calls m again and again", "a", &["a LF", "0*5 x LF", "1*7"], [1, 0, 1, 1], "lines 5"),
    ("exactly 2^64 - 1", "a", TOWER, [4, 0, 2, 4], "lines 18446744073709551615"),
    ("one line more", "a", OVER, [4, 1, 5, 3], "refused 12"),
    ("one line more, out of the way", "a", BESIDE, [5, 0, 1, 0], "lines 2"),
];

const TOWER: &[&str] = &["a LF", "0*65535 0", "1*65535 1", "2*65535 2", "3*65535 2*65535 1*65535 0*65535"];
const OVER: &[&str] = &["a LF", "0*65535 0", "1*65535 1", "2*65535 2", "3*65535 2*65535 1*65535 0*65535 0"];
const BESIDE: &[&str] = &["a LF", "0*65535 0", "1*65535 1", "2*65535 2", "3*65535 3", "a*5 LF 0"];

pub fn regroupings() -> Vec<Regrouping<(u16, u16)>> {
    SMALL.iter().map(of_small).collect()
}

fn of_small((why, pattern, texts, [number, from, to, into], stated): &Small) -> Regrouping<(u16, u16)> {
    Regrouping {
        why: String::from(*why),
        macros: macros(texts),
        cut: Cut { number: *number, from: *from, to: *to, into: *into },
        question: Question::new(Letters::Apart, pattern.as_bytes()),
        more_words: 0,
        stated: Some(String::from(*stated)),
    }
}
