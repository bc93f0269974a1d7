//! Fixed counts over books of version 2 (document 02, S-8): chases, repeated keys, and matches that cross from one
//! pass into the next. The lines were told from the passes by hand, or by a formula in the repeat count.

use crate::case::Case;
use crate::fixed::Fixed;
use crate::hash::hash;
use crate::letters::{Letters, BOTH};
use crate::question::Question;
use crate::repeats::{macros, write, Repeats};

/// As many words as a macro needs under any pattern.
const MOST_WORDS: usize = 38;
/// Counts at the edges of one byte and of two.
const TIMES: [u64; 10] = [1, 2, 3, 255, 256, 257, 32_767, 32_768, 65_534, 65_535];

/// Pattern, the texts of the macros, and the lines of the last one.
type Small = (&'static str, &'static [&'static str], u64);

const CHASES: &[Small] = &[
    ("a", &["a LF", "0*400"], 400),
    ("^a$", &["a LF", "0*400"], 400),
    ("b", &["a LF", "0*400"], 0),
    ("^$", &["a LF", "0*400"], 0),
    ("GO", &["G O LF", "x LF", "0*400 1 0*12"], 412),
    ("x", &["G O LF", "x LF", "0*400 1 0*12"], 1),
    ("GO|x", &["G O LF", "x LF", "0*400 1*3 0*12"], 415),
    ("a", &["a LF", "0*20", "1*20"], 400),
    ("a", &["a LF", "0*3", "1*5 0", "2*7 1*2"], 118),
    ("^$", &["a LF", "0*3", "1*5 0", "2*7 1*2 LF*9"], 9),
    ("b$", &["a b LF", "0*400 a b"], 401),
    ("^a", &["x", "0*400", "LF a", "1 2*400"], 400),
    ("x", &["x", "0*400", "LF a", "1 2*400"], 1),
];

const KEYS: &[Small] = &[
    ("a", &["a*400"], 1),
    ("aa", &["a*1"], 0),
    ("aa", &["a*2"], 1),
    ("^aaa$", &["a*2"], 0),
    ("^aaa$", &["a*3"], 1),
    ("^aaa$", &["a*4"], 0),
    ("^a+$", &["a*65535"], 1),
    ("^a+b$", &["a*65535 b"], 1),
    ("^(aa)*$", &["a*65534"], 1),
    ("^(aa)*$", &["a*65535"], 0),
    ("^(aaa)*$", &["a*65535"], 1),
    ("^(aaa)*$", &["a*65534"], 0),
    ("^$", &["LF*65535"], 65_535),
    (".", &["LF*65535"], 0),
    ("^$", &["a LF*400"], 399),
    ("^$", &["LF*400 a"], 400),
    ("a*", &["LF*400 a"], 401),
    ("^$", &["a*400 LF*3 b*2 LF*2"], 3),
    ("^$", &["LF", "0*400"], 400),
    ("^$", &["LF*7", "0*11", "1*13"], 1_001),
    ("\u{1}", &["ONE*65535 LF"], 1),
    ("\\*\\*", &["a LF", "x"], 0),
];

/// Where one pass ends and the next begins nothing is cut.
const SEAMS: &[Small] = &[
    ("ba", &["a b", "0*1"], 0),
    ("ba", &["a b", "0*2"], 1),
    ("ba", &["a b", "0*400"], 1),
    ("^ab$", &["a b", "0*1"], 1),
    ("^ab$", &["a b", "0*2"], 0),
    ("^abab$", &["a b", "0*2"], 1),
    ("ababab", &["a b", "0*2"], 0),
    ("ababab", &["a b", "0*3"], 1),
    ("^(ab)+$", &["a b", "0*65535"], 1),
    ("^b", &["a b", "0*400"], 0),
    ("^a", &["a b", "0*400"], 1),
    ("a$", &["a b", "0*400"], 0),
    ("b$", &["a b", "0*400"], 1),
    ("^ba$", &["a LF b", "0*400"], 399),
    ("^a$", &["a LF b", "0*400"], 1),
    ("^b$", &["a LF b", "0*400"], 1),
    ("a", &["a LF b", "0*400"], 400),
    ("b", &["a LF b", "0*400"], 400),
    ("a|b", &["a LF b", "0*400"], 401),
    ("ab", &["a LF b", "0*400"], 0),
    ("^x$", &["LF x", "0*400"], 400),
    ("^$", &["LF x", "0*400"], 1),
    ("^yx$", &["x LF LF y", "0*400"], 399),
    ("^$", &["x LF LF y", "0*400"], 400),
    ("^$", &["LF*2 y", "0*400"], 401),
    ("^bab$", &["b LF*2 b a", "0*3 b LF"], 3),
    ("^bab$", &["b LF*2 b a", "0*3"], 2),
    ("^a*$", &["a LF a", "0*3", "1*3"], 10),
    ("^aa$", &["a LF a", "0*3", "1*3"], 8),
    ("abc", &["a", "b", "c", "0 1 2", "3*2 LF", "4*3"], 3),
    ("cab", &["a", "b", "c", "0 1 2", "3*2 LF", "4*3"], 3),
    ("cab", &["a", "b", "c", "0 1 2", "3*1 LF", "4*3"], 0),
    ("^c.a", &["c LF", "LF", "0*2 c", "2 x a"], 1),
    ("a.*b", &["a", "0*9 b", "LF", "1*9 2"], 1),
];

/// The same lines whatever the case, if it is ignored.
const LETTERS: &[Small] = &[
    ("go", &["G O LF", "g o LF", "0*400 1*300"], 700),
    ("^GOgo$", &["G o", "0*2 LF", "1*65535"], 65_535),
    ("[A-F]", &["f LF", "G LF", "0*400 1*300"], 400),
    ("[^a]", &["A*9 LF", "b LF", "0*400 1*300"], 300),
    ("OG", &["g o", "0*2 LF", "1*257"], 257),
];

pub fn counts() -> Vec<Fixed> {
    let mut fixed = Vec::new();
    for (pattern, texts, lines) in [CHASES, KEYS, SEAMS].concat() {
        fixed.push(count(pattern, &macros(texts), &told(lines)));
    }
    for (pattern, texts, lines) in LETTERS {
        let question = Question::new(Letters::Alike, pattern.as_bytes());
        let repeats = macros(texts);
        fixed.push(asked(question, &repeats, repeats.len() - 1, MOST_WORDS * repeats.len(), &told(*lines)));
    }
    fixed.extend(TIMES.iter().flat_map(|&times| by_times(times)));
    fixed.extend(TIMES.iter().flat_map(|&times| in_words(times)));
    fixed
}

/// Steps belong to version 1 alone.
pub fn told(lines: u64) -> String {
    format!("lines {lines} steps 0")
}

pub fn count(pattern: &str, macros: &Repeats, stated: &str) -> Fixed {
    let question = Question::new(Letters::Apart, pattern.as_bytes());
    asked(question, macros, macros.len() - 1, MOST_WORDS * macros.len(), stated)
}

pub fn asked(question: Question, macros: &Repeats, number: usize, words: usize, stated: &str) -> Fixed {
    Fixed::new(Case::Count { number, words, question, book: write(macros) }, stated)
}

/// A macro that stands so many times, and what is told from its passes.
fn by_times(times: u64) -> Vec<Fixed> {
    let over = |below: &str, pattern: &str, lines: u64| {
        count(pattern, &macros(&[below, &format!("0*{times}")]), &told(lines))
    };
    let key = |text: &str, pattern: &str, lines: u64| {
        count(pattern, &macros(&[&text.replace('N', &times.to_string())]), &told(lines))
    };
    let more = u64::from(times > 1);
    vec![
        over("a LF", "a", times),
        over("LF", "^$", times),
        over("a b", "ba", more),
        over("a b", "^ab$", 1 - more),
        over("b LF a", "^ab$", times - 1),
        key("LF*N", "^$", times),
        key("a LF*N", "^$", times - 1),
        key("a*N", "aa", more),
        key("a*N", "^(aa)*$", 1 - times % 2),
    ]
}

/// The work words under `a` of `a` LF, and of that so many times, worked out by hand: line-start, mid-line, found
/// and the atom are 1, 2, 4 and 8; the line is accepted from the first three, and the tail is line-start.
fn in_words(times: u64) -> Vec<Fixed> {
    let repeats = macros(&["a LF", &format!("0*{times}")]);
    let work = |words: usize| {
        let mut work = [0, 0, 0, 0, 1, 7, 0, 1, 0, 0, 0, 0, 0, 0, 1, 7, times - 1, 1, 0, 0].to_vec();
        work.extend((work.len()..words).map(|place| 1_000_003 * (place as u64 + 1)));
        hash(work.into_iter())
    };
    let untouched = hash((1..=19).map(|place| 1_000_003 * place));
    let ask = |letters: Letters, words: usize, stated: &str| {
        let pattern: &[u8] = if letters == Letters::Apart { b"a" } else { b"A" };
        asked(Question::new(letters, pattern), &repeats, 1, words, stated)
    };
    let mut fixed = Vec::new();
    for (letters, words) in BOTH.into_iter().zip([20, 23]) {
        fixed.push(ask(letters, words, &format!("{} work {}", told(times), work(words))));
    }
    fixed.push(ask(Letters::Apart, 19, &format!("refused 11 work {untouched}")));
    fixed
}
