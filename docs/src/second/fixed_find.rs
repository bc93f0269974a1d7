//! Fixed cases of a line that is sought (document 02, S-3). The matching lines of each run were told by hand; every k is
//! asked, from 0 to one behind the last of them.

use crate::answer::{hash_bytes, lent_bytes};
use crate::case::Case;
use crate::find::find_words;
use crate::fixed::Fixed;
use crate::letters::Letters;
use crate::make_book;
use crate::question::Question;
use crate::refusal::{Refusal, NO_SUCH_LINE, SHORT_BUFFER};
use crate::repeats::{macros, write, Repeats};

/// Pattern, the texts of the macros, and the matching lines of the last one: each one's number and its keys.
type Small = (&'static str, &'static [&'static str], &'static [(u64, &'static str)]);

const LINES: &[Small] = &[
    ("B", &["B LF", "0 C 0"], &[(1, "B"), (2, "CB")]),
    ("ab", &["a", "0 b"], &[(1, "ab")]),
    ("ab", &["a LF b"], &[]),
    ("^$", &["LF"], &[(1, "")]),
    ("^$", &["a"], &[]),
    ("a*", &["LF"], &[(1, "")]),
    ("^$", &["a LF LF b LF LF"], &[(2, ""), (4, "")]),
    ("^$", &["LF LF LF"], &[(1, ""), (2, ""), (3, "")]),
    ("^$", &["LF a"], &[(1, "")]),
    ("^$", &["LF", "0 a 0 0", "1 1"], &[(1, ""), (3, ""), (4, ""), (6, "")]),
    ("a", &["a"], &[(1, "a")]),
    ("a", &["a LF"], &[(1, "a")]),
    ("a", &["b LF a"], &[(2, "a")]),
    ("a", &["a LF b LF a b LF x a"], &[(1, "a"), (3, "ab"), (4, "xa")]),
    (".", &["LF a LF LF b b"], &[(2, "a"), (4, "bb")]),
    ("b", &["a", "0 b", "1 LF 1"], &[(1, "ab"), (2, "ab")]),
    ("c", &["a LF b", "0 c 0", "1 1 c"], &[(2, "bca"), (4, "bca"), (5, "bc")]),
    ("\u{1}", &["ONE LF b ONE"], &[(1, "\u{1}"), (2, "b\u{1}")]),
    ("b", &["TOP LF b"], &[(2, "b")]),
];

/// A CR directly before an LF belongs to the line end, wherever macros begin; every other is a key.
const RETURNS: &[Small] = &[
    ("a$", &["a CR LF"], &[(1, "a")]),
    ("^$", &["CR LF"], &[(1, "")]),
    ("^$", &["CR"], &[]),
    ("\r", &["CR"], &[(1, "\r")]),
    ("a", &["a CR"], &[(1, "a\r")]),
    ("a$", &["a CR"], &[]),
    ("b", &["a LF b CR"], &[(2, "b\r")]),
    ("a", &["a CR", "LF", "0 1"], &[(1, "a")]),
    ("a", &["a", "CR", "LF", "0 1 2 0 1"], &[(1, "a"), (2, "a\r")]),
    ("^$", &["CR", "LF", "0 1 0 1 0"], &[(1, ""), (2, "")]),
    (".", &["CR", "LF", "0 1 0 1 0"], &[(3, "\r")]),
    ("\r$", &["CR CR LF"], &[(1, "\r")]),
    (".", &["a CR CR LF b CR LF"], &[(1, "a\r"), (2, "b")]),
    ("\r", &["CR", "LF", "0 0 1 0 0 0 1"], &[(1, "\r"), (2, "\r\r")]),
    ("^\ra$", &["LF CR a LF"], &[(2, "\ra")]),
    ("x", &["x CR", "LF x CR", "LF", "0 1 2"], &[(1, "x"), (2, "x")]),
    ("^$", &["LF CR", "0 0"], &[(1, ""), (2, "")]),
    (".", &["LF CR", "0 0"], &[(3, "\r")]),
];

const ANCHORS: &[Small] = &[
    ("^ab$", &["a", "b", "0 1 LF 0 LF 1 LF 0 1"], &[(1, "ab"), (4, "ab")]),
    ("^b", &["a LF", "b", "0 1 LF 1 0"], &[(2, "b"), (3, "ba")]),
    ("a$", &["a", "LF b", "0 1 0 1"], &[(1, "a"), (2, "ba")]),
    ("^a|b$", &["a x LF", "x b LF", "b x LF", "0 1 2 0"], &[(1, "ax"), (2, "xb"), (4, "ax")]),
    ("^ya", &["a LF", "y 0*3"], &[(1, "ya")]),
    ("^a", &["a LF", "y 0*3"], &[(2, "a"), (3, "a")]),
    ("^a$", &["a LF", "0*3 y"], &[(1, "a"), (2, "a"), (3, "a")]),
    ("b$", &["a LF b", "0*3"], &[(4, "b")]),
    ("^b", &["a LF b", "0*3"], &[(2, "ba"), (3, "ba"), (4, "b")]),
    ("^a", &["a LF b", "0*3"], &[(1, "a")]),
];

/// The line is in the first pass, in a later one, in the last, across two of them, or across all.
const PASSES: &[Small] = &[
    ("a", &["a LF", "0*3"], &[(1, "a"), (2, "a"), (3, "a")]),
    ("^ba$", &["a LF b", "0*4"], &[(2, "ba"), (3, "ba"), (4, "ba")]),
    ("b", &["a LF b", "0*3"], &[(2, "ba"), (3, "ba"), (4, "b")]),
    ("a", &["a LF b", "0*3"], &[(1, "a"), (2, "ba"), (3, "ba")]),
    ("^abab$", &["a b", "0*2 LF", "1*2"], &[(1, "abab"), (2, "abab")]),
    ("ba", &["a b", "0*3"], &[(1, "ababab")]),
    ("bc", &["a b", "0*3 c LF", "1*2"], &[(1, "abababc"), (2, "abababc")]),
    ("^$", &["LF*3"], &[(1, ""), (2, ""), (3, "")]),
    ("^$", &["a LF*3 b"], &[(2, ""), (3, "")]),
    ("b", &["a LF*3 b"], &[(4, "b")]),
    ("aa", &["a*5 LF a*2 LF a"], &[(1, "aaaaa"), (2, "aa")]),
    ("a", &["x LF", "a", "0*2 1 0*2 1*2 LF"], &[(3, "ax"), (5, "aa")]),
    ("a", &["b LF", "a*2", "0*2 1*2 0*2", "2*2"], &[(3, "aaaab"), (7, "aaaab")]),
    ("x", &["a LF", "0*2 x", "1*3"], &[(3, "xa"), (5, "xa"), (7, "x")]),
    ("a$", &["LF a CR", "0*3"], &[(2, "a"), (3, "a")]),
    ("^a.$", &["LF a CR", "0*3"], &[(4, "a\r")]),
    ("^\r$", &["CR LF CR", "0*3"], &[(2, "\r"), (3, "\r"), (4, "\r")]),
    ("\r", &["CR*3 LF*2"], &[(1, "\r\r")]),
    ("^$", &["CR LF", "0*3"], &[(1, ""), (2, ""), (3, "")]),
    ("^(aa)*$", &["a", "0*3 LF", "1 0*4 LF 1", "2*2"], &[(2, "aaaa"), (5, "aaaa")]),
];

/// Case ignored.
const ALIKE: &[Small] = &[
    ("go", &["G O LF", "g o LF", "0*2 1"], &[(1, "GO"), (2, "GO"), (3, "go")]),
    ("[^a]", &["A LF b LF a LF B"], &[(2, "b"), (4, "B")]),
    ("^GO$", &["g O LF x LF g", "0 o"], &[(1, "gO"), (3, "go")]),
    ("OG", &["g o", "0*2 LF", "1*2"], &[(1, "gogo"), (2, "gogo")]),
];

/// The same patterns with case told apart.
const APART: &[Small] = &[
    ("go", &["G O LF", "g o LF", "0*2 1"], &[(3, "go")]),
    ("[^a]", &["A LF b LF a LF B"], &[(1, "A"), (2, "b"), (4, "B")]),
    ("^GO$", &["g O LF x LF g", "0 o"], &[]),
];

pub fn small() -> Vec<Fixed> {
    let mut fixed = Vec::new();
    for (pattern, texts, lines) in [LINES, RETURNS, ANCHORS, PASSES, APART].concat() {
        fixed.extend(every(&Question::new(Letters::Apart, pattern.as_bytes()), texts, lines));
    }
    for (pattern, texts, lines) in ALIKE {
        fixed.extend(every(&Question::new(Letters::Alike, pattern.as_bytes()), texts, lines));
    }
    fixed
}

/// A book of version 1 where nothing is repeated.
pub fn book(texts: &[&str]) -> Vec<u8> {
    written(&macros(texts))
}

fn written(repeats: &Repeats) -> Vec<u8> {
    if repeats.iter().flatten().any(|&(_, repeat)| repeat > 1) {
        return write(repeats);
    }
    let once = |items: &Vec<(u16, u16)>| items.iter().map(|&(item, _)| item).collect();
    make_book::write(&repeats.iter().map(once).collect::<Vec<_>>())
}

/// Each matching line with as many bytes as it has keys, with one more, and, if it has a key, with one fewer.
fn every(question: &Question, texts: &[&str], lines: &[(u64, &str)]) -> Vec<Fixed> {
    let ask = |k: u64, buffer: usize, stated: &str| {
        asked(question.clone(), book(texts), texts.len() - 1, buffer, k, stated)
    };
    let behind = lines.len() as u64 + 1;
    let mut fixed = vec![ask(0, 3, &refused(NO_SUCH_LINE, 3)), ask(behind, 9, &refused(NO_SUCH_LINE, 9))];
    for (&(number, keys), k) in lines.iter().zip(1..) {
        let (keys, length) = (keys.as_bytes(), keys.len());
        fixed.push(ask(k, length, &found(number, keys, length)));
        if k % 2 == 1 {
            fixed.push(ask(k, length + 1, &found(number, keys, length + 1)));
        }
        if length > 0 {
            fixed.push(ask(k, length - 1, &refused(SHORT_BUFFER, length - 1)));
        }
    }
    fixed
}

/// With as many words as are needed, or one more.
pub fn asked(question: Question, book: Vec<u8>, number: usize, buffer: usize, k: u64, stated: &str) -> Fixed {
    let atoms = question.read().map_or(0, |tree| tree.atoms());
    let words = find_words(number, atoms) + usize::from(k % 2 == 0);
    Fixed::new(Case::Find { number, words, buffer, k, question, book }, stated)
}

/// Of the last macro of some texts, with case told apart and room for each short line.
pub fn last(pattern: &str, texts: &[&str], k: u64, stated: &str) -> Fixed {
    let question = Question::new(Letters::Apart, pattern.as_bytes());
    asked(question, book(texts), texts.len() - 1, ROOM, k, stated)
}

/// So many bytes `last` lends.
pub const ROOM: usize = 8;

/// The keys stand at the front of the buffer, and behind them what was there.
pub fn found(number: u64, keys: &[u8], buffer: usize) -> String {
    let mut bytes = lent_bytes(buffer);
    bytes[..keys.len()].copy_from_slice(keys);
    format!("line {number} length {} buffer {}", keys.len(), hash_bytes(&bytes))
}

pub fn refused(refusal: Refusal, buffer: usize) -> String {
    format!("refused {refusal} buffer {}", hash_bytes(&lent_bytes(buffer)))
}
