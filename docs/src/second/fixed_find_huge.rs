//! Fixed cases of lines far out in runs that no disk holds (document 02, S-3): line numbers and k up to 2^64 - 1 and
//! beyond.

use crate::book::MOST_MACROS;
use crate::fixed::Fixed;
use crate::fixed_books::tower;
use crate::fixed_find::{asked, book, found, last, refused, ROOM};
use crate::letters::Letters;
use crate::make_book::{call, keys, write};
use crate::question::Question;
use crate::refusal::{Refusal, LINE_NUMBER, NO_SUCH_LINE, SHORT_BUFFER};

const TOP: u64 = u64::MAX;
const HALF: u64 = 1 << 63;

pub fn huge() -> Vec<Fixed> {
    [of_document_01(), numbers(), behind_ends(), pairs(), levels(), turning(), most_levels()].concat()
}

pub fn is(number: u64, text: &str) -> String {
    found(number, text.as_bytes(), ROOM)
}

pub fn none() -> String {
    refused(NO_SUCH_LINE, ROOM)
}

pub fn too_far() -> String {
    refused(LINE_NUMBER, ROOM)
}

/// Document 01's macro 63 has 2^64 - 1 lines, and all match; macro 64, for which a count is refused 12, one more.
fn of_document_01() -> Vec<Fixed> {
    let above = |items: Vec<u16>| write(&[tower(), vec![items]].concat());
    let ask = |letters: Letters, book: Vec<u8>, number: usize, k: u64, stated: &str| {
        let pattern: &[u8] = if letters == Letters::Apart { b"a" } else { b"A" };
        asked(Question::new(letters, pattern), book, number, ROOM, k, stated)
    };
    let mut fixed = Vec::new();
    for k in [TOP, TOP - 1, 1, 2, HALF, HALF - 1, HALF + 1, 1 << 32] {
        fixed.push(ask(Letters::Apart, write(&tower()), 63, k, &is(k, "a")));
        fixed.push(ask(Letters::Apart, above(vec![call(63), call(0)]), 64, k, &is(k, "a")));
    }
    fixed.push(ask(Letters::Alike, write(&tower()), 63, TOP, &is(TOP, "a")));
    fixed.push(ask(Letters::Apart, write(&tower()), 63, 0, &none()));
    fixed.push(ask(Letters::Apart, above(vec![call(63), call(0)]), 64, 0, &none()));
    fixed.push(ask(Letters::Apart, write(&tower()), 62, HALF - 1, &is(HALF - 1, "a")));
    fixed.push(ask(Letters::Apart, write(&tower()), 62, HALF, &none()));
    // One line more in front, which does not match, and keys that make another line of the first.
    let front = |text: &[u8]| above([keys(text), vec![call(63), call(63)]].concat());
    fixed.push(ask(Letters::Apart, front(b"b\n"), 64, TOP - 1, &is(TOP, "a")));
    fixed.push(ask(Letters::Apart, front(b"b\n"), 64, TOP, &too_far()));
    fixed.push(ask(Letters::Apart, front(b"xy"), 64, 1, &is(1, "xya")));
    fixed.push(ask(Letters::Apart, front(b"xy"), 64, 2, &is(2, "a")));
    fixed.push(ask(Letters::Apart, front(b"xy"), 64, TOP, &is(TOP, "a")));
    fixed
}

/// Macros 1, 2 and 3 stand for 2^16, 2^32 and 2^48 of macro 0; the one above is made of these.
pub fn powers<'a>(below: &'a str, top: &'a str) -> Vec<&'a str> {
    vec![below, "0*65535 0", "1*65535 1", "2*65535 2", top]
}

/// So many of macro 0: 2^64 - 2, 2^64 - 1 and 2^64.
pub const TWO_FEWER: &str = "3*65535 2*65535 1*65535 0*65534";
pub const ONE_FEWER: &str = "3*65535 2*65535 1*65535 0*65535";
pub const ALL: &str = "3*65535 3";

/// Every line matches, so the k-th is line k.
fn numbers() -> Vec<Fixed> {
    let mut fixed = Vec::new();
    for (pattern, below, text) in
        [("a", "a LF", "a"), ("^$", "LF", ""), ("^$", "CR LF", ""), ("a", "b a CR LF", "ba")]
    {
        let ask = |top: &str, k: u64, stated: &str| last(pattern, &powers(below, top), k, stated);
        fixed.push(ask(TWO_FEWER, TOP - 1, &is(TOP - 1, text)));
        fixed.push(ask(TWO_FEWER, TOP, &none()));
        fixed.push(ask(ONE_FEWER, TOP, &is(TOP, text)));
        fixed.push(ask(ONE_FEWER, HALF + 65_537, &is(HALF + 65_537, text)));
        fixed.push(ask(ALL, TOP, &is(TOP, text)));
        fixed.push(ask(ALL, 65_535 << 48, &is(65_535 << 48, text)));
        fixed.push(ask(ALL, (65_535 << 48) + 1, &is((65_535 << 48) + 1, text)));
    }
    fixed
}

/// A `b` behind so many line ends: its number is one more. 15 comes before 16, and 16 before 17.
fn behind_ends() -> Vec<Fixed> {
    let mut fixed = Vec::new();
    for below in ["LF", "a LF", "CR LF"] {
        for end in ["b", "b LF", "b CR LF x"] {
            for (many, stated) in [(TWO_FEWER, is(TOP, "b")), (ONE_FEWER, too_far()), (ALL, too_far())] {
                let texts = [&powers(below, many)[..], &["4", end, "5 6"]].concat();
                fixed.push(last("b", &texts, 1, &stated));
                fixed.push(last("b", &texts, 2, &none()));
            }
        }
    }
    for (many, refusal) in [(TWO_FEWER, SHORT_BUFFER), (ONE_FEWER, LINE_NUMBER), (ALL, LINE_NUMBER)] {
        for end in ["4 b", "4 b LF", "4 b*65535"] {
            let texts = [&powers("LF", many)[..], &[end]].concat();
            let ask = |k: u64, refusal: Refusal| {
                let question = Question::new(Letters::Apart, b"b");
                asked(question, book(&texts), 5, 0, k, &refused(refusal, 0))
            };
            fixed.extend([ask(0, NO_SUCH_LINE), ask(1, refusal), ask(2, NO_SUCH_LINE)]);
        }
    }
    // Two that match: the first within, the second beyond.
    let texts = [&powers("LF", TWO_FEWER)[..], &["b LF 4 b LF b"]].concat();
    fixed.push(last("b", &texts, 1, &is(1, "b")));
    fixed.push(last("b", &texts, 2, &too_far()));
    fixed.push(last("b", &texts, 3, &too_far()));
    fixed.push(last("b", &texts, 4, &none()));
    fixed.push(last("b", &texts, TOP, &none()));
    fixed
}

/// Lines of `a` and of `b` in turn, 2^64 of each: the k-th `b` is line 2k.
fn pairs() -> Vec<Fixed> {
    let texts = powers("a LF b LF", ALL);
    let ask = |pattern: &str, k: u64, stated: &str| last(pattern, &texts, k, stated);
    vec![
        ask("b", 1, &is(2, "b")),
        ask("b", HALF - 1, &is(TOP - 1, "b")),
        ask("b", HALF, &too_far()),
        ask("b", TOP, &too_far()),
        ask("a", HALF, &is(TOP, "a")),
        ask("a", HALF + 1, &too_far()),
        ask("a|b", TOP, &is(TOP, "a")),
        ask("a|b", TOP - 1, &is(TOP - 1, "b")),
        ask("c", 1, &none()),
        ask("a", 0, &none()),
    ]
}

/// Macro 0, and above it so many macros that each have the one below 65,535 times.
fn levels_over(below: &str, levels: usize, top: &str) -> Vec<u8> {
    let above = (0..levels).map(|number| format!("{number}*65535"));
    let texts: Vec<String> =
        std::iter::once(String::from(below)).chain(above).chain([String::from(top)]).collect();
    book(&texts.iter().map(String::as_str).collect::<Vec<_>>())
}

fn levels() -> Vec<Fixed> {
    let mut fixed = Vec::new();
    for levels in [1, 4, 5, 41] {
        let many = u128::pow(65_535, levels.min(5) as u32);
        let ask = |pattern: &str, below: &str, top: &str, k: u64, stated: &str| {
            let book = levels_over(below, levels, &top.replace('N', &levels.to_string()));
            asked(Question::new(Letters::Apart, pattern.as_bytes()), book, levels + 1, ROOM, k, stated)
        };
        let there = |k: u64, stated: String| if u128::from(k) <= many { stated } else { none() };
        for k in [1, 65_535, 65_536, 65_535u64.pow(4), 65_535u64.pow(4) + 1, TOP] {
            fixed.push(ask("a", "a LF", "N", k, &there(k, is(k, "a"))));
        }
        // One line more for the seams, since no LF stands at the end of a pass.
        fixed.push(ask("^ba$", "a LF b", "N", 65_534, &is(65_535, "ba")));
        let last = u64::try_from(many + 1).map_or(too_far(), |number| is(number, "b"));
        fixed.push(ask("^b$", "a LF b", "N", 1, &last));
        fixed.push(ask("^b$", "a LF b", "N", 2, &none()));
        // A line of all the keys, and a line behind them.
        fixed.push(ask("c", "x", "N c LF a b LF", 1, &refused(SHORT_BUFFER, ROOM)));
        fixed.push(ask("^ab$", "x", "N LF a b LF", 1, &is(2, "ab")));
        fixed.push(ask("^ab$", "x", "N CR LF a b CR", 1, &none()));
        fixed.push(ask("^ab", "x", "N CR LF a b CR", 1, &is(2, "ab\r")));
        fixed.push(ask("^ab$", "x", "a b LF N", 1, &is(1, "ab")));
        fixed.push(ask("x", "x", "a b LF N", 1, &refused(SHORT_BUFFER, ROOM)));
    }
    fixed
}

/// Lines of 65,535^levels keys and a few more, which match if their number is a multiple: 65,535 is one of 3, 5 and 17,
/// and one more than multiples of 2 and 7. What matches is too long.
fn turning() -> Vec<Fixed> {
    let mut fixed = Vec::new();
    for levels in [1, 4, 5, 41] {
        for (pattern, top, matches) in [
            ("^(aa)*b$", "N b", false),
            ("^(aa)*b$", "N a b", true),
            ("^(aaa)*b$", "N b", true),
            ("^(aaa)*b$", "a*2 N b", false),
            ("^((aa)*|(aaaaa)*)b$", "N a*4 b LF N a*5 b", true),
            ("^(aaaaaaa)*b$", "N b", false),
            ("^(aaaaaaa)*b$", "a*3 N a*3 b", true),
        ] {
            let book = levels_over("a", levels, &top.replace('N', &levels.to_string()));
            let question = Question::new(Letters::Apart, pattern.as_bytes());
            let refusal = if matches { SHORT_BUFFER } else { NO_SUCH_LINE };
            fixed.push(asked(question, book, levels + 1, ROOM, 1, &refused(refusal, ROOM)));
        }
    }
    fixed
}

/// As many levels as there can be.
fn most_levels() -> Vec<Fixed> {
    let levels = MOST_MACROS - 2;
    let ask = |pattern: &[u8], below: &str, top: &str, k: u64, stated: &str| {
        let book = levels_over(below, levels, &top.replace('N', &levels.to_string()));
        asked(Question::new(Letters::Apart, pattern), book, levels + 1, ROOM, k, stated)
    };
    vec![
        ask(b"a", "a LF", "N", TOP, &is(TOP, "a")),
        ask(b"b", "a LF", "b LF N b", 2, &too_far()),
        ask(b"^ab$", "x", "N CR LF a b CR LF N", 1, &is(2, "ab")),
        ask(b"x", "x", "N LF a b LF N", 2, &refused(SHORT_BUFFER, ROOM)),
    ]
}
