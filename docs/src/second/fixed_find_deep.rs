//! Fixed cases of lines that go through many macros, one inside the other (document 02, S-3).

use crate::book::MOST_MACROS;
use crate::fixed::Fixed;
use crate::fixed_find::{asked, found, refused};
use crate::letters::Letters;
use crate::make_book::{call, keys, write, Macros};
use crate::question::Question;
use crate::refusal::{NO_SUCH_LINE, SHORT_BUFFER};
use crate::repeats;

/// So many calls deep the short ones go.
const DEEP: usize = 40;
/// Room for each line but the longest.
const ROOM: usize = 16;

pub fn deep() -> Vec<Fixed> {
    [nested(), nested_passes(), chains(901), chains(MOST_MACROS)].concat()
}

fn ask(pattern: &[u8], macros: &Macros, buffer: usize, k: u64, stated: &str) -> Fixed {
    asked(Question::new(Letters::Apart, pattern), write(macros), macros.len() - 1, buffer, k, stated)
}

/// Macro 0 and so many above it, each with the one below between some keys.
fn nest(below: &[u8], front: &[u8], back: &[u8], count: usize) -> Macros {
    let mut macros = vec![keys(below)];
    for number in 1..count {
        macros.push([keys(front), vec![call(number - 1)], keys(back)].concat());
    }
    macros
}

/// A line begins in the last macro and ends in the first, or the other way round, or in two that are each so deep.
fn nested() -> Vec<Fixed> {
    let with_top = |below: &[u8], items: Vec<u16>| [nest(below, b"", b"", DEEP + 1), vec![items]].concat();
    let top = |front: &[u8], back: &[u8]| [keys(front), vec![call(DEEP)], keys(back)].concat();
    let line = |pattern: &[u8], macros: &Macros, k: u64, number: u64, text: &[u8]| {
        ask(pattern, macros, ROOM, k, &found(number, text, ROOM))
    };
    let both = with_top(b"c\nd", top(b"ab", b"e\n"));
    let twice = with_top(b"c\nd", vec![call(DEEP), call(DEEP)]);
    let returned = with_top(b"c\r", top(b"ab", b"\ne\r"));
    let begins = with_top(b"\nd\n", top(b"ab\r", b""));
    vec![
        line(b"^abc$", &both, 1, 1, b"abc"),
        line(b"^de$", &both, 1, 2, b"de"),
        line(b".", &both, 2, 2, b"de"),
        ask(b".", &both, ROOM, 3, &refused(NO_SUCH_LINE, ROOM)),
        ask(b"^abc$", &both, 2, 1, &refused(SHORT_BUFFER, 2)),
        line(b"^dc$", &twice, 1, 2, b"dc"),
        line(b"d$", &twice, 1, 3, b"d"),
        line(b"c", &twice, 2, 2, b"dc"),
        line(b"c$", &returned, 1, 1, b"abc"),
        line(b"e", &returned, 1, 2, b"e\r"),
        ask(b"e$", &returned, ROOM, 1, &refused(NO_SUCH_LINE, ROOM)),
        line(b"b$", &begins, 1, 1, b"ab"),
        line(b"^d$", &begins, 1, 2, b"d"),
    ]
}

/// The same with passes: `a`, forty levels that each stand twice, and keys behind.
fn nested_passes() -> Vec<Fixed> {
    let mut macros: repeats::Repeats = vec![vec![(97, 1), (10, 1), (98, 1)]];
    for number in 0..DEEP {
        macros.push(vec![(call(number), 2)]);
    }
    macros.push(vec![(99, 3), (call(DEEP), 1), (100, 2), (10, 2)]);
    let many = 1u64 << DEEP;
    let line = |pattern: &[u8], k: u64, stated: &str| {
        let question = Question::new(Letters::Apart, pattern);
        asked(question, repeats::write(&macros), DEEP + 1, ROOM, k, stated)
    };
    vec![
        line(b"a", 1, &found(1, b"ccca", ROOM)),
        line(b"a", 2, &found(2, b"ba", ROOM)),
        line(b"a", many, &found(many, b"ba", ROOM)),
        line(b"a", many + 1, &refused(NO_SUCH_LINE, ROOM)),
        line(b"b", many - 1, &found(many, b"ba", ROOM)),
        line(b"b", many, &found(many + 1, b"bdd", ROOM)),
        line(b"b", many / 2, &found(many / 2 + 1, b"ba", ROOM)),
        line(b"^$", 1, &found(many + 2, b"", ROOM)),
        line(b"^$", 2, &refused(NO_SUCH_LINE, ROOM)),
    ]
}

/// As deep as there are macros: keys in front make one long line, line ends behind many empty ones.
fn chains(count: usize) -> Vec<Fixed> {
    let more = count as u64 - 1;
    let long = nest(b"a\nb", b"x", b"", count);
    let lines = nest(b"a", b"", b"\n", count);
    let both = nest(b"a\r", b"x", b"\n", count);
    let whole = [vec![b'x'; count - 1], b"a".to_vec()].concat();
    vec![
        ask(b"x", &long, count, 1, &found(1, &whole, count)),
        ask(b"x", &long, count - 1, 1, &refused(SHORT_BUFFER, count - 1)),
        ask(b"^b$", &long, ROOM, 1, &found(2, b"b", ROOM)),
        ask(b"^a$", &lines, 1, 1, &found(1, b"a", 1)),
        ask(b"^$", &lines, 0, more - 1, &found(more, b"", 0)),
        ask(b"^$", &lines, 0, more, &refused(NO_SUCH_LINE, 0)),
        ask(b"a$", &both, count + 1, 1, &found(1, &whole, count + 1)),
    ]
}
