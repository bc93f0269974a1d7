//! Fixed cases about the work words of a line that is sought (document 02, S-3; PROTOCOL.md, "The line"): how many are
//! needed, and what they hold. The words were worked out by hand.

use crate::answer::work_words;
use crate::case::Case;
use crate::fixed::Fixed;
use crate::fixed_find::{book, found, refused};
use crate::hash::hash;
use crate::letters::{Letters, BOTH};
use crate::question::Question;
use crate::refusal::*;

const TOP: u64 = u64::MAX;
const ROOM: usize = 3;
const BYTES: usize = 65_536;

/// Under `a`: line-start, mid-line, found and the atom are 1, 2, 4 and 8; s is 4, so that a macro has 14 words.
const S: usize = 4;
/// A macro's rows, flag, heads, closed, tail, trimmed, edges.
type Report = [u64; S + 6];
/// Its line ends, the keys before the first and behind the last of them, and all keys.
type Own = [u64; 4];

pub fn in_words() -> Vec<Fixed> {
    [enough(), one_macro(), passes(), powers(), tops(), unreached()].concat()
}

/// The first words, and behind them what was there.
fn work(reports: &[Report], own: &[Own], words: usize) -> u64 {
    let mut work: Vec<u64> = reports.iter().flatten().chain(own.iter().flatten()).copied().collect();
    let behind = work_words(words);
    work.extend_from_slice(&behind[work.len()..]);
    hash(work.into_iter())
}

fn untouched(words: usize) -> u64 {
    hash(work_words(words).into_iter())
}

fn ask(letters: Letters, texts: &[&str], words: usize, buffer: usize, k: u64, stated: &str) -> Fixed {
    let pattern: &[u8] = if letters == Letters::Apart { b"a" } else { b"A" };
    let question = Question::new(letters, pattern);
    Fixed::new(Case::Find { number: texts.len() - 1, words, buffer, k, question, book: book(texts) }, stated)
}

/// `a` LF, and so many times more.
fn of_lines(more: u64) -> Report {
    [0, 0, 0, 0, 1, 7, more, 1, 0, 0]
}

/// Any number of `x`, and any number of LF.
const OF_KEYS: Report = [2, 2, 4, 0, 0, 0, 0, 0, 0, 0];
const OF_ENDS: Report = [0, 0, 0, 0, 1, 4, 0, 1, 0, 1];

/// One word short, exactly enough and one more; 11 comes before 15, and the words are written after 15, 16 and 17.
fn enough() -> Vec<Fixed> {
    let texts = ["a LF", "0 0"];
    let (reports, own) = ([of_lines(0), of_lines(1)], [[1, 1, 0, 2], [2, 1, 0, 4]]);
    let mut fixed = Vec::new();
    for letters in BOTH {
        for words in [28, 29, 40] {
            let work = work(&reports, &own, words);
            let mut put = |k: u64, buffer: usize, stated: String| {
                fixed.push(ask(letters, &texts, words, buffer, k, &format!("{stated} work {work}")));
            };
            put(0, ROOM, refused(NO_SUCH_LINE, ROOM));
            put(1, ROOM, found(1, b"a", ROOM));
            put(2, 1, found(2, b"a", 1));
            put(2, 0, refused(SHORT_BUFFER, 0));
            put(3, ROOM, refused(NO_SUCH_LINE, ROOM));
        }
        // As many as a count needs are too few.
        for words in [0, 13, 14, 20, 21, 24, 27] {
            for (k, buffer) in [(0, ROOM), (1, ROOM), (2, 0), (3, 0)] {
                let stated = format!("{} work {}", refused(SHORT_WORK, buffer), untouched(words));
                fixed.push(ask(letters, &texts, words, buffer, k, &stated));
            }
        }
    }
    fixed
}

/// Runs of a few keys. From line-start every key but `a` leads to mid-line alone, from found to found.
fn one_macro() -> Vec<Fixed> {
    let rows = |start: u64, mid: u64| [start, mid, 4, 0];
    let open = |rows: [u64; S], trimmed: u64, edges: u64| {
        let [one, two, three, four] = rows;
        [one, two, three, four, 0, 0, 0, 0, trimmed, edges]
    };
    let ended = |heads: u64, closed: u64, tail: u64, trimmed: u64, edges: u64| {
        [0, 0, 0, 0, 1, heads, closed, tail, trimmed, edges]
    };
    // An `a` leads to mid-line, the atom and found, and another key from there to mid-line and found.
    let table: [(&str, Report, Own); 15] = [
        ("a", open(rows(14, 14), 0, 0), [0, 1, 1, 1]),
        ("x", open(rows(2, 2), 0, 0), [0, 1, 1, 1]),
        ("x*65535", open(rows(2, 2), 0, 0), [0, 65_535, 65_535, 65_535]),
        ("a x", open(rows(6, 6), 0, 0), [0, 2, 2, 2]),
        // Without the CR the states that accept: found, and behind an `a` the first three.
        ("CR", open(rows(2, 2), 4, 2), [0, 1, 1, 1]),
        ("a CR", open(rows(6, 6), 7, 2), [0, 2, 2, 2]),
        ("LF", ended(4, 0, 1, 0, 1), [1, 0, 0, 1]),
        ("LF*7", ended(4, 0, 1, 0, 1), [7, 0, 0, 7]),
        ("CR LF", ended(4, 0, 1, 0, 0), [1, 1, 0, 2]),
        ("LF CR", ended(4, 0, 2, 0, 3), [1, 0, 1, 2]),
        ("a LF x", ended(7, 0, 2, 0, 0), [1, 1, 1, 3]),
        ("x x LF a LF a a a", ended(4, 1, 14, 0, 0), [2, 2, 3, 8]),
        ("x x LF a LF LF a CR", ended(4, 1, 6, 1, 2), [3, 2, 2, 8]),
        ("x*3 LF*2 a*5 LF x*9", ended(4, 1, 2, 0, 0), [3, 3, 9, 20]),
        ("CR*2 LF CR*4", ended(4, 0, 2, 0, 2), [1, 2, 4, 7]),
    ];
    let mut fixed = Vec::new();
    for (place, (text, report, own)) in table.into_iter().enumerate() {
        let words = 14 + place % 3;
        let stated = format!("{} work {}", refused(NO_SUCH_LINE, ROOM), work(&[report], &[own], words));
        fixed.push(ask(BOTH[place % 2], &[text], words, ROOM, 9, &stated));
    }
    fixed
}

/// What stands before the first line end and behind the last is not repeated with them.
fn passes() -> Vec<Fixed> {
    let mut fixed = Vec::new();
    for times in [1u64, 2, 3, 255, 256, 257, 32_768, 65_535] {
        let texts = ["x x LF a", &format!("0*{times}")];
        let report = |times: u64| [0, 0, 0, 0, 1, 4, times - 1, 14, 0, 0];
        // The lines: xx, then axx for each pass but the first, then a.
        let own = [[1, 2, 1, 4], [times, 2, 1, 4 * times]];
        let stated = |line: String| format!("{line} work {}", work(&[report(1), report(times)], &own, 28));
        fixed.push(ask(Letters::Apart, &texts, 28, ROOM, times, &stated(found(times + 1, b"a", ROOM))));
        fixed.push(ask(Letters::Apart, &texts, 28, ROOM, times + 1, &stated(refused(NO_SUCH_LINE, ROOM))));
        if times > 1 {
            fixed.push(ask(Letters::Apart, &texts, 28, ROOM, times - 1, &stated(found(times, b"axx", ROOM))));
            fixed.push(ask(Letters::Apart, &texts, 28, ROOM, 1, &stated(found(2, b"axx", ROOM))));
        }
    }
    fixed
}

/// Each macro is 2^16 of the one below; the highest has 2^64, and then 2^80, of macro 0. Words stop at 2^64 - 1.
fn powers() -> Vec<Fixed> {
    let counts: [u128; 6] = [0, 16, 32, 48, 64, 80].map(|power| 1 << power);
    let word = |number: u128| u64::try_from(number).unwrap_or(TOP);
    let ask = |below: &str, k: u64, report: fn(u128) -> Report, own: &dyn Fn(u128) -> Own, stated: String| {
        let texts = [below, "0*65535 0", "1*65535 1", "2*65535 2", "3*65535 3", "4*65535 4"];
        let work = work(&counts.map(report), &counts.map(own), 84);
        ask(Letters::Apart, &texts, 84, BYTES, k, &format!("{stated} work {work}"))
    };
    // With 2^64 lines the closed ones are still 2^64 - 1; beyond that the flag is 2.
    let lines = |times: u128| u64::try_from(times - 1).map_or([0, 0, 0, 0, 2, 7, 0, 1, 0, 0], of_lines);
    let none = refused(NO_SUCH_LINE, BYTES);
    vec![
        ask("x", 1, |_| OF_KEYS, &|times| [0, word(times), word(times), word(times)], none.clone()),
        ask("LF", 1, |_| OF_ENDS, &|times| [word(times), 0, 0, word(times)], none.clone()),
        ask("a LF", TOP, lines, &|times| [word(times), 1, 0, word(2 * times)], found(TOP, b"a", BYTES)),
        ask("a LF", 0, lines, &|times| [word(times), 1, 0, word(2 * times)], none),
    ]
}

/// Just below where the words stop, and at it.
fn tops() -> Vec<Fixed> {
    let mut fixed = Vec::new();
    for (top, count) in [
        ("3*65535 2*65535 1*65535 0*65534", TOP - 1),
        ("3*65535 2*65535 1*65535 0*65535", TOP),
        ("3*65535 3", TOP),
    ] {
        let counts = [1, 1 << 16, 1 << 32, 1 << 48, count];
        let mut put = |below: &str, report: Report, own: fn(u64) -> Own| {
            let texts = [below, "0*65535 0", "1*65535 1", "2*65535 2", top];
            let work = work(&[report; 5], &counts.map(own), 70);
            let stated = format!("{} work {work}", refused(NO_SUCH_LINE, ROOM));
            fixed.push(ask(Letters::Apart, &texts, 70, ROOM, 1, &stated));
        };
        put("x", OF_KEYS, |count| [0, count, count, count]);
        put("LF", OF_ENDS, |count| [count, 0, 0, count]);
    }
    fixed
}

/// The words of macros that are too long stand there, too, where the macro asked for does not reach them.
fn unreached() -> Vec<Fixed> {
    let texts = ["x", "0*65535 0", "1*65535 1", "2*65535 2", "3*65535 3", "b a LF 0"];
    let own = |count: u64| [0, count, count, count];
    let mut measures = [1, 1 << 16, 1 << 32, 1 << 48, TOP, 0].map(own);
    measures[5] = [1, 2, 1, 4];
    let mut reports = [OF_KEYS; 6];
    reports[5] = [0, 0, 0, 0, 1, 7, 0, 2, 0, 0];
    let work = work(&reports, &measures, 84);
    let mut fixed = Vec::new();
    for (k, stated) in [(1, found(1, b"ba", ROOM)), (2, refused(NO_SUCH_LINE, ROOM))] {
        fixed.push(ask(Letters::Apart, &texts, 84, ROOM, k, &format!("{stated} work {work}")));
    }
    fixed
}
