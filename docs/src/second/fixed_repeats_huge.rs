//! Fixed counts near 2^64 - 1 and beyond it in books of version 2 (document 02, S-8).

use crate::fixed::Fixed;
use crate::fixed_repeats::{asked, count, told};
use crate::hash::hash;
use crate::letters::Letters;
use crate::operations::COUNT_WORDS;
use crate::question::Question;
use crate::repeats::{macros, Repeats};

const TOP: u64 = u64::MAX;
const OVER: &str = "refused 12";

pub fn huge() -> Vec<Fixed> {
    [nested(), at_the_top(), by_factors(), levels(), in_words()].concat()
}

/// Macro 0, and above it so many macros that each have the one below 65,535 times.
fn tower(below: &str, levels: usize) -> Repeats {
    let above: Vec<String> = (0..levels).map(|number| format!("{number}*65535")).collect();
    let texts: Vec<&str> = std::iter::once(below).chain(above.iter().map(String::as_str)).collect();
    macros(&texts)
}

/// Four times 65,535-fold is below 2^64, five times is above.
fn nested() -> Vec<Fixed> {
    let mut fixed = Vec::new();
    let lines = [1, 65_535, 4_294_836_225, 281_462_092_005_375, 18_445_618_199_572_250_625];
    for levels in 0..=6 {
        let book = tower("a LF", levels);
        let stated = lines.get(levels).map_or(String::from(OVER), |&lines| told(lines));
        fixed.push(count("a", &book, &stated));
        fixed.push(count("b", &book, &told(0)));
        fixed.push(count("^$", &book, &told(0)));
        fixed.push(asked(alike(b"A"), &book, levels, COUNT_WORDS, &stated));
        let empty = tower("LF", levels);
        fixed.push(count("^$", &empty, &stated));
        fixed.push(count(".", &empty, &told(0)));
    }
    // The line across each seam is `ba`, one for each seam; the first line and the last one are others.
    for (levels, &lines) in lines.iter().enumerate() {
        fixed.push(count("^ba$", &tower("a LF b", levels), &told(lines - 1)));
        fixed.push(count("^[ab]$", &tower("a LF b", levels), &told(2)));
        fixed.push(count("a$", &tower("LF a CR", levels), &told(lines - 1)));
        fixed.push(count("^\r$", &tower("CR LF CR", levels), &told(lines)));
    }
    fixed
}

fn alike(pattern: &[u8]) -> Question {
    Question::new(Letters::Alike, pattern)
}

/// Macros 1, 2 and 3 are 2^16, 2^32 and 2^48 of macro 0, so that 65,535 of each and of macro 0 are 2^64 - 1.
const POWERS: [&str; 4] = ["a LF", "0*65535 0", "1*65535 1", "2*65535 2"];
const ALL: &str = "3*65535 2*65535 1*65535 0*65535";

fn over_powers(more: &[&str]) -> Repeats {
    macros(&[&POWERS[..], more].concat())
}

fn at_the_top() -> Vec<Fixed> {
    let of = |more: &[&str], stated: &str| count("a", &over_powers(more), stated);
    let top = &told(TOP);
    vec![
        of(&[], &told(1 << 48)),
        of(&["3*32768"], &told(1 << 63)),
        of(&["3*65535"], &told(65_535 << 48)),
        of(&["3*65535 3"], OVER),
        of(&["3*65535 3 x"], OVER),
        of(&[ALL], top),
        of(&["0*65535 1*65535 2*65535 3*65535"], top),
        of(&["3*65535 2*65535 1*65535 0*65534"], &told(TOP - 1)),
        of(&[ALL, "4 0"], OVER),
        of(&[ALL, "4 a"], OVER),
        of(&[ALL, "4 a*65535"], OVER),
        of(&[ALL, "a LF 4"], OVER),
        of(&[ALL, "4*2"], OVER),
        of(&[ALL, "4 b*65535"], top),
        of(&[ALL, "b*65535 4"], top),
        of(&[ALL, "4 LF*65535"], top),
        of(&[ALL, "LF*65535 4 b LF"], top),
        of(&[ALL, "4*1"], top),
        of(&[ALL, "4 0", "a*3"], &told(1)),
        of(&[ALL, "4*2", "4"], top),
        of(&[ALL, "4*65535", "3*2"], &told(1 << 49)),
        of(&[ALL, "4*65535", "5*65535", "0*65535"], &told(65_535)),
        of(&[ALL, "4*65535", "5*65535", "6 0"], OVER),
        count("b", &over_powers(&[ALL, "4*65535", "5*65535"]), &told(0)),
        count("^b", &over_powers(&[ALL, "4*65535", "b LF 5*65535"]), &told(1)),
        count("b$", &over_powers(&[ALL, "4*65535", "b LF 5*65535 b LF", "6*300"]), &told(600)),
        count("^$", &over_powers(&[ALL, "4*65535 LF", "5*65535"]), &told(65_535)),
        count("^$", &over_powers(&[ALL, "4*65535 LF", "5*65535", "6*65535"]), &told(4_294_836_225)),
        count("^$", &over_powers(&[ALL, "4*65535 LF*65535", "5*65535"]), &told(4_294_836_225)),
        count("^(xx)*$", &over_powers(&[ALL, "4*65535 x*65534 LF"]), &told(1)),
        count("^(xx)*$", &over_powers(&[ALL, "4*65535 x*65535 LF"]), &told(0)),
        count("x$", &over_powers(&[ALL, "4*65535 x*65535 CR LF", "5*257"]), &told(257)),
        count("x$", &over_powers(&[ALL, "4*65535 x*65535 CR*65535 LF", "5*257"]), &told(0)),
        // The first line of all and the line behind the last LF come besides the closed ones.
        count("^$|x", &over_powers(&["x LF 3*2 x"]), &told(2)),
        count("a|x", &over_powers(&["3*65535 2*65535 1*65535 0*65534 x"]), top),
        count("a|x", &over_powers(&["3*65535 2*65535 1*65535 0*65534 x*9 LF"]), top),
        count("a|x", &over_powers(&["3*65535 2*65535 1*65535 0*65534 x LF x"]), OVER),
        count("a|x", &over_powers(&["x LF 3*65535 2*65535 1*65535 0*65534 x"]), OVER),
    ]
}

/// 2^64 - 1 is 641 times 6,700,417 times 65,537 times 65,535.
fn by_factors() -> Vec<Fixed> {
    let factors = ["a LF", "0*641", "1*65535", "2*102 1*15847", "3*65535", "4 3*2", "5*65535"];
    let of = |count: usize| macros(&factors[..count]);
    let with = |more: &str| macros(&[&factors[..], &[more]].concat());
    vec![
        count("a", &of(4), &told((1 << 32) + 1)),
        count("a", &of(6), &told(((1 << 32) + 1) * 65_537)),
        count("a", &of(7), &told(TOP)),
        count("^a$", &of(7), &told(TOP)),
        count("a", &with("6 0"), OVER),
        count("a", &with("0 6"), OVER),
        count("a", &with("6 b"), &told(TOP)),
        count("a", &with("5*65534"), &told(TOP - ((1 << 32) + 1) * 65_537)),
    ]
}

/// 41 macros above the first, each with the one below 65,535 times: more keys than 2^655.
fn levels() -> Vec<Fixed> {
    let lone = tower("a", 41);
    let lines = tower("a LF", 41);
    let ask = |book: &Repeats, pattern: &[u8], number: usize, stated: &str| {
        asked(Question::new(Letters::Apart, pattern), book, number, COUNT_WORDS, stated)
    };
    vec![
        ask(&lone, b"a", 41, &told(1)),
        ask(&lone, b"^a*$", 41, &told(1)),
        ask(&lone, b"^(aa)*$", 41, &told(0)),
        ask(&lone, b"^(aaa)*$", 41, &told(1)),
        ask(&lone, b"^(aaaaaaa)*$", 41, &told(0)),
        ask(&lone, b"b", 41, &told(0)),
        ask(&lines, b"a", 41, OVER),
        ask(&lines, b"a", 40, OVER),
        ask(&lines, b"a", 5, OVER),
        ask(&lines, b"a", 4, &told(18_445_618_199_572_250_625)),
        ask(&lines, b"a", 0, &told(1)),
        ask(&lines, b"^$", 41, &told(0)),
        ask(&lines, b"aa", 41, &told(0)),
        ask(&lines, b"a", 42, "refused 10"),
    ]
}

/// The words under `a` of macros that are `a` LF so many times, one less of them closed, since the first one is the
/// head: no rows, then flag, heads, closed, tail and two more. Past 2^64 - 1 nothing stands in closed.
fn in_words() -> Vec<Fixed> {
    let words = |closed: Option<u64>| match closed {
        Some(closed) => [0, 0, 0, 0, 1, 7, closed, 1, 0, 0],
        None => [0, 0, 0, 0, 2, 7, 0, 1, 0, 0],
    };
    let of = |book: Repeats, all: &[Option<u64>], front: &str| {
        let work = hash(all.iter().flat_map(|&closed| words(closed)));
        let (number, needed) = (all.len() - 1, 10 * all.len());
        let question = Question::new(Letters::Apart, b"a");
        asked(question, &book, number, needed, &format!("{front} work {work}"))
    };
    let closed = |all: &[u64]| all.iter().map(|&closed| Some(closed)).collect::<Vec<_>>();
    let nested = closed(&[0, 65_534, 4_294_836_224, 281_462_092_005_374, 18_445_618_199_572_250_624]);
    let powers = closed(&[0, (1 << 16) - 1, (1 << 32) - 1, (1 << 48) - 1]);
    let tall = |more: &[&str]| [tower("a LF", 6), macros(more)].concat();
    vec![
        of(tall(&[]), &nested, &told(18_445_618_199_572_250_625)),
        of(tall(&[]), &[&nested[..], &[None]].concat(), OVER),
        of(tall(&[]), &[&nested[..], &[None; 2]].concat(), OVER),
        of(tall(&["0*3"]), &[&nested[..], &[None, None, Some(2)]].concat(), &told(3)),
        of(tall(&["6*2"]), &[&nested[..], &[None; 3]].concat(), OVER),
        of(tall(&["6*2", "4"]), &[&nested[..], &[None; 3], &nested[4..]].concat(), &told(nested_top())),
        of(over_powers(&[ALL]), &[&powers[..], &[Some(TOP - 1)]].concat(), &told(TOP)),
        of(over_powers(&["3*65535 3"]), &[&powers[..], &[Some(TOP)]].concat(), OVER),
        of(over_powers(&["3*65535 3 0"]), &[&powers[..], &[None]].concat(), OVER),
        of(over_powers(&["3*65535 3", "4*1 0"]), &[&powers[..], &[Some(TOP), None]].concat(), OVER),
        of(
            over_powers(&["3*65535 3", "4*2", "0*9"]),
            &[&powers[..], &[Some(TOP), None, Some(8)]].concat(),
            &told(9),
        ),
    ]
}

fn nested_top() -> u64 {
    65_535u64.pow(4)
}
