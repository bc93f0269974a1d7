//! Fixed runs and books for the choice of case (document 02, S-1), each stated for both choices. Steps go by
//! the states with the sets that the choice gives, so they may differ.

use crate::case::Case;
use crate::fixed::Fixed;
use crate::fixed_books::{example, tower};
use crate::letters::Letters;
use crate::make_book::{call, keys, write, Macros};
use crate::question::Question;

/// Pattern, run, document 01's answer, the answer with case ignored.
const RUNS: &[(&str, &str, &str, &str)] = &[
    ("HOIST|haze", "HOIST\nhoist\nHaze\nHAZE\nhaze\nHoist HAZE\nhois\nxHOISTx", "lines 3", "lines 7"),
    ("^GO$", "GO\ngo\nGo\ngO\nGO!\n", "lines 1", "lines 4"),
    ("GO$|^stop", "now go\nSTOP\nstop it\nGO\n go on", "lines 2", "lines 4"),
    ("[^a]", "A\na\nb\nB\n\naA\n", "lines 4", "lines 2"),
    ("^[^[:lower:]]*$", "CUE 7\ncue 7\n7\n\nCuE\n", "lines 3", "lines 2"),
    ("^$", "A\n\na\n", "lines 1", "lines 1"),
    ("kK$", "Kk", "lines 0", "lines 1"),
    ("kK$", "Kk\nkK\r\n", "lines 1", "lines 2"),
    ("A", "", "lines 0", "lines 0"),
    ("", "\0", "refused 7", "refused 7"),
    ("A**", "\0", "refused 8", "refused 8"),
    ("[a-Z]", "a", "refused 8", "refused 8"),
    ("A", "a\n\0", "refused 5", "refused 5"),
];

pub fn letters_in_books() -> Vec<Fixed> {
    let mut fixed = Vec::new();
    for (pattern, run, apart, alike) in RUNS {
        fixed.push(Fixed::run(Letters::Apart, pattern.as_bytes(), run.as_bytes(), apart));
        fixed.push(Fixed::run(Letters::Alike, pattern.as_bytes(), run.as_bytes(), alike));
    }
    fixed.extend(lengths());
    fixed.extend([hoists(), steps(), tops()].concat().into_iter().flatten());
    fixed
}

/// 128 bytes may pass, 129 are refused 7.
fn lengths() -> Vec<Fixed> {
    let wide = |bytes: usize| [vec![b'['], vec![b'k'; bytes - 2], vec![b']']].concat();
    let run = |letters, pattern: &[u8], stated| Fixed::run(letters, pattern, b"K\nk\nKK\n", stated);
    vec![
        run(Letters::Apart, &wide(128), "lines 1"),
        run(Letters::Alike, &wide(128), "lines 3"),
        run(Letters::Apart, &wide(129), "refused 7"),
        run(Letters::Alike, &wide(129), "refused 7"),
        run(Letters::Alike, &[b'('; 129], "refused 7"),
    ]
}

/// A count asked with the one choice and with the other.
type Pair = [Fixed; 2];

fn both(pattern: &str, macros: &[Vec<u16>], number: usize, words: usize, stated: [&str; 2]) -> Pair {
    let count = |letters, stated| {
        let question = Question::new(letters, pattern.as_bytes());
        Fixed::new(Case::Count { number, words, question, book: write(macros) }, stated)
    };
    [count(Letters::Apart, stated[0]), count(Letters::Alike, stated[1])]
}

/// The lines are HoIST, hAZE, haze and HoIST again, cut inside their words.
fn hoists() -> Vec<Pair> {
    let book = [
        keys(b"Ho"),
        keys(b"IST\n"),
        vec![call(0), call(1)],
        keys(b"hAZ"),
        keys(b"E\nhaze\n"),
        vec![call(2), call(3), call(4), call(2)],
    ];
    vec![
        both("HOIST|haze", &book, 5, 108, ["lines 1", "lines 4"]),
        both("HOIST|haze", &book, 2, 54, ["lines 0", "lines 1"]),
    ]
}

/// Worked out by hand. One atom has 4 states: with no item before 4 pairs, behind a key of the set 7, behind
/// another 3, and behind two keys of which the set has only the first 5.
fn steps() -> Vec<Pair> {
    let twice = [keys(b"A"), vec![call(0), call(0)]];
    let across = [keys(b"A"), vec![call(0), u16::from(b'B')]];
    vec![
        both("a", &[keys(b"A\n")], 0, 10, ["lines 0 steps 7", "lines 1 steps 11"]),
        both("A", &[keys(b"a\n")], 0, 10, ["lines 0 steps 7", "lines 1 steps 11"]),
        both("a", &twice, 1, 20, ["lines 0 steps 11", "lines 1 steps 15"]),
        both("[^a]", &[keys(b"Aa\n")], 0, 10, ["lines 1 steps 16", "lines 0 steps 10"]),
        both("[Z-a]", &[keys(b"zA\n")], 0, 10, ["lines 0 steps 10", "lines 1 steps 18"]),
        both("ab", &[keys(b"aB\n")], 0, 11, ["lines 0 steps 13", "lines 1 steps 17"]),
        both("ab", &across, 1, 22, ["lines 0 steps 13", "lines 1 steps 15"]),
        both("b", &example(), 1, 20, ["lines 0 steps 13", "lines 2 steps 17"]),
    ]
}

/// The tower of document 01 with `A` in place of `a`, and more macros on it.
fn upper_tower(more: &[Vec<u16>]) -> Macros {
    let mut macros = [tower(), more.to_vec()].concat();
    macros[0] = keys(b"A\n");
    macros
}

fn tops() -> Vec<Pair> {
    let top = "lines 18446744073709551615 steps 389";
    let over = [vec![call(63), call(0)]];
    let open = [vec![call(63), u16::from(b'A')]];
    let lower = [tower(), over.to_vec()].concat();
    vec![
        both("a", &upper_tower(&[]), 63, 640, ["lines 0 steps 385", top]),
        both("a", &upper_tower(&[]), 63, 639, ["refused 11", "refused 11"]),
        both("a", &upper_tower(&over), 64, 650, ["lines 0 steps 390", "refused 12"]),
        both("a", &upper_tower(&open), 64, 650, ["lines 0 steps 390", "refused 12"]),
        both("[^A]", &lower, 63, 640, [top, "lines 0 steps 385"]),
        both("[^A]", &lower, 64, 650, ["refused 12", "lines 0 steps 390"]),
    ]
}
