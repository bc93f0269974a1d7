//! Fixed triples of the reports of runs, with S-4's words (document 02, S-7): where CR and LF stand at the cuts, and
//! where runs are empty.

use crate::letters::Letters;
use crate::make_book::{call, keys, Macros};
use crate::make_large::BUSY;
use crate::question::Question;
use crate::report::Report;
use crate::triple::Triple;
use crate::triple_runs::{of_macros, of_runs};

/// Why, the pattern, and the runs.
type Cut = (&'static str, &'static str, [&'static str; 3]);

const CUTS: &[Cut] = &[
    ("CR alone between the line and its LF", "a$", ["a", "\r", "\n"]),
    ("nothing between CR and LF", "a$", ["a\r", "", "\n"]),
    ("nothing before CR and LF", "a$", ["", "a\r", "\n"]),
    ("nothing behind CR and LF", "a$", ["a\r", "\n", ""]),
    ("no keys at all", "a$", ["", "", ""]),
    ("two CR: the first is a key", "^\r*$", ["\r", "\r", "\n"]),
    ("three CR and no LF", "a\r*$", ["a\r", "\r", "\r"]),
    ("LF alone between two CR", "^$", ["\r", "\n", "\r"]),
    ("CR alone between two LF", "^$", ["\n", "\r", "\n"]),
    ("LF alone three times", "^$", ["\n", "\n", "\n"]),
    ("nothing between LF CR and LF", "^$", ["\n\r", "", "\n"]),
    ("CR meets LF at both cuts", "a$", ["\na\r", "\na\r", "\na"]),
    ("CR meets LF, and a CR is left", "a$", ["a\r", "\n\r", "a\r"]),
    ("LF at the front behind nothing", "a$", ["", "\na", "\r\n"]),
    ("a final CR before nothing", "a$", ["b\na\r", "", ""]),
    ("a CR that the next run makes a key", "a\rb", ["a\r", "b\r", "\n"]),
    ("a match across both cuts", "abc", ["xa", "b", "cx\n"]),
    ("a line across the second run", "^ab*c$", ["\na", "bb", "c\n"]),
    ("matching lines in all three", "a", ["a\na\na", "a\nb\na", "\na\na"]),
    ("no atoms, s 3", "^", ["a\n\r", "\n", "\r\n"]),
    ("case ignored", "GO$", ["g", "O\r", "\ngo"]),
];

pub fn runs() -> Vec<Triple> {
    let mut triples = Vec::new();
    for (why, pattern, runs) in CUTS {
        let letters = if *why == "case ignored" { Letters::Alike } else { Letters::Apart };
        let question = Question::new(letters, pattern.as_bytes());
        triples.push(of_runs(why, &question, &runs.map(str::as_bytes)));
    }
    let busy = Question::new(Letters::Apart, BUSY);
    triples.push(of_runs("29 atoms, s 32", &busy, &[b"abaac\nabab", b"caab\r", b"\nabbcac"]));
    triples.extend(long());
    triples
}

/// Over LF `a` CR, 2^64 - 1 times: every CR meets the LF of the next copy, so that 2^64 - 2 lines `a` are closed and
/// one more waits. What comes then is that macro again, a copy, a CR, an LF or nothing.
fn long() -> Vec<Triple> {
    let mut macros: Macros = vec![keys(b"\na\r")];
    for number in 1..64 {
        macros.push(vec![call(number - 1), call(number - 1), call(0)]);
    }
    macros.extend([keys(b"\r"), keys(b"\n")]);
    let (tower, copy, cr, lf) = (Some(63), Some(0), Some(64), Some(65));
    let question = Question::new(Letters::Apart, b"a$");
    // What is closed was worked out by hand.
    let ask = |why: &str, parts: [Option<usize>; 3], closed: Option<u64>| {
        let mut triple = of_macros(why, &question, &macros, parts);
        let flag = if closed.is_some() { 1 } else { 2 };
        triple.whole = triple.whole.map(|whole| Report { flag, closed: closed.unwrap_or(0), ..whole });
        triple
    };
    vec![
        ask("2^64 - 1 where CR and LF meet", [tower, lf, copy], Some(u64::MAX)),
        ask("2^64 - 1 where CR and LF meet past nothing", [tower, None, copy], Some(u64::MAX)),
        ask("2^64 - 2, the CR is a key", [tower, cr, lf], Some(u64::MAX - 1)),
        ask("past by one where CR and LF meet at both cuts", [tower, copy, lf], None),
        ask("past by one, the long run between", [copy, tower, lf], None),
        ask("past in every join, CR and LF meet", [tower, tower, tower], None),
    ]
}
