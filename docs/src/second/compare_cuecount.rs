//! Runs of the program `cuecount` (document 01, "The program cuecount").

use crate::case::Case;
use crate::child;
use crate::cuecount_repeats;
use crate::describe::{hex_of_long, pattern_lines};
use crate::fixed;
use crate::fixed_books::example;
use crate::letters::Letters;
use crate::make::macros_for;
use crate::make_book::{call, keys, write};
use crate::make_damage::damage_book;
use crate::make_question::question_with;
use crate::operations::{cuecount, CUECOUNT_BYTES};
use crate::rng::Rng;
use crate::tally::Tally;
use std::collections::BTreeSet;

const SEEDED: u64 = 80;

/// An input and, where it is known beforehand, what must be printed.
pub type Input = (Vec<u8>, Option<&'static str>);

pub fn compare(program: &str, seed: u64) -> Result<Tally, String> {
    let mut tally = Tally::default();
    let mut inputs = fixed_inputs();
    inputs.extend(fixed_counts());
    for number in 0..SEEDED {
        inputs.push((seeded_input(&mut Rng::for_case(seed ^ 0xC0DE, number)), None));
    }
    inputs.extend(cuecount_repeats::inputs(seed));
    let mut rng = Rng::new(seed);
    for (input, stated) in inputs {
        compare_one(program, &input, stated, &mut rng, &mut tally)?;
    }
    Ok(tally)
}

/// Inputs about the program itself.
pub fn fixed_inputs() -> Vec<Input> {
    [stated_inputs(), worded_inputs(), sized_inputs()].concat()
}

fn compare_one(
    program: &str,
    input: &[u8],
    stated: Option<&str>,
    rng: &mut Rng,
    tally: &mut Tally,
) -> Result<(), String> {
    let own = cuecount(input);
    let cuts = rng.below(4);
    let pieces = child::cut(rng, input, cuts);
    let kind = if pieces.len() > 1 { "in pieces" } else { "at once" };
    let other = match stated {
        Some(stated) if stated != own => format!("stated: {stated}"),
        _ => match child::run(program, &[], pieces) {
            Ok(outcome) if outcome.crashed() => format!("(crashed: {})", outcome.status),
            Ok(outcome) => outcome.only_line(),
            Err(message) => message,
        },
    };
    if other != own {
        return Err(difference(input, kind, &own, &other));
    }
    tally.add(kind, &own);
    Ok(())
}

fn difference(input: &[u8], kind: &str, own: &str, other: &str) -> String {
    let pattern = input.split(|&byte| byte == 10).next().unwrap_or(input);
    let shown = pattern_lines(pattern);
    let length = input.len();
    format!(
        "kind: cuecount, {length} bytes, {kind}\n{shown}input in hex: {}\nsecond: {own}\nother: {other}",
        hex_of_long(input)
    )
}

pub fn input(pattern: &[u8], book: &[u8]) -> Vec<u8> {
    [pattern, b"\n", book].concat()
}

/// What document 01 says of each can be read off without counting much.
fn stated_inputs() -> Vec<Input> {
    let book = write(&example());
    vec![
        (input(b"B", &book), Some("lines 2 steps 17")),
        (input(b"a$", &write(&[keys(b"a\r\n")])), Some("lines 1 steps 12")),
        (input(b"a\r", &write(&[keys(b"a\r\n")])), Some("lines 0 steps 17")),
        (input(b"\r", &book), Some("lines 0 steps 13")),
        (Vec::new(), Some("refused 1")),
        (b"B".to_vec(), Some("refused 1")),
        (book.clone(), Some("refused 1")),
        (b"\n".to_vec(), Some("refused 1")),
        (input(b"B", b"\n"), Some("refused 1")),
        (input(b"B\n", &book), Some("refused 1")),
        (input(b"", &book), Some("refused 7")),
        (input(&[b'a'; 129], &book), Some("refused 7")),
        (input(b"a**", &book), Some("refused 8")),
        (input(b"a\0", &book), Some("refused 8")),
        (input(&[b'a'; 30], &book), Some("refused 9")),
        (input(&[b'a'; 30], &book[..book.len() - 1]), Some("refused 4")),
        (input(b"B", &[&book[..], b"\n"].concat()), Some("refused 4")),
    ]
}

/// Books of so many macros of one key around 4,096 work words: `a` needs 10 words a macro, `^$` 9, seven atoms
/// 16 and 23 atoms 32, so that the last two can fill the words exactly. Each macro's one item has s steps.
fn worded_inputs() -> Vec<Input> {
    let of = |pattern: &[u8], key: u8, count: usize, stated| {
        (input(pattern, &write(&vec![vec![u16::from(key)]; count])), Some(stated))
    };
    let (seven, most) = ([b'.'; 7], [b'.'; 23]);
    vec![
        of(b"a", b'a', 409, "lines 1 steps 1636"),
        of(b"a", b'a', 410, "refused 11"),
        of(b"a", b'a', 512, "refused 11"),
        of(b"a", b'a', 1024, "refused 11"),
        of(b"^$", b'a', 455, "lines 0 steps 1365"),
        of(b"^$", b'a', 456, "refused 11"),
        of(b"^$", b'\n', 455, "lines 1 steps 1365"),
        of(b"^$", b'\n', 585, "refused 11"),
        of(b"^$", b'\r', 455, "lines 0 steps 1365"),
        of(b"^$", b'\r', 456, "refused 11"),
        of(&seven, b'\r', 256, "lines 0 steps 2560"),
        of(&seven, b'\r', 257, "refused 11"),
        of(&seven, b'a', 292, "refused 11"),
        of(&most, b'\n', 128, "lines 0 steps 3328"),
        of(&most, b'\r', 129, "refused 11"),
        of(&most, b'a', 136, "refused 11"),
    ]
}

/// At 8,192 bytes and around. A sound book has an odd number of bytes, so with the pattern `aa` and the
/// LF it can fill 8,192 exactly: 62 macros of 64 items and one of 60.
fn sized_inputs() -> Vec<Input> {
    let mut macros = vec![keys(b"aaaaaaaaaaaaaaa\naaaaaaaaaaaaaaa\naaaaaaaaaaaaaaa\naaaaaaaaaaaaaaa\n"); 62];
    macros.push((2..62).map(call).collect());
    let exact = input(b"aa", &write(&macros));
    assert_eq!(exact.len(), CUECOUNT_BYTES);
    let longer = |byte: u8, length: usize| {
        let mut more = exact.clone();
        more.resize(length, byte);
        more
    };
    let short_pattern = exact[1..].to_vec();
    // Its length cut to two bytes is that of the example in front.
    let mut wrapping = input(b"B", &write(&example()));
    wrapping.resize(65_536 + wrapping.len(), 0);
    vec![
        (exact.clone(), None),
        (short_pattern, None),
        (longer(0, 8_193), Some("refused 14")),
        (longer(97, 8_193), Some("refused 14")),
        (longer(97, 8_194), Some("refused 14")),
        (longer(0, 8_194), Some("refused 14")),
        (longer(0, 70_000), Some("refused 14")),
        (longer(97, 100_000), Some("refused 14")),
        (wrapping, Some("refused 14")),
        ([b"a", &exact[..]].concat(), Some("refused 14")),
        (vec![b'a'; 8_191], Some("refused 1")),
        (vec![b'a'; 8_192], Some("refused 1")),
        (vec![b'a'; 8_193], Some("refused 14")),
        (vec![b'a'; 8_194], Some("refused 14")),
        (vec![b'a'; 100_000], Some("refused 14")),
        (vec![10; 8_192], Some("refused 1")),
        (vec![10; 8_193], Some("refused 14")),
        (vec![0; 300_000], Some("refused 14")),
        (exact[..8_191].to_vec(), Some("refused 4")),
        ([&exact[..8_191], b"\0\0"].concat(), Some("refused 14")),
    ]
}

/// The books of the fixed cases that are asked without the choice of case, each once.
fn fixed_counts() -> Vec<Input> {
    let mut seen = BTreeSet::new();
    for fixed in fixed::once() {
        match fixed.case {
            Case::Count { question, book, .. } if question.letters == Letters::Apart => {
                seen.insert(input(&question.pattern, &book));
            }
            _ => {}
        }
    }
    seen.into_iter().map(|input| (input, None)).collect()
}

fn seeded_input(rng: &mut Rng) -> Vec<u8> {
    let question = question_with(rng, Letters::Apart, 75);
    let mut book = write(&macros_for(rng, &question));
    if rng.chance(25) {
        damage_book(rng, &mut book);
    }
    input(&question.pattern, &book)
}
