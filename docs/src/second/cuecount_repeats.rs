//! Inputs of the program `cuecount` with books of version 2 (document 02, S-8).

use crate::case::Case;
use crate::compare_cuecount::{input, Input};
use crate::compare_repeats;
use crate::fixed;
use crate::fixed_books::{example, tower};
use crate::letters::Letters;
use crate::make_book;
use crate::make_question::question_with;
use crate::make_repeats_book::for_question;
use crate::make_repeats_damage::damage;
use crate::operations::CUECOUNT_BYTES;
use crate::repeats::{gathered, macros, single, write};
use crate::rng::Rng;
use std::collections::BTreeSet;

const SEEDED: u64 = 60;
/// One of so many fixed counts.
const SHARE: usize = 7;
const FORMS: u64 = 12;

pub fn inputs(seed: u64) -> Vec<Input> {
    let mut inputs = [stated_inputs(), sized_inputs()].concat();
    inputs.extend(fixed_counts().into_iter().map(|input| (input, None)));
    inputs.extend(forms(seed).into_iter().map(|input| (input, None)));
    for number in 0..SEEDED {
        inputs.push((seeded_input(&mut Rng::for_case(seed ^ 0xC0DF, number)), None));
    }
    inputs
}

/// Inputs that tell of the program itself.
pub fn stated_inputs() -> Vec<Input> {
    let chase = write(&macros(&["a LF", "0*400"]));
    let cut = |bytes: usize| chase[..chase.len() - bytes].to_vec();
    let with = |at: usize, bytes: &[u8]| {
        let mut book = chase.clone();
        book[at..at + bytes.len()].copy_from_slice(bytes);
        book
    };
    let most = write(&single(&vec![vec![97]; 409]));
    let more = write(&single(&vec![vec![97]; 410]));
    vec![
        (input(b"B", &write(&single(&example()))), Some("lines 2 steps 0")),
        (input(b"a", &write(&gathered(&tower()))), Some("lines 18446744073709551615 steps 0")),
        (input(b"a", &chase), Some("lines 400 steps 0")),
        (input(b"^$", &write(&macros(&["LF*65535"]))), Some("lines 65535 steps 0")),
        (input(b"a$", &write(&macros(&["LF a CR", "0*65535"]))), Some("lines 65534 steps 0")),
        (input(b"a", &most), Some("lines 1 steps 0")),
        (input(b"a", &more), Some("refused 11")),
        (input(b"", &chase), Some("refused 7")),
        (input(b"", &with(3, &[3])), Some("refused 2")),
        // Read as version 1, its 400 is a call.
        (input(b"", &with(3, &[1])), Some("refused 6")),
        (input(b"a**", &chase), Some("refused 8")),
        // The item counts stand at 7 and 17, the items at 9, 13 and 19.
        (input(b"", &with(21, &[0, 0])), Some("refused 20")),
        (input(b"", &with(19, &[0, 0, 0, 0])), Some("refused 5")),
        (input(b"", &with(19, &[1, 1, 0, 0])), Some("refused 6")),
        (input(b"a", &cut(1)), Some("refused 4")),
        (input(b"a", &cut(2)), Some("refused 4")),
        (input(b"a", &cut(3)), Some("refused 4")),
        (input(b"a", &[&chase[..], b"\n"].concat()), Some("refused 4")),
    ]
}

/// A book of 8,189 bytes, with `aa` and the LF 8,192: 31 macros of 64 items, one of 44 and one of one.
fn sized_inputs() -> Vec<Input> {
    let mut repeats = vec![vec![(97, 3), (10, 2)].repeat(32); 31];
    repeats.push((0..22).flat_map(|number| [(make_book::call(number), 9), (97, 1)]).collect());
    repeats.push(vec![(make_book::call(31), 7)]);
    let exact = input(b"aa", &write(&repeats));
    assert_eq!(exact.len(), CUECOUNT_BYTES);
    // Every first line of two is `aaa`, at the seams `aaaa`: 32 in each of 22 macros, 9 times, 7 times.
    let longer = [&exact[..], &[0]].concat();
    vec![
        (exact, Some("lines 44352 steps 0")),
        (longer.clone(), Some("refused 14")),
        (longer[1..].to_vec(), Some("refused 4")),
    ]
}

/// The books of the fixed cases that are asked without the choice of case.
fn fixed_counts() -> Vec<Vec<u8>> {
    let mut seen = BTreeSet::new();
    for fixed in fixed::of_repeats().into_iter().step_by(SHARE) {
        match fixed.case {
            Case::Count { question, book, .. } if question.letters == Letters::Apart => {
                seen.insert(input(&question.pattern, &book));
            }
            _ => {}
        }
    }
    seen.into_iter().collect()
}

/// A book of version 1 and its forms, asked for the last macro.
fn forms(seed: u64) -> Vec<Vec<u8>> {
    let all =
        compare_repeats::forms(seed ^ 0xC0E, FORMS).filter(|each| each.question.letters == Letters::Apart);
    all.flat_map(|each| each.books().map(|book| input(&each.question.pattern, &book))).collect()
}

fn seeded_input(rng: &mut Rng) -> Vec<u8> {
    let question = question_with(rng, Letters::Apart, 80);
    let mut book = write(&for_question(rng, &question));
    if rng.chance(25) {
        damage(rng, &mut book);
    }
    input(&question.pattern, &book)
}
