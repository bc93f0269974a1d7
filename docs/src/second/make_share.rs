//! The shares of the seeded cases that ask where brackets begin and end (document 02, S-2) and for depths (S-6):
//! every eighth each. The others are the same one behind the other, whatever stands between them.

use crate::case::Case;
use crate::make::count_case;
use crate::make_ends;
use crate::make_question::some_letters;
use crate::make_returns;
use crate::make_rows;
use crate::question::Question;
use crate::rng::Rng;

const SHARE: u64 = 8;

/// Which place of eight has which share.
const DEPTHS: u64 = 3;
const BRACKETS: u64 = 7;

pub enum Share {
    Brackets,
    Depths,
    /// The number among those that belong to neither.
    Others(u64),
}

/// So many cases are made where `count` are wanted besides those about brackets.
pub fn with_share(count: u64) -> u64 {
    count + count / (SHARE - 1)
}

pub fn of(number: u64) -> Share {
    let (before, place) = (number / SHARE * (SHARE - 2), number % SHARE);
    match place {
        BRACKETS => Share::Brackets,
        DEPTHS => Share::Depths,
        _ => Share::Others(before + place - u64::from(place > DEPTHS)),
    }
}

/// One about brackets.
pub fn case(rng: &mut Rng) -> Case {
    let question = question(rng);
    match rng.below(100) {
        0..=54 => Case::Line { line: make_rows::line(rng, &question), question },
        55..=89 => Case::Run { run: run(rng, &question), question },
        _ => count_case(rng, question),
    }
}

pub fn question(rng: &mut Rng) -> Question {
    let letters = some_letters(rng);
    let pattern = if rng.chance(60) { make_ends::pattern(rng) } else { make_rows::pattern(rng) };
    Question { letters, pattern }
}

fn run(rng: &mut Rng, question: &Question) -> Vec<u8> {
    let style = make_returns::style(rng);
    let mut run = make_rows::line(rng, question);
    for _ in 0..rng.below(6) {
        run.extend_from_slice(make_returns::end(rng, style));
        run.extend(make_rows::line(rng, question));
    }
    if rng.chance(50) {
        run.extend_from_slice(make_returns::end(rng, style));
    }
    run
}
