//! Seeded cases of every kind.

use crate::case::Case;
use crate::letters::Letters;
use crate::make_book::{shallow, write, Macros};
use crate::make_damage::damage_book;
use crate::make_deep::{chain, deep, full};
use crate::make_depth;
use crate::make_letters::mix_book;
use crate::make_line;
use crate::make_question::question;
use crate::make_reach;
use crate::make_report::pair;
use crate::make_share::{self, Share};
use crate::operations::COUNT_WORDS;
use crate::question::Question;
use crate::report::words_needed;
use crate::rng::Rng;

/// So many entries a case has at most.
const MOST_ENTRIES: usize = 1_100;

pub fn cases(seed: u64, count: u64) -> impl Iterator<Item = Case> {
    (0..count).map(move |number| match make_share::of(number) {
        Share::Brackets => make_share::case(&mut Rng::for_case(seed ^ 0xB2AC, number)),
        Share::Depths => make_depth::case(&mut Rng::for_case(seed ^ 0xDE97, number)),
        Share::Others(place) => case(&mut Rng::for_case(seed, place)),
    })
}

fn case(rng: &mut Rng) -> Case {
    match rng.below(100) {
        0..=26 => line_case(rng),
        27..=29 => make_reach::case(rng),
        30..=44 => run_case(rng),
        45..=71 => {
            let question = question(rng, 75);
            count_case(rng, question)
        }
        72..=78 => Case::Sound { book: some_book(rng) },
        79..=84 => body_case(rng),
        85..=90 => reach_case(rng),
        _ => {
            let (left, right) = pair(rng);
            Case::Join { left, right }
        }
    }
}

fn line_case(rng: &mut Rng) -> Case {
    let question = question(rng, 0);
    let mut line = make_line::line(rng, &question);
    if rng.chance(4) {
        line.insert(rng.below(line.len() + 1), rng.pick(&[0, 10]));
    }
    Case::Line { question, line }
}

fn run_case(rng: &mut Rng) -> Case {
    let question = question(rng, 0);
    let mut run = make_line::run(rng, &question);
    if rng.chance(4) {
        run.insert(rng.below(run.len() + 1), 0);
    }
    Case::Run { question, run }
}

pub fn count_case(rng: &mut Rng, question: Question) -> Case {
    let macros = macros_for(rng, &question);
    let number = number_near(rng, macros.len());
    let words = words_near(rng, number, &question);
    let mut book = write(&macros);
    if rng.chance(8) {
        damage_book(rng, &mut book);
    }
    Case::Count { number, words, question, book }
}

/// With case ignored, often more letters of both cases than the lines have.
pub fn macros_for(rng: &mut Rng, question: &Question) -> Macros {
    let mut macros = plain_macros_for(rng, question);
    if question.letters == Letters::Alike && rng.chance(50) {
        mix_book(rng, &mut macros);
    }
    macros
}

/// Mostly books that can be written out.
fn plain_macros_for(rng: &mut Rng, question: &Question) -> Macros {
    match rng.below(200) {
        0..=49 => deep(rng, question),
        50 => {
            let count = rng.between(2, 120);
            let items = rng.between(1, 64);
            let percent = rng.pick(&[1, 4, 12]);
            full(rng, count, items, percent)
        }
        51..=52 => {
            let count = rng.between(2, 200);
            chain(rng, count)
        }
        _ => shallow(rng, question),
    }
}

/// The last macro, another one, or none: also numbers that fall back into range if cut to 16 bits.
pub fn number_near(rng: &mut Rng, count: usize) -> usize {
    match rng.below(20) {
        0..=11 => count - 1,
        12..=16 => rng.below(count),
        17 => count,
        18 => count + rng.below(5),
        _ => rng.pick(&[1023, 1024, 65_535, 65_536, 65_536 + count - 1, 16_777_215]),
    }
}

/// Exactly as many words as needed, one less, more, or none.
pub fn words_near(rng: &mut Rng, number: usize, question: &Question) -> usize {
    let atoms = question.read().map_or(1, |tree| tree.atoms());
    let needed = words_needed(number.min(1023), atoms);
    let words = match rng.below(20) {
        0..=8 => needed,
        9..=10 => needed - 1,
        11 => 0,
        12 => needed / 2,
        _ => needed + rng.below(20),
    };
    words.min(COUNT_WORDS)
}

/// Any book: sound, damaged, full, or mere bytes.
pub fn some_book(rng: &mut Rng) -> Vec<u8> {
    let question = question(rng, 100);
    let macros = macros_for(rng, &question);
    let mut book = write(&macros);
    match rng.below(20) {
        0..=10 => damage_book(rng, &mut book),
        11 => book = (0..rng.below(16)).map(|_| rng.byte()).collect(),
        12 => book = write(&edge_macros(rng)),
        _ => {}
    }
    book
}

/// Item counts and macro counts at their limits and one beyond.
fn edge_macros(rng: &mut Rng) -> Macros {
    if rng.chance(50) {
        let count = rng.pick(&[1023, 1024, 1025]);
        return vec![vec![u16::from(b'a')]; count];
    }
    let items = rng.pick(&[63, 64, 65]);
    let mut macros = vec![vec![255]; rng.between(1, 3)];
    macros.push(vec![256; items]);
    macros
}

pub fn macro_count(book: &[u8]) -> usize {
    match book.get(5..7) {
        Some(count) => usize::from(count[0]) + 256 * usize::from(count[1]),
        None => 0,
    }
}

fn body_case(rng: &mut Rng) -> Case {
    let book = partly_sound(rng);
    let count = macro_count(&book).max(1);
    let number = if rng.chance(70) { rng.below(count) } else { number_near(rng, count) };
    Case::Body { number, book }
}

/// Some have the books of counts, the others those made for their order.
fn reach_case(rng: &mut Rng) -> Case {
    if rng.chance(60) {
        return make_reach::case(rng);
    }
    let book = partly_sound(rng);
    let number = number_near(rng, macro_count(&book).max(1));
    Case::Reach { number, entries: entries_near(rng, number), book }
}

/// Exactly as many entries as needed, one less, more, or none.
pub fn entries_near(rng: &mut Rng, number: usize) -> usize {
    let entries = match rng.below(10) {
        0 => number,
        1 => rng.below(number.min(MOST_ENTRIES) + 1),
        2 => number + 2 + rng.below(20),
        3 => MOST_ENTRIES,
        _ => number + 1,
    };
    entries.min(MOST_ENTRIES)
}

pub fn partly_sound(rng: &mut Rng) -> Vec<u8> {
    if rng.chance(25) {
        return some_book(rng);
    }
    let question = question(rng, 100);
    write(&macros_for(rng, &question))
}
