//! Runs of the command's `count`.

use crate::asked;
use crate::case::Case;
use crate::command::{self, Run, Start, Way};
use crate::command_form::{in_turn, letters, safe, Sought};
use crate::count_edges;
use crate::count_letters;
use crate::expected::Expected;
use crate::fixed;
use crate::letters::Letters;
use crate::make::macros_for;
use crate::make_book::write;
use crate::make_damage::damage_book;
use crate::make_large::{busy_upper, largest_books, mixed_books, BUSY};
use crate::make_question::question_with;
use crate::operations::{book_count, count_line, last_count, COUNT_WORDS};
use crate::question::Question;
use crate::rng::Rng;
use crate::tally::Tally;
use std::collections::BTreeSet;

const SEEDED: u64 = 60;
const SEEDED_ALIKE: u64 = 40;

pub fn compare(program: &str, seed: u64) -> Result<Tally, String> {
    let mut starts = fixed_runs();
    starts.extend(large_runs(&mut Rng::new(seed ^ 0xB16)));
    for number in 0..SEEDED + SEEDED_ALIKE {
        let letters = if number < SEEDED { Letters::Apart } else { Letters::Alike };
        starts.push(seeded_run(&mut Rng::for_case(seed ^ 0xA56, number), letters));
    }
    // A byte 0 cannot stand in an argument.
    starts.retain(|start| !start.pattern.iter().any(|(_, pattern)| pattern.contains(&0)));
    vary(starts.iter_mut());
    let mut runs: Vec<Run> = starts.into_iter().map(|start| (start, None)).collect();
    runs.extend(count_edges::runs(seed));
    runs.extend(count_letters::runs(seed));
    command::compare(program, &runs, own_answer)
}

pub fn own_answer(start: &Start) -> Expected {
    let asked = start.asked.as_deref().map(asked::number);
    let question = match start.question() {
        Some(question) if asked != Some(None) => question,
        _ => return Expected::Nothing,
    };
    Expected::Line(count_line(match asked.flatten() {
        None => last_count(&question, &start.book, COUNT_WORDS),
        Some(number) => book_count(number, &question, &start.book, &mut vec![0; COUNT_WORDS]),
    }))
}

fn start(question: Question, book: Vec<u8>, asked: Option<String>) -> Start {
    let pattern = Some((safe(question.letters), question.pattern));
    Start { verb: "count", pattern, keys: None, sought: Sought::default(), way: Way::Path, book, asked }
}

/// Gives some runs another form of the pattern, another way of the book, or leading zeros.
pub fn vary<'a>(starts: impl Iterator<Item = &'a mut Start>) {
    for (place, start) in starts.enumerate() {
        start.way = Way::in_turn(place);
        if let Some((form, pattern)) = &mut start.pattern {
            *form = in_turn(place, letters(form), pattern);
        }
        if place % 6 == 4 {
            start.asked = start.asked.take().map(|asked| format!("{:0>1$}", asked, 1 + place));
        }
    }
}

/// The books of the fixed cases, asked for the same macro. Some differ in their work words alone, which
/// the command has enough of; they are one run here.
fn fixed_runs() -> Vec<Start> {
    let mut seen = BTreeSet::new();
    let mut runs = Vec::new();
    for fixed in fixed::once() {
        if let Case::Count { number, question, book, .. } = fixed.case {
            if seen.insert((number, question.clone(), book.clone())) {
                runs.push(start(question, book, Some(number.to_string())));
            }
        }
    }
    runs
}

/// The longest sound book, with a count that can be told and with one that cannot, and the deepest.
fn large_runs(rng: &mut Rng) -> Vec<Start> {
    let mut runs = Vec::new();
    for book in largest_books(rng) {
        let mut add = |pattern: &[u8], asked: Option<&str>| {
            let question = Question::new(Letters::Apart, pattern);
            runs.push(start(question, book.clone(), asked.map(String::from)));
        };
        add(BUSY, None);
        add(b"a", Some("1023"));
        add(b"^[ab]*$", Some("511"));
        add(b"a", Some("1024"));
        add(b"b|\xff", Some("0"));
        add(b"a", Some("999999999999999999999999999999"));
        add(b"a", Some("18446744073709551616"));
        add(b"a", Some("4294967296"));
        add(b"(", Some("100000000000000000000000000000"));
    }
    for book in mixed_books(rng) {
        runs.push(start(Question::new(Letters::Alike, &busy_upper()), book.clone(), None));
        runs.push(start(Question::new(Letters::Alike, b"^[^C]*x"), book, Some(String::from("511"))));
    }
    runs
}

fn seeded_run(rng: &mut Rng, letters: Letters) -> Start {
    let question = question_with(rng, letters, 75);
    let macros = macros_for(rng, &question);
    let mut book = write(&macros);
    if rng.chance(20) {
        damage_book(rng, &mut book);
    }
    let asked = asked::seeded(rng, macros.len());
    start(question, book, asked)
}
