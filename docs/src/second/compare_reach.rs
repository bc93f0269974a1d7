//! Runs of the command's `reach`.

use crate::asked;
use crate::book::MOST_MACROS;
use crate::command::{self, Run, Start, Way};
use crate::command_form::Sought;
use crate::expected::Expected;
use crate::fixed_books::example;
use crate::fixed_reach::macros;
use crate::make::{macro_count, partly_sound};
use crate::make_book::{call, keys, write};
use crate::make_large::{damaged_large, largest_books};
use crate::make_long::long_books;
use crate::make_reach::{self, full_books};
use crate::operations::reach_numbers;
use crate::rng::Rng;
use crate::tally::Tally;

const SEEDED: u64 = 26;

pub fn compare(program: &str, seed: u64) -> Result<Tally, String> {
    command::compare(program, &runs(seed), own_answer)
}

pub fn runs(seed: u64) -> Vec<Run> {
    let rng = &mut Rng::new(seed ^ 0x4EA);
    let mut runs = stated_runs();
    runs.extend(ordered_runs());
    runs.extend(large_runs(&largest_books(rng)));
    runs.extend(full_books(rng).into_iter().map(|book| run(book, None, None)));
    for number in 0..SEEDED {
        runs.push(seeded_run(&mut Rng::for_case(seed ^ 0x4EAC, number)));
    }
    for (place, (start, _)) in runs.iter_mut().enumerate() {
        start.way = Way::in_turn(place);
    }
    runs
}

pub fn own_answer(start: &Start) -> Expected {
    let asked = start.asked.as_deref().map(asked::number);
    if asked == Some(None) {
        return Expected::Nothing;
    }
    match reach_numbers(asked.flatten(), &start.book) {
        Ok(numbers) => Expected::Numbers(numbers),
        Err(refusal) => Expected::refused(refusal),
    }
}

fn run(book: Vec<u8>, asked: Option<&str>, stated: Option<&str>) -> Run {
    let asked = asked.map(String::from);
    (
        Start {
            verb: "reach",
            pattern: None,
            keys: None,
            sought: Sought::default(),
            way: Way::Path,
            book,
            asked,
        },
        stated.map(String::from),
    )
}

/// Calls that stand twice, macros left out, and the order of the refusals.
fn stated_runs() -> Vec<Run> {
    let skipping = [keys(b"a"), keys(b"b"), vec![call(0), 98, call(0)], vec![call(2); 64]];
    let stated = |macros: &[Vec<u16>], asked, stated| run(write(macros), asked, Some(stated));
    vec![
        stated(&example(), None, "numbers 1 0"),
        stated(&example(), Some("0"), "numbers 0"),
        stated(&example(), Some("000000000000000000000000000001"), "numbers 1 0"),
        stated(&example(), Some("2"), "refused 10"),
        stated(&example(), Some("65536"), "refused 10"),
        stated(&example(), Some("18446744073709551616"), "refused 10"),
        stated(&skipping, None, "numbers 3 2 0"),
        stated(&skipping, Some("1"), "numbers 1"),
        stated(&[vec![call(0)]], Some("5"), "refused 6"),
    ]
}

/// Lists in running order (document 02, S-5).
fn ordered_runs() -> Vec<Run> {
    let shared = &["a", "0", "0", "1 2", "2 1", "4 x 3"];
    let nested = &["a", "b", "1", "0", "3", "2", "4 5", "6", "x 7", "8"];
    let sparse = &["a", "b", "c", "d", "e", "f", "g", "1 5 3 1"];
    let stated = |texts: &[&str], asked, stated| run(write(&macros(texts)), asked, Some(stated));
    vec![
        stated(shared, None, "numbers 5 4 2 0 1 3"),
        stated(shared, Some("3"), "numbers 3 1 0 2"),
        stated(nested, None, "numbers 9 8 7 6 4 3 0 5 2 1"),
        stated(nested, Some("0005"), "numbers 5 2 1"),
        stated(sparse, Some("7"), "numbers 7 1 5 3"),
        stated(sparse, Some("8"), "refused 10"),
    ]
}

/// The three largest books, and those that are longer or damaged at their end.
fn large_runs(largest: &[Vec<u8>]) -> Vec<Run> {
    let mut runs: Vec<Run> = largest.iter().map(|book| run(book.clone(), None, None)).collect();
    // Each macro of the third calls the one below.
    let all: String = (0..1024).rev().map(|number| format!(" {number}")).collect();
    runs[2].1 = Some(format!("numbers{all}"));
    for (book, refusal) in long_books(&largest[0]) {
        runs.push(run(book, Some("1023"), Some(&format!("refused {refusal}"))));
    }
    runs
}

/// Mostly books made for the order of their lists.
fn seeded_run(rng: &mut Rng) -> Run {
    let book = match rng.below(20) {
        0 => damaged_large(rng),
        1..=5 => partly_sound(rng),
        6 => write(&make_reach::macros(rng, MOST_MACROS)),
        _ => {
            let count = rng.between(5, 60);
            write(&make_reach::macros(rng, count))
        }
    };
    let asked = asked::seeded(rng, macro_count(&book).max(1));
    run(book, asked.as_deref(), None)
}
