//! Runs of the command's `check`.

use crate::command::{self, Run, Start, Way};
use crate::command_form::Sought;
use crate::expected::Expected;
use crate::fixed_books::{example, tower};
use crate::make::some_book;
use crate::make_book::{call, write};
use crate::make_large::{damaged_large, longest_book};
use crate::make_long::{long_books, more_long_books};
use crate::operations::{check, check_line};
use crate::rng::Rng;
use crate::tally::Tally;

const SEEDED: u64 = 22;

pub fn compare(program: &str, seed: u64) -> Result<Tally, String> {
    command::compare(program, &runs(seed), own_answer)
}

pub fn runs(seed: u64) -> Vec<Run> {
    let longest = longest_book(&mut Rng::new(seed ^ 0x10E));
    let mut runs = stated_runs();
    runs.extend(long_runs(&longest));
    for number in 0..SEEDED {
        runs.push(run(seeded_book(&mut Rng::for_case(seed ^ 0xCEC, number)), None));
    }
    for (place, (start, _)) in runs.iter_mut().enumerate() {
        start.way = Way::in_turn(place);
    }
    let mut in_pieces = run(longest, None);
    in_pieces.0.way = Way::Input(4);
    runs.push(in_pieces);
    runs
}

pub fn own_answer(start: &Start) -> Expected {
    Expected::Line(check_line(check(&start.book)))
}

fn run(book: Vec<u8>, stated: Option<&str>) -> Run {
    (
        Start {
            verb: "check",
            pattern: None,
            keys: None,
            sought: Sought::default(),
            way: Way::Path,
            book,
            asked: None,
        },
        stated.map(String::from),
    )
}

/// Document 01's own books, limits and faults.
fn stated_runs() -> Vec<Run> {
    let stated = |book: &[u8], stated| run(book.to_vec(), Some(stated));
    vec![
        stated(&write(&example()), "sound version 1 macros 2 items 5 bytes 21"),
        stated(&write(&tower()), "sound version 1 macros 64 items 191 bytes 517"),
        stated(b"", "refused 1"),
        stated(b"MBK\x03\0\0\0", "refused 2"),
        stated(b"MBK\x01\0\0\0", "refused 3"),
        stated(&write(&[vec![97; 65]]), "refused 4"),
        stated(&write(&[vec![0]]), "refused 5"),
        stated(&write(&[vec![call(0)]]), "refused 6"),
        stated(&write(&vec![vec![10]; 1024]), "sound version 1 macros 1024 items 1024 bytes 4103"),
    ]
}

fn long_runs(longest: &[u8]) -> Vec<Run> {
    let stated = "sound version 1 macros 1024 items 65536 bytes 133127";
    let mut runs = vec![run(longest.to_vec(), Some(stated))];
    for (book, refusal) in long_books(longest).into_iter().chain(more_long_books(longest)) {
        runs.push(run(book, Some(&format!("refused {refusal}"))));
    }
    runs
}

fn seeded_book(rng: &mut Rng) -> Vec<u8> {
    if rng.chance(15) {
        damaged_large(rng)
    } else {
        some_book(rng)
    }
}
