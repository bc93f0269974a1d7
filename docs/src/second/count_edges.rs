//! Runs of the command's `count` at the edges: long books, long patterns, patterns that begin with `-`.

use crate::command::{Run, Start, Way};
use crate::command_form::{Form, Sought, BARE, DASHES, OPTION};
use crate::fixed_books::example;
use crate::make_book::{keys, write};
use crate::make_large::longest_book;
use crate::make_long::long_books;
use crate::rng::Rng;

pub fn runs(seed: u64) -> Vec<Run> {
    let longest = longest_book(&mut Rng::new(seed ^ 0x10E));
    let mut runs = books(&longest);
    runs.extend(patterns(&longest));
    runs.extend(dashes());
    runs
}

pub fn run(form: Form, pattern: &[u8], way: Way, book: &[u8], stated: &str) -> Run {
    let pattern = Some((form, pattern.to_vec()));
    let start = Start {
        verb: "count",
        pattern,
        keys: None,
        sought: Sought::default(),
        way,
        book: book.to_vec(),
        asked: None,
    };
    (start, Some(String::from(stated)))
}

/// A bracket of so many bytes, which has the one key.
pub fn wide(bytes: usize) -> Vec<u8> {
    [&b"["[..], &vec![b'B'; bytes - 2], b"]"].concat()
}

/// Each unsound book is refused before its pattern, whatever the pattern's length.
fn books(longest: &[u8]) -> Vec<Run> {
    let patterns =
        [wide(128), wide(129), wide(130), wide(5_000), Vec::new(), b"(".to_vec(), vec![b'a'; 5_000]];
    let books = long_books(longest);
    assert_eq!(books.len(), patterns.len());
    let mut runs = Vec::new();
    for (place, ((book, refusal), pattern)) in books.into_iter().zip(patterns).enumerate() {
        let form = if place % 2 == 0 { DASHES } else { OPTION };
        let way = if place % 3 == 1 { Way::Input(3) } else { Way::Path };
        runs.push(run(form, &pattern, way, &book, &format!("refused {refusal}")));
    }
    runs
}

/// 128 bytes may pass, more are refused 7, also where their form is bad and the macro is none. The length
/// 65,537 is 1 if it is cut to one or two bytes.
fn patterns(longest: &[u8]) -> Vec<Run> {
    let book = write(&example());
    let mut runs = vec![
        run(DASHES, &wide(128), Way::Input(2), &book, "lines 2 steps 17"),
        run(OPTION, &wide(129), Way::Path, longest, "refused 7"),
        run(DASHES, &[b'('; 130], Way::Path, &book, "refused 7"),
        run(OPTION, &wide(5_000), Way::Input(3), longest, "refused 7"),
        run(BARE, &vec![b'B'; 65_537], Way::Path, &book, "refused 7"),
    ];
    runs[2].0.asked = Some(String::from("2"));
    runs
}

fn dashes() -> Vec<Run> {
    let book = write(&[keys(b"-a\n--\n-e\na\n--help\n")]);
    vec![
        run(DASHES, b"-", Way::Path, &book, "lines 4"),
        run(DASHES, b"--", Way::Input(2), &book, "lines 2"),
        run(OPTION, b"--", Way::Path, &book, "lines 2"),
        run(DASHES, b"-e", Way::Path, &book, "lines 1"),
        run(OPTION, b"-e", Way::Input(1), &book, "lines 1"),
        run(OPTION, b"-a*$", Way::Path, &book, "lines 2"),
    ]
}
