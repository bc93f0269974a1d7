//! Starts of the command that have no answer: nothing is printed on standard output, and the status is 2.

use crate::book_file::{path_for, BookFile};
use crate::child;
use crate::command::judge;
use crate::expected::Expected;
use crate::fixed_books::example;
use crate::make_book::write;
use crate::tally::Tally;
use std::ffi::OsString;

/// BOOK stands for a sound book's path, MISSING for the path of no file, FOLDER for a folder's.
const STARTS: &[(&str, &[&str])] = &[
    ("usage", &[]),
    ("usage", &["lines", "BOOK"]),
    ("usage", &["count", "--", "a"]),
    ("usage", &["count", "-x", "BOOK"]),
    ("usage", &["check", "BOOK", "0"]),
    ("usage", &["count", "-i"]),
    ("usage", &["count", "-i", "BOOK"]),
    ("usage", &["count", "-i", "--", "a"]),
    ("usage", &["count", "-i", "-x", "a", "BOOK"]),
    ("usage", &["count", "-ie"]),
    ("usage", &["count", "-ie", "a"]),
    ("usage", &["check", "-i", "BOOK"]),
    ("usage", &["check", "BOOK", "-i"]),
    ("usage", &["reach", "-i", "BOOK"]),
    ("usage", &["reach", "-i", "BOOK", "0"]),
    ("usage", &["depth"]),
    ("usage", &["depth", "("]),
    ("usage", &["depth", "(", ")"]),
    ("usage", &["depth", "(", "BOOK"]),
    ("usage", &["depth", "BOOK", "0"]),
    ("usage", &["depth", "(", ")", "BOOK", "0", "0"]),
    ("usage", &["depth", "-i", "(", ")", "BOOK"]),
    ("usage", &["depth", "-i", "(", ")", "BOOK", "0"]),
    ("usage", &["line"]),
    ("usage", &["line", "1"]),
    ("usage", &["line", "1", "a"]),
    ("usage", &["line", "-i", "1", "a"]),
    ("usage", &["line", "--", "1", "a"]),
    ("usage", &["line", "-e", "a", "1"]),
    ("usage", &["line", "-e", "a"]),
    ("usage", &["line", "-ie", "a", "1"]),
    ("usage", &["line", "-x", "1", "a", "BOOK"]),
    ("usage", &["line", "1", "a", "BOOK", "0", "0"]),
    ("usage", &["line", "--first", "1", "1", "B", "BOOK"]),
    ("usage", &["line", "1", "B", "BOOK", "--count", "1"]),
    ("usage", &["line", "--count=1", "1", "B", "BOOK"]),
    ("usage", &["lines"]),
    ("usage", &["lines", "-e", "a"]),
    ("usage", &["lines", "-i", "--", "a"]),
    ("usage", &["lines", "-x", "a", "BOOK"]),
    ("usage", &["lines", "--last", "1", "a", "BOOK"]),
    ("usage", &["lines", "a", "BOOK", "0", "0"]),
    ("usage", &["lines", "B", "BOOK", "--first"]),
    ("usage", &["lines", "B", "BOOK", "--count"]),
    ("usage", &["lines", "--first", "1", "B"]),
    ("usage", &["lines", "--first", "1", "--count", "1"]),
    ("usage", &["lines", "--", "B", "BOOK", "--first", "1"]),
    ("usage", &["lines", "--first", "1", "--", "B", "BOOK", "--count", "1"]),
    ("usage", &["count", "--first", "1", "B", "BOOK"]),
    ("usage", &["count", "B", "BOOK", "--count", "1"]),
    ("usage", &["check", "BOOK", "--first", "1"]),
    ("usage", &["reach", "BOOK", "--count", "1"]),
    ("file", &["count", "--", "a", "MISSING"]),
    ("file", &["line", "1", "a", "MISSING"]),
    ("file", &["line", "0", "a", "FOLDER"]),
    ("file", &["lines", "a", "MISSING"]),
    ("file", &["lines", "--first", "1", "-i", "--", "a", "FOLDER"]),
    ("file", &["count", "-i", "--", "a", "MISSING"]),
    ("file", &["check", "FOLDER"]),
    ("file", &["reach", "MISSING", "0"]),
    ("file", &["depth", "(", ")", "MISSING"]),
    ("file", &["depth", "040", "41", "MISSING", "0"]),
    ("file", &["depth", "(", ")", "FOLDER"]),
    ("number", &["count", "--", "(", "BOOK", "0x1"]),
    ("number", &["count", "-i", "--", "(", "BOOK", "0x1"]),
    ("number", &["count", "--", "a", "BOOK", "-i"]),
    ("number", &["count", "a", "BOOK", "-i"]),
    ("number", &["line", "", "B", "BOOK"]),
    ("number", &["line", "-1", "B", "BOOK"]),
    ("number", &["line", "--", "-1", "B", "BOOK"]),
    ("number", &["line", "+1", "B", "BOOK"]),
    ("number", &["line", " 1", "B", "BOOK"]),
    ("number", &["line", "B", "1", "BOOK"]),
    ("number", &["line", "-e", "B", "one", "BOOK"]),
    ("number", &["line", "1", "B", "BOOK", "-i"]),
    ("number", &["line", "1", "B", "BOOK", ""]),
    ("number", &["line", "18446744073709551616", "(", "BOOK", "9"]),
    ("number", &["lines", "B", "BOOK", "-i"]),
    ("number", &["lines", "B", "BOOK", "-1"]),
    ("number", &["lines", "--", "B", "BOOK", "--first=1"]),
    ("number", &["lines", "B", "BOOK", "--first", ""]),
    ("number", &["lines", "B", "BOOK", "--first="]),
    ("number", &["lines", "B", "BOOK", "--first=-1"]),
    ("number", &["lines", "B", "BOOK", "--first", "-1"]),
    ("number", &["lines", "B", "BOOK", "--count", ""]),
    ("number", &["lines", "B", "BOOK", "--count="]),
    ("number", &["lines", "B", "BOOK", "--count=+1"]),
    ("number", &["lines", "--count", "-1", "B", "BOOK"]),
    ("number", &["lines", "--count", "1025", "(", "BOOK", "9"]),
    ("number", &["lines", "--count=0", "B", "BOOK"]),
    ("number", &["reach", "BOOK", "-1"]),
    ("number", &["reach", "BOOK", "-i"]),
    ("number", &["reach", "BOOK", ""]),
    ("number", &["depth", "(", ")", "BOOK", ""]),
    ("number", &["depth", "(", ")", "BOOK", "0x1"]),
    ("number", &["depth", "(", ")", "BOOK", "-1"]),
    ("number", &["depth", "(", ")", "BOOK", "-i"]),
    ("number", &["depth", "(", ")", "BOOK", "1 "]),
];

pub fn compare(program: &str) -> Result<Tally, String> {
    let mut tally = Tally::default();
    let file = BookFile::new(&write(&example()))?;
    for (kind, words) in STARTS {
        let arguments: Vec<OsString> = words
            .iter()
            .map(|&word| match word {
                "BOOK" => file.path.clone().into_os_string(),
                "MISSING" => path_for("missing").into_os_string(),
                "FOLDER" => std::env::temp_dir().into_os_string(),
                word => OsString::from(word),
            })
            .collect();
        let outcome = child::run(program, &arguments, Vec::new());
        outcome.and_then(|outcome| judge(&Expected::Nothing, &outcome)).map_err(|other| {
            format!(
                "kind: no answer, {kind}\narguments: {words:?}\nsecond: nothing (status 2)\nother: {other}"
            )
        })?;
        tally.add(kind, "nothing");
    }
    Ok(tally)
}
