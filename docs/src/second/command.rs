//! Starts of the command (PROTOCOL.md, "The command") and their comparison with what is expected.

use crate::book_file::BookFile;
use crate::child::{self, Outcome};
use crate::command_form::{self, Form, Sought};
use crate::describe::{hex, hex_of_long, pattern_lines};
use crate::expected::Expected;
use crate::question::Question;
use crate::rng::Rng;
use crate::tally::Tally;
use std::ffi::{OsStr, OsString};
use std::os::unix::ffi::OsStrExt;
use std::time::Duration;

/// Longer than the command needs to start, so that it meets the book's first piece alone.
const FIRST_PAUSE: Duration = Duration::from_millis(80);

/// How the book is given: by its path, or on standard input in so many pieces.
#[derive(Clone, Copy)]
pub enum Way {
    Path,
    Input(usize),
}

pub struct Start {
    pub verb: &'static str,
    /// For a count and for lines; the form tells the choice of case.
    pub pattern: Option<(Form, Vec<u8>)>,
    /// For depths alone: the words in the places of the two keys.
    pub keys: Option<[Vec<u8>; 2]>,
    /// For lines alone.
    pub sought: Sought,
    pub way: Way,
    pub book: Vec<u8>,
    pub asked: Option<String>,
}

/// A start and, where it is known beforehand, the answer or its first words.
pub type Run = (Start, Option<String>);

impl Way {
    /// Mostly the path.
    pub fn in_turn(place: usize) -> Way {
        if place % 6 == 2 {
            Way::Input(1 + place / 6 % 3)
        } else {
            Way::Path
        }
    }
}

impl Start {
    pub fn question(&self) -> Option<Question> {
        self.pattern.as_ref().map(|(form, pattern)| Question::new(command_form::letters(form), pattern))
    }

    fn arguments(&self, book: OsString) -> Vec<OsString> {
        let mut arguments = vec![OsString::from(self.verb)];
        if let Some((form, pattern)) = &self.pattern {
            arguments.extend(command_form::words(form, pattern, &self.sought));
        }
        for word in self.keys.iter().flatten() {
            arguments.push(OsStr::from_bytes(word).to_os_string());
        }
        arguments.push(book);
        arguments.extend(self.asked.iter().map(OsString::from));
        arguments.extend(command_form::words(self.sought.behind, &[], &self.sought));
        arguments
    }

    fn pieces(&self) -> Vec<Vec<u8>> {
        match self.way {
            Way::Path => Vec::new(),
            Way::Input(count) => child::cut(&mut Rng::new(self.book.len() as u64), &self.book, count - 1),
        }
    }

    fn run(&self, program: &str) -> Result<Outcome, String> {
        match self.way {
            Way::Path => {
                let file = BookFile::new(&self.book)?;
                child::run(program, &self.arguments(file.path.clone().into_os_string()), Vec::new())
            }
            Way::Input(_) => {
                let arguments = self.arguments(OsString::from("-"));
                child::run_with_pause(program, &arguments, self.pieces(), FIRST_PAUSE)
            }
        }
    }

    fn kind(&self) -> String {
        let way = if matches!(self.way, Way::Path) { "path" } else { "input" };
        match self.pattern {
            None => String::from(way),
            Some((form, _)) => String::from([way, form, self.sought.behind].join(" ").trim_end()),
        }
    }

    fn describe(&self) -> String {
        let asked = self.asked.as_deref().unwrap_or("(none)");
        let lengths: Vec<usize> = self.pieces().iter().map(Vec::len).collect();
        let pattern = self.pattern.as_ref().map_or(String::new(), |(_, pattern)| pattern_lines(pattern));
        let keys = self.keys.iter().flatten().map(|word| format!("key in hex: {}\n", hex(word)));
        let (k, most) = (&self.sought.k, &self.sought.most);
        format!(
            "kind: {}, {}, pieces {lengths:?}\nmacro: {asked}, line {k:?}, lines {most:?}\n{pattern}{}book in hex: {}",
            self.verb,
            self.kind(),
            keys.collect::<String>(),
            hex_of_long(&self.book)
        )
    }
}

/// Starts the command for each run; `own` works out what this program expects.
pub fn compare(program: &str, runs: &[Run], own: fn(&Start) -> Expected) -> Result<Tally, String> {
    let mut tally = Tally::default();
    for run in runs {
        let start = &run.0;
        let expected = expected(run, own)?;
        let outcome = start.run(program);
        outcome
            .and_then(|outcome| judge(&expected, &outcome))
            .map_err(|other| difference(start, &expected, &other))?;
        tally.add(&start.kind(), &expected.shown());
    }
    Ok(tally)
}

/// What this program expects, if nothing else was stated.
pub fn expected((start, stated): &Run, own: fn(&Start) -> Expected) -> Result<Expected, String> {
    let expected = own(start);
    match stated {
        Some(stated) if !begins(&expected.shown(), stated) => {
            Err(difference(start, &expected, &format!("stated: {stated}")))
        }
        _ => Ok(expected),
    }
}

fn difference(start: &Start, expected: &Expected, other: &str) -> String {
    let (shown, status) = (expected.shown(), expected.status());
    format!("{}\nsecond: {shown} (status {status})\nother: {other}", start.describe())
}

/// Steps need not be stated.
fn begins(shown: &str, stated: &str) -> bool {
    shown == stated || stated.starts_with("lines ") && shown.starts_with(&format!("{stated} steps "))
}

pub fn judge(expected: &Expected, outcome: &Outcome) -> Result<(), String> {
    if expected.is_met(&outcome.output, outcome.status.code()) {
        return Ok(());
    }
    Err(format!("{} ({})", outcome.output.escape_ascii(), outcome.status))
}
