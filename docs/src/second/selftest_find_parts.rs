//! All that the right answer for a line that is sought is made of, so that the self test can put it together otherwise
//! (document 02, S-3).

use crate::answer::{hash_bytes, lent_bytes, work_words};
use crate::book::{self, Book};
use crate::case::Case;
use crate::count::count_within;
use crate::find::{find_line, find_words};
use crate::hash::hash;
use crate::measures::Measured;
use crate::natural::Natural;
use crate::place::Places;
use crate::question::Question;
use crate::refusal::*;
use crate::report::Report;
use crate::seek::{Line, Seeker};
use crate::states::States;
use crate::tree::Pattern;
use crate::written::{lengths, Runs};

/// A line's number and its keys.
pub type Told = Result<(u64, Vec<u8>), Refusal>;

/// A case that is refused with none of 1 to 11.
pub struct Parts<'a> {
    pub number: usize,
    words: usize,
    pub buffer: usize,
    pub k: u64,
    pub question: &'a Question,
    pub book: Book<'a>,
    pub tree: Pattern,
    pub measured: Measured,
    pub reports: Vec<Report>,
    /// What the right answer tells of the line, and what it leaves in the first work words.
    pub right: Told,
    pub work: Vec<u64>,
}

impl Parts<'_> {
    pub fn of(case: &Case) -> Option<Parts<'_>> {
        let (number, words, buffer, k, question, bytes) = match case {
            Case::Find { number, words, buffer, k, question, book } => {
                (*number, *words, *buffer, *k, question, book)
            }
            _ => return None,
        };
        let (book, tree) = (book::read(bytes).ok()?, question.read().ok()?);
        if number >= book.macros.len() || words < find_words(number, tree.atoms()) {
            return None;
        }
        let (measured, reports) =
            (Measured::of(&book, number), count_within(&book, &tree, number, 0).reports);
        let (right, work) = (Err(NO_SUCH_LINE), Vec::new());
        let mut parts =
            Parts { number, words, buffer, k, question, book, tree, measured, reports, right, work };
        parts.right = parts.line(k);
        parts.work = parts.first_words();
        Some(parts)
    }

    /// Asks a seeker of the macro's run.
    fn seek<T>(&self, ask: impl FnOnce(&mut Seeker) -> T) -> T {
        let states = States::of(&self.tree);
        ask(&mut Seeker::new(&self.book, &states, &self.measured, self.number))
    }

    /// What is answered of the k-th line, with 15, 16 and 17.
    pub fn line(&self, k: u64) -> Told {
        self.seek(|seeker| self.cut(seeker, k))
    }

    fn cut(&self, seeker: &mut Seeker, k: u64) -> Told {
        let line = seeker.line(k)?;
        if line.length > Natural::of(self.buffer as u64) {
            return Err(SHORT_BUFFER);
        }
        Ok((line.number, seeker.keys(&line, self.buffer)))
    }

    /// The line that is asked for, whatever the buffer.
    pub fn found(&self) -> Option<Line> {
        self.seek(|seeker| seeker.line(self.k).ok())
    }

    pub fn matches(&self) -> u128 {
        self.seek(|seeker| seeker.matches())
    }

    /// So many keys from a line's first on.
    pub fn keys(&self, line: &Line, count: usize) -> Vec<u8> {
        Places { book: &self.book, measured: &self.measured }.keys(self.number, &line.place, count)
    }

    /// Whether these keys stand in a macro as its items, one behind the other.
    pub fn in_one_macro(&self, keys: &[u8]) -> bool {
        let keys: Vec<u16> = keys.iter().map(|&key| u16::from(key)).collect();
        let holds = |items: &[u16]| keys.is_empty() || items.windows(keys.len()).any(|part| part == keys);
        self.book.macros.iter().any(|each| holds(&each.items))
    }

    /// The same of the line under another pattern.
    pub fn line_under(&self, tree: &Pattern) -> Told {
        let states = States::of(tree);
        self.cut(&mut Seeker::new(&self.book, &states, &self.measured, self.number), self.k)
    }

    /// The macro's run, if it is not too long.
    pub fn run(&self, most: u64) -> Option<Vec<u8>> {
        let short = lengths(&self.book, self.number)[self.number] <= most;
        short.then(|| Runs::of(&self.book).keep(self.number).to_vec())
    }

    /// The reports' words, macro by macro.
    pub fn report_words(&self) -> Vec<Vec<u64>> {
        self.reports.iter().map(Report::words).collect()
    }

    fn first_words(&self) -> Vec<u64> {
        let measures = self.measured.macros.iter().flat_map(|own| own.words());
        self.report_words().concat().into_iter().chain(measures).collect()
    }

    /// The answer with this line and these first words; `spoil` is given the buffer and where the line ends in it.
    pub fn told(&self, line: Told, first: &[u64], spoil: impl Fn(&mut [u8], usize)) -> String {
        let (mut work, mut buffer) = (work_words(self.words), lent_bytes(self.buffer));
        work[..first.len()].copy_from_slice(first);
        if let Ok((_, keys)) = &line {
            let end = keys.len().min(buffer.len());
            buffer[..end].copy_from_slice(&keys[..end]);
            spoil(&mut buffer, end);
        }
        let shown = find_line(line.map(|(number, keys)| (number, keys.len() as u64)));
        format!("{shown} buffer {} work {}", hash_bytes(&buffer), hash(work.into_iter()))
    }

    /// The answer with this line, and all else right.
    pub fn with_line(&self, line: Told) -> String {
        self.told(line, &self.work, |_, _| ())
    }
}
