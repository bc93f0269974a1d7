//! The operations with their refusals in the order of document 01, "Refused".

use crate::book::{self, Book};
use crate::count::count;
use crate::letters::Letters;
use crate::meaning::{line_matches, Tester};
use crate::question::Question;
use crate::reach::reached;
use crate::refusal::*;
use crate::report::words_needed;
use crate::tree::Pattern;

pub const CUECOUNT_WORDS: usize = 4_096;
pub const CUECOUNT_BYTES: usize = 8_192;
/// Enough for every book and pattern: 1,024 times 38.
pub const COUNT_WORDS: usize = 38_912;

/// The one-line test: the pattern first, then the line.
pub fn line_test(question: &Question, line: &[u8]) -> Result<bool, Refusal> {
    let pattern = question.read()?;
    if line.contains(&0) || line.contains(&10) {
        return Err(DEAD_KEY);
    }
    Ok(line_matches(&pattern, line))
}

/// The count over a plain run: the pattern first, then the run.
pub fn run_count(question: &Question, run: &[u8]) -> Result<u64, Refusal> {
    let pattern = question.read()?;
    if run.contains(&0) {
        return Err(DEAD_KEY);
    }
    Ok(Tester::new(&pattern).count(run))
}

/// Whether the book is sound; the answer is its macro count.
pub fn sound(book: &[u8]) -> Result<usize, Refusal> {
    book::read(book).map(|book| book.macros.len())
}

/// What the command's `check` tells of a sound book.
pub struct Checked {
    pub version: u16,
    pub macros: usize,
    pub items: usize,
    pub bytes: usize,
}

pub fn check(bytes: &[u8]) -> Result<Checked, Refusal> {
    let book = book::read(bytes)?;
    let items = book.macros.iter().map(|each| each.items.len()).sum();
    Ok(Checked { version: book.version(), macros: book.macros.len(), items, bytes: bytes.len() })
}

pub fn body(number: usize, bytes: &[u8]) -> Result<Vec<u8>, Refusal> {
    let book = book::read(bytes)?;
    if number >= book.macros.len() {
        return Err(NO_SUCH_MACRO);
    }
    Ok(book.body(number).to_vec())
}

/// The reach list in its order: how many numbers were written to the first entries.
pub fn reach(number: usize, bytes: &[u8], entries: &mut [u16]) -> Result<usize, Refusal> {
    let book = book::read(bytes)?;
    if number >= book.macros.len() {
        return Err(NO_SUCH_MACRO);
    }
    if entries.len() < number + 1 {
        return Err(SHORT_WORK);
    }
    let list = reached(&book, number);
    entries[..list.len()].copy_from_slice(&list);
    Ok(list.len())
}

/// The same for the command, of the last macro if none is asked for; there are always entries enough.
pub fn reach_numbers(asked: Option<usize>, bytes: &[u8]) -> Result<Vec<usize>, Refusal> {
    let book = book::read(bytes)?;
    let number = asked.unwrap_or(book.macros.len() - 1);
    if number >= book.macros.len() {
        return Err(NO_SUCH_MACRO);
    }
    Ok(reached(&book, number).into_iter().map(usize::from).collect())
}

/// What comes before any work on a book under a pattern: the book's own refusals, 7 to 9, 10, and 11 for fewer words
/// than are needed for a macro's number and so many atoms.
pub fn settled<'a>(
    number: usize,
    question: &Question,
    bytes: &'a [u8],
    words: usize,
    needed: fn(usize, usize) -> usize,
) -> Result<(Book<'a>, Pattern), Refusal> {
    let book = book::read(bytes)?;
    let pattern = question.read()?;
    if number >= book.macros.len() {
        return Err(NO_SUCH_MACRO);
    }
    if words < needed(number, pattern.atoms()) {
        return Err(SHORT_WORK);
    }
    Ok((book, pattern))
}

/// The count over a book: lines and steps; the first work words hold the reports afterwards, also
/// after refusal 12.
pub fn book_count(
    number: usize,
    question: &Question,
    bytes: &[u8],
    work: &mut [u64],
) -> Result<(u64, u64), Refusal> {
    let (book, pattern) = settled(number, question, bytes, work.len(), words_needed)?;
    let counted = count(&book, &pattern, number);
    let words = counted.reports.iter().flat_map(|report| report.words());
    for (place, word) in work.iter_mut().zip(words) {
        *place = word;
    }
    match counted.lines {
        Some(lines) => Ok((lines, counted.steps)),
        None => Err(COUNT_TOO_HIGH),
    }
}

/// The count of the last macro; a book that is refused has none, and its refusal comes first anyway.
pub fn last_count(question: &Question, bytes: &[u8], words: usize) -> Result<(u64, u64), Refusal> {
    let last = sound(bytes)? - 1;
    book_count(last, question, bytes, &mut vec![0; words])
}

/// The line that the program `cuecount` prints for an input. It has no choice of case.
pub fn cuecount(input: &[u8]) -> String {
    if input.len() > CUECOUNT_BYTES {
        return count_line(Err(LONG_INPUT));
    }
    let cut = input.iter().position(|&byte| byte == 10);
    let (pattern, book) = match cut {
        Some(cut) => (&input[..cut], &input[cut + 1..]),
        None => (input, &input[input.len()..]),
    };
    count_line(last_count(&Question::new(Letters::Apart, pattern), book, CUECOUNT_WORDS))
}

pub fn count_line(result: Result<(u64, u64), Refusal>) -> String {
    match result {
        Ok((lines, steps)) => format!("lines {lines} steps {steps}"),
        Err(refusal) => format!("refused {refusal}"),
    }
}

pub fn check_line(result: Result<Checked, Refusal>) -> String {
    match result {
        Ok(Checked { version, macros, items, bytes }) => {
            format!("sound version {version} macros {macros} items {items} bytes {bytes}")
        }
        Err(refusal) => format!("refused {refusal}"),
    }
}
