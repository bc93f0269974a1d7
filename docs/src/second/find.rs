//! The operation that finds a line (document 02, S-3) with its refusals in their order: the book's own, 7 to 9, 10, 11,
//! 15, 16 and 17. A run that is short enough is written out, and both methods must say the same of it.

use crate::book::{Book, MOST_MACROS};
use crate::count::count;
use crate::meaning::Tester;
use crate::measures::{Measured, MEASURE_WORDS};
use crate::natural::Natural;
use crate::operations::settled;
use crate::question::Question;
use crate::refusal::*;
use crate::report::{words_needed, MOST_STATES};
use crate::seek::{in_run, Line, Seeker};
use crate::states::States;
use crate::tree::Pattern;
use crate::written::{lengths, Runs};

/// So long a run is written out.
const LIMIT: u64 = 200_000;
/// Enough for every book and pattern: 1,024 times 42.
pub const FIND_WORDS: usize = MOST_MACROS * (MOST_STATES + 10);
/// So long a buffer is at most.
pub const MOST_BUFFER: usize = 65_536;

/// The reports' words, and four more a macro.
pub fn find_words(number: usize, atoms: usize) -> usize {
    words_needed(number, atoms) + MEASURE_WORDS * (number + 1)
}

/// The line's number and its length. Its keys stand at the front of the buffer, and the first work words hold the
/// reports and the measures of macros 0 to m, these also after 15, 16 and 17.
pub fn book_find(
    number: usize,
    question: &Question,
    k: u64,
    bytes: &[u8],
    buffer: &mut [u8],
    work: &mut [u64],
) -> Result<(u64, u64), Refusal> {
    let (book, pattern) = settled(number, question, bytes, work.len(), find_words)?;
    let measured = Measured::of(&book, number);
    write_words(&book, &pattern, &measured, work);
    let states = States::of(&pattern);
    let mut seeker = Seeker::new(&book, &states, &measured, number);
    let found = seeker.line(k);
    check_written(&book, &pattern, number, k, &found, &seeker);
    let line = found?;
    if line.length > Natural::of(buffer.len() as u64) {
        return Err(SHORT_BUFFER);
    }
    let keys = seeker.keys(&line, buffer.len());
    buffer[..keys.len()].copy_from_slice(&keys);
    Ok((line.number, keys.len() as u64))
}

fn write_words(book: &Book, pattern: &Pattern, measured: &Measured, work: &mut [u64]) {
    let counted = count(book, pattern, measured.macros.len() - 1);
    let reports = counted.reports.iter().flat_map(|report| report.words());
    let measures = measured.macros.iter().flat_map(|own| own.words());
    for (place, word) in work.iter_mut().zip(reports.chain(measures)) {
        *place = word;
    }
}

/// Where the run can be written out, its lines are tested by the meaning.
fn check_written(
    book: &Book,
    pattern: &Pattern,
    number: usize,
    k: u64,
    found: &Result<Line, Refusal>,
    seeker: &Seeker,
) {
    if lengths(book, number)[number] > LIMIT {
        return;
    }
    let mut runs = Runs::of(book);
    let run = runs.keep(number);
    let written = in_run(run, &mut Tester::new(pattern), k).map(|(number, keys)| (number, keys.to_vec()));
    let told =
        found.as_ref().map(|line| (line.number, seeker.keys(line, run.len()))).map_err(|&refusal| refusal);
    assert_eq!(told, written, "two methods find different lines: the second program is wrong");
}

pub fn find_line(result: Result<(u64, u64), Refusal>) -> String {
    match result {
        Ok((number, length)) => format!("line {number} length {length}"),
        Err(refusal) => format!("refused {refusal}"),
    }
}
