//! The answer line to a case.

use crate::case::Case;
use crate::depth::{book_depths, depth_line, Keys};
use crate::find::{book_find, find_line};
use crate::hash::hash;
use crate::join::join;
use crate::operations::*;
use crate::question::Question;
use crate::refusal::Refusal;
use crate::report::Report;

pub fn answer(case: &Case) -> String {
    match case {
        Case::Line { question, line } => line_answer(line_test(question, line)),
        Case::Run { question, run } => {
            or_refused(run_count(question, run).map(|lines| format!("lines {lines}")))
        }
        Case::Count { number, words, question, book } => count_answer(*number, *words, question, book),
        Case::Sound { book } => or_refused(sound(book).map(|count| format!("sound {count}"))),
        Case::Body { number, book } => or_refused(body(*number, book).map(|body| body_answer(&body))),
        Case::Reach { number, entries, book } => reach_answer(*number, *entries, book),
        Case::Depth { number, words, keys, book } => depth_answer(*number, *words, *keys, book),
        Case::Find { number, words, buffer, k, question, book } => {
            find_answer(*number, *words, *buffer, *k, question, book)
        }
        Case::Join { left, right } => or_refused(join(left, right).map(|report| report_answer(&report))),
    }
}

fn or_refused(result: Result<String, Refusal>) -> String {
    result.unwrap_or_else(|refusal| format!("refused {refusal}"))
}

fn line_answer(result: Result<bool, Refusal>) -> String {
    or_refused(result.map(|matches| String::from(if matches { "match" } else { "no match" })))
}

fn body_answer(body: &[u8]) -> String {
    format!("body {} {}", body.len(), hash_bytes(body))
}

pub fn hash_bytes(bytes: &[u8]) -> u64 {
    hash(bytes.iter().map(|&byte| u64::from(byte)))
}

/// The work words are filled before, so that words which must stay are seen in the hash.
pub fn work_words(words: usize) -> Vec<u64> {
    (1..=words as u64).map(|place| 1_000_003 * place).collect()
}

fn depth_answer(number: usize, words: usize, keys: Keys, book: &[u8]) -> String {
    let mut work = work_words(words);
    let line = depth_line(book_depths(number, keys, book, &mut work));
    format!("{line} work {}", hash(work.into_iter()))
}

fn count_answer(number: usize, words: usize, question: &Question, book: &[u8]) -> String {
    let mut work = work_words(words);
    let line = count_line(book_count(number, question, book, &mut work));
    format!("{line} work {}", hash(work.into_iter()))
}

/// What the bytes of a lent buffer are before, as with the work words.
pub fn lent_bytes(count: usize) -> Vec<u8> {
    (0..count).map(|place| 255 - (place % 256) as u8).collect()
}

fn find_answer(
    number: usize,
    words: usize,
    bytes: usize,
    k: u64,
    question: &Question,
    book: &[u8],
) -> String {
    let (mut work, mut buffer) = (work_words(words), lent_bytes(bytes));
    let line = find_line(book_find(number, question, k, book, &mut buffer, &mut work));
    format!("{line} buffer {} work {}", hash_bytes(&buffer), hash(work.into_iter()))
}

fn reach_answer(number: usize, count: usize, book: &[u8]) -> String {
    let mut entries: Vec<u16> = (0..count).map(|place| 65_535u16.wrapping_sub(place as u16)).collect();
    match reach(number, book, &mut entries) {
        Err(refusal) => format!("refused {refusal} rest {}", hash_entries(&entries)),
        Ok(reached) => {
            let (written, rest) = entries.split_at(reached);
            let list: String = written.iter().map(|each| format!(" {each}")).collect();
            format!("reached {reached}:{list} rest {}", hash_entries(rest))
        }
    }
}

fn hash_entries(entries: &[u16]) -> u64 {
    hash(entries.iter().map(|&entry| u64::from(entry)))
}

pub fn report_answer(report: &Report) -> String {
    let fields: String = report.fields().iter().map(|field| format!("{field} ")).collect();
    format!("report {} {fields}{}", report.s, hash(report.rows.iter().copied()))
}
