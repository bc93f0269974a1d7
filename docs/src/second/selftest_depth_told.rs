//! Answers with other depths than the right ones, all else alike, and depths put together item by item, for the
//! self test (document 02, S-6).

use crate::answer::{answer, work_words};
use crate::book::{self, Book, Item};
use crate::case::Case;
use crate::depth::{depth_line, words, Keys};
use crate::depth_figures::{of_run, Figures};
use crate::hash::hash;
use crate::refusal::{Refusal, LONG_RUN};

/// A case, and its right answer.
pub struct Asked<'a> {
    pub number: usize,
    pub words: usize,
    pub keys: Keys,
    pub book: &'a [u8],
    pub own: String,
}

impl Asked<'_> {
    pub fn of(case: &Case) -> Option<Asked<'_>> {
        match case {
            Case::Depth { number, words, keys, book } => {
                Some(Asked { number: *number, words: *words, keys: *keys, book, own: answer(case) })
            }
            _ => None,
        }
    }
}

/// Figures put together item by item, and pass by pass, from those of the called macros: `join` gives those of the
/// items so far and one more.
pub fn folded(
    book: &Book,
    last: usize,
    longest: i128,
    start: Figures,
    key: impl Fn(u8) -> Figures,
    join: impl Fn(Figures, Figures) -> Figures,
) -> Vec<Option<Figures>> {
    let mut all: Vec<Option<Figures>> = Vec::new();
    for number in 0..=last {
        let own = book.repeated(number).try_fold(start, |sum, (item, repeat)| {
            let next = match item {
                Item::Key(each) => key(each),
                Item::Call(called) => all[called]?,
            };
            let one_more = |sum: Figures, _| Figures { length: sum.length + next.length, ..join(sum, next) };
            Some((0..repeat).fold(sum, one_more))
        });
        all.push(own.filter(|own| own.length <= longest));
    }
    all
}

/// A right method, unlike that of pairs: the lowest of an item counts from the depth before it.
pub fn composed(book: &Book, keys: Keys, last: usize, longest: i128) -> Vec<Option<Figures>> {
    folded(
        book,
        last,
        longest,
        of_run(&[], keys),
        |key| of_run(&[key], keys),
        |sum, next| Figures { end: sum.end + next.end, lowest: sum.lowest.min(sum.end + next.lowest), ..sum },
    )
}

/// The answer with these figures; all else is right.
pub fn told(asked: &Asked, figures: impl Fn(&Book) -> Vec<Option<Figures>>) -> String {
    told_with(asked, |book| {
        let all = figures(book);
        (all.iter().flat_map(words).collect(), all[asked.number])
    })
}

/// The same with any words, and the figures that are answered.
pub fn told_with(asked: &Asked, tell: impl Fn(&Book) -> (Vec<u64>, Option<Figures>)) -> String {
    let own = asked.own.clone();
    let book = match book::read(asked.book) {
        Ok(book) if own.starts_with("end") || own.starts_with("refused 19") => book,
        _ => return own,
    };
    let (written, figures) = tell(&book);
    let mut work = work_words(asked.words);
    work[..written.len()].copy_from_slice(&written);
    shown(figures.map(|own| (own.end, own.lowest)).ok_or(LONG_RUN), work)
}

pub fn shown(result: Result<(i128, i128), Refusal>, work: Vec<u64>) -> String {
    format!("{} work {}", depth_line(result), hash(work.into_iter()))
}
