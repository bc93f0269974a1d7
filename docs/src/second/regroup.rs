//! A macro's items cut in three, the middle ones put into a macro of their own (document 02, S-7: "The desk editor
//! will regroup long macros by itself").

use crate::book::FIRST_CALL;
use crate::case::Case;
use crate::describe::{hex_of_long, pattern_lines};
use crate::group::{Group, Law};
use crate::make_book::{self, call};
use crate::operations::COUNT_WORDS;
use crate::question::Question;
use crate::repeats;
use crate::report::words_needed;

pub const SAME: &str = "both macros have one count";
pub const NAMES: [&str; 4] = ["old book", "new book", "old count", "new count"];

/// An item as the books of one version have it.
pub trait Entry: Copy {
    /// What is called or pressed, without a repeat count.
    fn item(self) -> u16;
    /// Another item in its place, as often.
    fn with(self, item: u16) -> Self;
    /// An item that stands once.
    fn once(item: u16) -> Self;
    fn write(macros: &[Vec<Self>]) -> Vec<u8>;
}

impl Entry for u16 {
    fn item(self) -> u16 {
        self
    }

    fn with(self, item: u16) -> u16 {
        item
    }

    fn once(item: u16) -> u16 {
        item
    }

    fn write(macros: &[Vec<u16>]) -> Vec<u8> {
        make_book::write(macros)
    }
}

/// With its repeat count, which it keeps.
impl Entry for (u16, u16) {
    fn item(self) -> u16 {
        self.0
    }

    fn with(self, item: u16) -> (u16, u16) {
        (item, self.1)
    }

    fn once(item: u16) -> (u16, u16) {
        (item, 1)
    }

    fn write(macros: &[Vec<(u16, u16)>]) -> Vec<u8> {
        repeats::write(macros)
    }
}

/// Macro m, where its Y begins and ends, and the new macro's number j.
#[derive(Clone, Copy, Debug)]
pub struct Cut {
    pub number: usize,
    pub from: usize,
    pub to: usize,
    pub into: usize,
}

/// The calls of the new macro and of those that go up are all that changes besides.
pub fn regrouped<E: Entry>(macros: &[Vec<E>], cut: &Cut) -> Vec<Vec<E>> {
    let raised = |&own: &E| own.with(own.item() + u16::from(own.item() >= call(cut.into)));
    let list = |items: &[E]| items.iter().map(raised).collect::<Vec<E>>();
    let mut new: Vec<Vec<E>> = macros.iter().map(|items| list(items)).collect();
    let items = &macros[cut.number];
    let (before, middle, behind) = (&items[..cut.from], &items[cut.from..cut.to], &items[cut.to..]);
    new[cut.number] = [list(before), vec![E::once(call(cut.into))], list(behind)].concat();
    new.insert(cut.into, list(middle));
    new
}

/// The lowest number that the new macro may have: above every macro that Y calls.
pub fn lowest<E: Entry>(macros: &[Vec<E>], number: usize, from: usize, to: usize) -> usize {
    let above = |own: &E| usize::from(own.item().saturating_sub(FIRST_CALL - 1));
    macros[number][from..to].iter().map(above).max().unwrap_or(0)
}

#[derive(Clone)]
pub struct Regrouping<E = u16> {
    /// Why it is asked, or where it comes from.
    pub why: String,
    pub macros: Vec<Vec<E>>,
    pub cut: Cut,
    pub question: Question,
    /// Work words besides those needed, as far as a case may have so many.
    pub more_words: usize,
    /// How both counts begin, where it is known beforehand.
    pub stated: Option<String>,
}

impl<E: Entry> Regrouping<E> {
    /// The cases, with any new book.
    pub fn cases_with(&self, new: &[Vec<E>]) -> Vec<(&'static str, Case)> {
        let (old, new) = (E::write(&self.macros), E::write(new));
        let number = self.cut.number;
        let cases = [
            Case::Sound { book: old.clone() },
            Case::Sound { book: new.clone() },
            self.count(number, old),
            self.count(number + 1, new),
        ];
        NAMES.into_iter().zip(cases).collect()
    }

    fn count(&self, number: usize, book: Vec<u8>) -> Case {
        let atoms = self.question.read().map_or(0, |tree| tree.atoms());
        let words = (words_needed(number, atoms) + self.more_words).min(COUNT_WORDS);
        Case::Count { number, words, question: self.question.clone(), book }
    }
}

impl<E: Entry> Group for Regrouping<E> {
    fn about(&self) -> String {
        let Cut { number, from, to, into } = self.cut;
        let places = format!("macro {number}, items {from} to {to} become macro {into}");
        let pattern = pattern_lines(&self.question.pattern);
        let books = [E::write(&self.macros), E::write(&regrouped(&self.macros, &self.cut))];
        let [old, new] = books.map(|book| hex_of_long(&book));
        let letters = self.question.letters;
        format!("regrouping: {}\n{places}\n{letters:?}\n{pattern}old book: {old}\nnew book: {new}", self.why)
    }

    fn cases(&self) -> Vec<(&'static str, Case)> {
        self.cases_with(&regrouped(&self.macros, &self.cut))
    }

    /// Steps and work words may differ, so the lines are compared up to there.
    fn laws(&self, lines: &[String]) -> Vec<Law> {
        let [old, new] = [&lines[2], &lines[3]].map(|line| counted(line));
        let holds = old.is_some() && old == new;
        vec![Law { name: SAME, holds, line: String::from(old.unwrap_or("nothing")) }]
    }

    /// Both books are sound, the new one with one macro more; sometimes the count is known, too.
    fn as_stated(&self, lines: &[String]) -> bool {
        let sound = |place: usize| format!("sound {}", self.macros.len() + place);
        let count = self.stated.is_none() || counted(&lines[2]) == self.stated.as_deref();
        lines[0] == sound(0) && lines[1] == sound(1) && count
    }
}

/// `lines N` or `refused 12`, from the front of an answer; nothing if it is another.
pub fn counted(line: &str) -> Option<&str> {
    let (second, _) = line.match_indices(' ').nth(1)?;
    let front = &line[..second];
    (front.starts_with("lines ") || front == "refused 12").then_some(front)
}
