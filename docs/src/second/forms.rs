//! A book of version 1 and its two forms of version 2 (document 02, S-8; PROTOCOL.md, "Books of version 2"), which
//! have the same runs.

use crate::book::MOST_MACROS;
use crate::case::Case;
use crate::depth::{Keys, WORDS_A_MACRO};
use crate::describe::{hex_of_long, pattern_lines};
use crate::group::{Group, Law};
use crate::make_book::{self, Macros};
use crate::operations::COUNT_WORDS;
use crate::question::Question;
use crate::regroup::counted;
use crate::repeats::{gathered, single, write};
use crate::report::words_needed;

pub const LAWS: [&str; 5] = [
    "forms have one count",
    "forms have the same work words of counts",
    "version 2 has no steps",
    "forms have the same depths and words",
    "forms have one reach list",
];
const NAMES: [&str; 9] = [
    "count, version 1",
    "depths, version 1",
    "list, version 1",
    "count, items once",
    "depths, items once",
    "list, items once",
    "count, items gathered",
    "depths, items gathered",
    "list, items gathered",
];

#[derive(Clone)]
pub struct Forms {
    /// Why it is asked, or where it comes from.
    pub why: String,
    pub macros: Macros,
    pub number: usize,
    pub question: Question,
    pub keys: Keys,
    /// Words and entries besides those needed, as far as a case may have so many.
    pub more: usize,
    /// How the counts begin, where it is known beforehand.
    pub stated: Option<String>,
}

impl Forms {
    /// The book, with each item once, and with equal items gathered.
    pub fn books(&self) -> [Vec<u8>; 3] {
        let macros = &self.macros;
        [make_book::write(macros), write(&single(macros)), write(&gathered(macros))]
    }

    /// The three cases over one of the books.
    fn asked(&self, book: Vec<u8>) -> [Case; 3] {
        let Forms { number, more, keys, .. } = *self;
        let atoms = self.question.read().map_or(0, |tree| tree.atoms());
        let words = (words_needed(number, atoms) + more).min(COUNT_WORDS);
        let triples = (WORDS_A_MACRO * (number + 1) + more).min(4 * MOST_MACROS);
        let entries = (number + 1 + more).min(1_100);
        [
            Case::Count { number, words, question: self.question.clone(), book: book.clone() },
            Case::Depth { number, words: triples, keys, book: book.clone() },
            Case::Reach { number, entries, book },
        ]
    }

    /// The cases with any books in the places of the three.
    pub fn cases_with(&self, books: [Vec<u8>; 3]) -> Vec<(&'static str, Case)> {
        NAMES.into_iter().zip(books.into_iter().flat_map(|book| self.asked(book))).collect()
    }
}

impl Group for Forms {
    fn about(&self) -> String {
        let pattern = pattern_lines(&self.question.pattern);
        let [plain, once, gathered] = self.books().map(|book| hex_of_long(&book));
        let (why, number, keys, letters) = (&self.why, self.number, self.keys, self.question.letters);
        let books = format!("version 1: {plain}\nitems once: {once}\nitems gathered: {gathered}");
        format!("forms: {why}\nmacro {number}, {keys:?}, {letters:?}\n{pattern}{books}")
    }

    fn cases(&self) -> Vec<(&'static str, Case)> {
        self.cases_with(self.books())
    }

    fn laws(&self, lines: &[String]) -> Vec<Law> {
        let kind = |place: usize| [&lines[place][..], &lines[place + 3], &lines[place + 6]];
        let [counts, depths, lists] = [0, 1, 2].map(kind);
        let fronts = counts.map(counted);
        let words = counts.map(|line| line.rsplit_once(" work ").map(|(_, hash)| hash));
        let steps = |line: &str| !line.starts_with("lines ") || line.contains(" steps 0 work ");
        let listed = lists[0].starts_with("reached ");
        let told = depths[0].starts_with("end ") || depths[0].starts_with("refused 19 ");
        let holds = [
            fronts[0].is_some() && same(fronts),
            words[0].is_some() && same(words),
            counts[1..].iter().all(|line| steps(line)),
            told && same(depths),
            listed && same(lists),
        ];
        let line = [fronts[0], fronts[0], fronts[0], Some(depths[0]), Some(lists[0])];
        let law = |((name, holds), line): ((_, _), Option<&str>)| Law {
            name,
            holds,
            line: String::from(line.unwrap_or("nothing")),
        };
        LAWS.into_iter().zip(holds).zip(line).map(law).collect()
    }

    fn as_stated(&self, lines: &[String]) -> bool {
        self.stated.is_none() || counted(&lines[0]) == self.stated.as_deref()
    }
}

fn same<T: PartialEq>([one, other, third]: [T; 3]) -> bool {
    one == other && other == third
}
