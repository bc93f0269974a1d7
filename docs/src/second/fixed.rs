//! The fixed cases: each has its answer stated beforehand, so that the statement, this program and the
//! program under test must agree.

use crate::case::Case;
use crate::fixed_again::again;
use crate::fixed_books::counts;
use crate::fixed_depth::depths;
use crate::fixed_depth_deep::deep_depths;
use crate::fixed_depth_long::long_depths;
use crate::fixed_depth_refused::refused_depths;
use crate::fixed_depth_sums::long_sums;
use crate::fixed_ends::ends;
use crate::fixed_find;
use crate::fixed_find_deep::deep;
use crate::fixed_find_huge;
use crate::fixed_find_long::long;
use crate::fixed_find_refused::refusals;
use crate::fixed_find_seeded::every_line;
use crate::fixed_find_words::in_words;
use crate::fixed_fronts::fronts;
use crate::fixed_letters::letters;
use crate::fixed_letters_books::letters_in_books;
use crate::fixed_lines::{BRACKETS, EXPRESSIONS, PAPER};
use crate::fixed_parts::parts;
use crate::fixed_reach::reaches;
use crate::fixed_reach_large::large_reaches;
use crate::fixed_reach_refused::refused_reaches;
use crate::fixed_reach_wide::wide_reaches;
use crate::fixed_repeats;
use crate::fixed_repeats_depth;
use crate::fixed_repeats_ends::ends as ends_of_passes;
use crate::fixed_repeats_huge::huge;
use crate::fixed_repeats_reach::reaches_and_bodies;
use crate::fixed_repeats_refused::refused;
use crate::fixed_returns::returns;
use crate::fixed_returns_books::{returns_in_books, returns_in_words};
use crate::fixed_returns_cuts::cuts;
use crate::fixed_returns_huge::{huge_cuts, huge_returns};
use crate::fixed_returns_joins::returns_joined;
use crate::fixed_rows::rows;
use crate::fixed_runs::runs;
use crate::fixed_whole::wholes;
use crate::letters::Letters;
use crate::question::Question;

#[derive(Clone)]
pub struct Fixed {
    pub case: Case,
    /// The answer, or its first words: the hash of work words is not stated, sometimes not the steps.
    pub stated: String,
}

impl Fixed {
    pub fn new(case: Case, stated: &str) -> Fixed {
        Fixed { case, stated: String::from(stated) }
    }

    pub fn line(letters: Letters, pattern: &[u8], line: &[u8], stated: &str) -> Fixed {
        Fixed::new(Case::Line { question: Question::new(letters, pattern), line: line.to_vec() }, stated)
    }

    pub fn run(letters: Letters, pattern: &[u8], run: &[u8], stated: &str) -> Fixed {
        Fixed::new(Case::Run { question: Question::new(letters, pattern), run: run.to_vec() }, stated)
    }

    /// Whether an answer begins with the words stated; only a count, the depths of a run and a line may say more.
    pub fn agrees(&self, answer: &str) -> bool {
        let open = matches!(self.case, Case::Count { .. } | Case::Depth { .. } | Case::Find { .. });
        let more = open && answer.starts_with(&format!("{} ", self.stated));
        more || answer == self.stated
    }
}

/// Document 01's cases, the same with case ignored, those made for the choice of case, those about where
/// brackets begin and end, those about line ends, those about the order of reach lists, and those about depths.
pub fn all() -> Vec<Fixed> {
    let mut fixed = once();
    fixed.extend(again(&of_document_01()));
    fixed.extend([returns_in_words(), huge_returns(), cuts(), returns_joined()].concat());
    fixed.extend(of_reach_lists());
    fixed.extend(of_depths());
    fixed
}

/// Without those asked again, and without the many alike: each start of a program takes its time.
pub fn once() -> Vec<Fixed> {
    let mut fixed = of_document_01();
    fixed.extend(for_the_choice());
    fixed.extend(of_brackets());
    fixed.extend(of_line_ends());
    fixed
}

fn of_line_ends() -> Vec<Fixed> {
    [returns(), returns_in_books(), huge_cuts()].concat()
}

pub fn of_reach_lists() -> Vec<Fixed> {
    [reaches(), wide_reaches(), large_reaches(), refused_reaches()].concat()
}

pub fn of_depths() -> Vec<Fixed> {
    [depths(), deep_depths(), long_depths(), long_sums(), refused_depths()].concat()
}

/// Those about repeat counts, of all kinds, but for the largest books.
pub fn of_repeats() -> Vec<Fixed> {
    let counts = [fixed_repeats::counts(), ends_of_passes(), huge()];
    [counts.concat(), refused(), reaches_and_bodies(), fixed_repeats_depth::depths()].concat()
}

/// Those of a line that is sought.
pub fn of_finds() -> Vec<Fixed> {
    let far = [fixed_find_huge::huge(), long(), deep()].concat();
    [fixed_find::small(), far, in_words(), refusals(), every_line()].concat()
}

fn of_document_01() -> Vec<Fixed> {
    let mut fixed: Vec<Fixed> = Vec::new();
    for (pattern, line, stated) in EXPRESSIONS.iter().chain(BRACKETS).chain(PAPER) {
        fixed.push(Fixed::line(Letters::Apart, pattern.as_bytes(), line.as_bytes(), stated));
    }
    fixed.extend(runs());
    fixed.extend(counts());
    fixed.extend(parts());
    fixed
}

fn for_the_choice() -> Vec<Fixed> {
    let mut fixed = letters();
    fixed.extend(letters_in_books());
    fixed
}

pub fn of_brackets() -> Vec<Fixed> {
    let mut fixed = rows();
    fixed.extend(fronts());
    fixed.extend(ends());
    fixed.extend(wholes());
    fixed
}
