//! Wrong programs that are easily taken for the right one (document 02, S-8). The fixed cases must tell each of them
//! from it, and so must some seeded ones.

use crate::answer::{answer, work_words};
use crate::book::{self, Book, Item, REPEATING_VERSION};
use crate::case::Case;
use crate::depth::{depth_line, words, Keys};
use crate::depth_figures::{of_run, Figures, LONGEST};
use crate::hash::hash;
use crate::join::join;
use crate::refusal::LONG_RUN;
use crate::repeats::{write, Repeats};
use crate::report::{Report, BEGINS_WITH_LF, ENDS_IN_CR};
use crate::selftest_repeats_joined::{asked, by_halves, reports, right, told, Joining};
use crate::states::States;

/// What it is called, and the answer line; the second argument is the right one.
pub type Wrong = (&'static str, fn(&Case, &str) -> String);

pub const WRONG: [Wrong; 23] = [
    ("repeat counts ignored", |case, own| with_counts(case, own, |_, _| 1)),
    ("one pass too few", |case, own| with_counts(case, own, |_, repeat| repeat.max(2) - 1)),
    ("one pass too many", |case, own| with_counts(case, own, |_, repeat| repeat.saturating_add(1))),
    ("repeated keys taken once", |case, own| {
        with_counts(case, own, |item, repeat| if item < 256 { 1 } else { repeat })
    }),
    ("repeated LF taken once", |case, own| {
        with_counts(case, own, |item, repeat| if item == 10 { 1 } else { repeat })
    }),
    ("repeated calls taken once", |case, own| {
        with_counts(case, own, |item, repeat| if item < 256 { repeat } else { 1 })
    }),
    ("repeat counts cut to one byte", |case, own| with_counts(case, own, |_, repeat| (repeat % 256).max(1))),
    ("repeat counts with a sign", |case, own| {
        with_counts(case, own, |_, repeat| if repeat > 32_767 { 1 } else { repeat })
    }),
    ("the high byte of a repeat count first", |case, own| {
        with_counts(case, own, |_, repeat| repeat.swap_bytes())
    }),
    ("bodies of two bytes an item", short_body),
    ("steps in version 2", claimed_steps),
    ("the words untouched", untouched),
    ("CR and LF not joined between passes", |case, own| joining(case, own, no_seam)),
    ("no line across passes", |case, own| joining(case, own, no_line_across)),
    ("a line at the end of each pass", |case, own| joining(case, own, two_lines)),
    ("sums stop at 2^64 - 1", |case, own| summing(case, own, stopping, stopped)),
    ("sums cut to 64 bits", |case, own| summing(case, own, wrapping, wrapped)),
    ("2^64 - 1 refused", top_refused),
    ("flag 2 only with the count refused", |case, own| summing(case, own, stopping, Report::lines)),
    ("lowest depth of the first pass", |case, own| {
        depths(case, own, |once, times| Figures { lowest: once.lowest, ..all(once, times) })
    }),
    ("lowest depth of the last pass", |case, own| {
        depths(case, own, |once, times| Figures {
            lowest: all(once, times - 1).end + once.lowest,
            ..all(once, times)
        })
    }),
    ("end depth of one pass", |case, own| {
        depths(case, own, |once, times| Figures { end: once.end, ..all(once, times) })
    }),
    ("length of one pass", |case, own| {
        depths(case, own, |once, times| Figures { length: once.length, ..all(once, times) })
    }),
];

/// The case with other repeat counts, where it has a book of version 2 that is sound. Bodies are left alone.
fn with_counts(case: &Case, own: &str, counts: fn(u16, u16) -> u16) -> String {
    let mut other = case.clone();
    let bytes = match &mut other {
        Case::Count { book, .. } | Case::Reach { book, .. } | Case::Depth { book, .. } => book,
        _ => return String::from(own),
    };
    match book::read(bytes) {
        Ok(book) if book.version() == REPEATING_VERSION => {
            let of_macro = |each: &book::Macro| {
                let items = each.items.iter().zip(&each.repeats);
                items.map(|(&item, &repeat)| (item, counts(item, repeat))).collect()
            };
            let changed: Repeats = book.macros.iter().map(of_macro).collect();
            *bytes = write(&changed);
        }
        _ => return String::from(own),
    }
    answer(&other)
}

fn short_body(case: &Case, own: &str) -> String {
    match case {
        Case::Body { number, book } if own.starts_with("body ") => match book::read(book) {
            Ok(read) => {
                let body = read.body(*number);
                let cut = &body[..2 * read.items(*number).len()];
                format!("body {} {}", cut.len(), hash(cut.iter().map(|&byte| u64::from(byte))))
            }
            Err(_) => String::from(own),
        },
        _ => String::from(own),
    }
}

/// The pairs of states before the first item of macro 0 alone are more than 0.
fn claimed_steps(_: &Case, own: &str) -> String {
    own.replacen(" steps 0 work ", " steps 3 work ", 1)
}

fn untouched(case: &Case, own: &str) -> String {
    match (case, own.rsplit_once(" work ")) {
        (Case::Count { words, .. } | Case::Depth { words, .. }, Some((front, _))) => {
            format!("{front} work {}", hash(work_words(*words).into_iter()))
        }
        _ => String::from(own),
    }
}

/// A count in which passes of one item are joined otherwise.
fn joining(case: &Case, own: &str, between: Joining) -> String {
    summing(case, own, between, Report::lines)
}

/// The same, and with other lines told from the last report.
fn summing(case: &Case, own: &str, between: Joining, lines: fn(&Report, &States) -> Option<u64>) -> String {
    let (number, words, question, bytes) = match asked(case, own) {
        Some(parts) => parts,
        None => return String::from(own),
    };
    match (book::read(bytes), question.read()) {
        (Ok(book), Ok(tree)) if book.version() == REPEATING_VERSION => {
            let all = reports(&book, &tree, number, |once, repeat| by_halves(once, repeat, between));
            told(words, &all, question, lines)
        }
        _ => String::from(own),
    }
}

/// Neither is told of the other's key at the seam.
fn no_seam(left: &Report, other: &Report) -> Report {
    let blind = Report { edges: left.edges & BEGINS_WITH_LF, ..left.clone() };
    let joined = right(&blind, &Report { edges: other.edges & ENDS_IN_CR, ..other.clone() });
    Report { edges: right(left, other).edges, ..joined }
}

fn no_line_across(left: &Report, other: &Report) -> Report {
    if left.flag == 0 || other.flag == 0 {
        return right(left, other);
    }
    right(&Report { tail: 0, trimmed: 0, ..left.clone() }, other)
}

/// What stands behind the last LF of a pass, and before the first one of the next, are each a line.
fn two_lines(left: &Report, other: &Report) -> Report {
    let mut joined = no_line_across(left, other);
    if joined.flag == 1 && left.flag == 1 && other.flag == 1 {
        let more = u64::from(other.heads & 1) + u64::from(left.tail & 4 != 0);
        joined.closed = joined.closed.saturating_add(more);
    }
    joined
}

/// A sum past the limit is the limit.
fn stopping(left: &Report, other: &Report) -> Report {
    let joined = right(left, other);
    match joined.flag {
        2 => Report { flag: 1, closed: u64::MAX, ..joined },
        _ => joined,
    }
}

fn stopped(report: &Report, states: &States) -> Option<u64> {
    Some(report.lines(states).unwrap_or(u64::MAX))
}

/// A sum past the limit begins again at 0.
fn wrapping(left: &Report, other: &Report) -> Report {
    let joined = join(left, other).expect("two reports of one pattern");
    if joined.flag < 2 {
        return joined;
    }
    let bare = |report: &Report| Report { closed: 0, ..report.clone() };
    let across = right(&bare(left), &bare(other)).closed;
    Report { flag: 1, closed: left.closed.wrapping_add(other.closed).wrapping_add(across), ..joined }
}

fn wrapped(report: &Report, states: &States) -> Option<u64> {
    let rest = Report { closed: 0, ..report.clone() };
    rest.lines(states).map(|lines| lines.wrapping_add(report.closed))
}

fn top_refused(_: &Case, own: &str) -> String {
    match own.rsplit_once(" work ") {
        Some(("lines 18446744073709551615 steps 0", hash)) => format!("refused 12 work {hash}"),
        _ => String::from(own),
    }
}

/// The right figures of so many passes.
fn all(once: Figures, times: u16) -> Figures {
    let times = i128::from(times);
    let lowest = once.lowest.min(once.lowest + (times - 1) * once.end);
    Figures { length: times * once.length, end: times * once.end, lowest }
}

/// Depths put together item by item, with what repeating makes of figures.
fn depths(case: &Case, own: &str, passes: fn(Figures, u16) -> Figures) -> String {
    let (number, count, keys, bytes) = match case {
        Case::Depth { number, words, keys, book }
            if own.starts_with("end ") || own.starts_with("refused 19 ") =>
        {
            (*number, *words, *keys, book)
        }
        _ => return String::from(own),
    };
    match book::read(bytes) {
        Ok(book) if book.version() == REPEATING_VERSION => {
            let figures = figures(&book, number, keys, passes);
            let mut work = work_words(count);
            for (place, word) in work.iter_mut().zip(figures.iter().flat_map(words)) {
                *place = word;
            }
            let line = depth_line(figures[number].map(|own| (own.end, own.lowest)).ok_or(LONG_RUN));
            format!("{line} work {}", hash(work.into_iter()))
        }
        _ => String::from(own),
    }
}

pub fn right_depths(case: &Case, own: &str) -> String {
    depths(case, own, all)
}

pub fn right_count(case: &Case, own: &str) -> String {
    joining(case, own, right)
}

fn figures(
    book: &Book,
    last: usize,
    keys: Keys,
    passes: fn(Figures, u16) -> Figures,
) -> Vec<Option<Figures>> {
    let mut done: Vec<Option<Figures>> = Vec::new();
    for number in 0..=last {
        let own = book.repeated(number).try_fold(of_run(&[], keys), |sum, (item, repeat)| {
            let once = match item {
                Item::Key(key) => of_run(&[key], keys),
                Item::Call(called) => done[called]?,
            };
            let next = passes(once, repeat);
            let lowest = sum.lowest.min(sum.end + next.lowest);
            Some(Figures { length: sum.length + next.length, end: sum.end + next.end, lowest })
        });
        done.push(own.filter(|own| own.length <= LONGEST));
    }
    done
}
