//! The k-th matching line of a macro's run (document 02, S-3), by two methods: over the run written out, line by line,
//! and without writing it out.

use crate::book::Book;
use crate::line_ends::{lines, CR};
use crate::meaning::Tester;
use crate::measures::Measured;
use crate::natural::Natural;
use crate::passage::Walk;
use crate::place::Places;
use crate::refusal::{Refusal, LINE_NUMBER, NO_SUCH_LINE};
use crate::states::States;

/// A line by its number, from 1, and where its keys stand in the run.
#[derive(Clone, Debug, PartialEq)]
pub struct Line {
    pub number: u64,
    pub place: Natural,
    pub length: Natural,
}

/// Looks for lines of one macro's run under one pattern.
pub struct Seeker<'a> {
    number: usize,
    walk: Walk<'a>,
    places: Places<'a>,
}

impl<'a> Seeker<'a> {
    pub fn new(book: &'a Book<'a>, states: &'a States, measured: &'a Measured, number: usize) -> Seeker<'a> {
        Seeker { number, walk: Walk::new(book, states, measured), places: Places { book, measured } }
    }

    /// How many lines match; about 2^64 stands for that and above.
    pub fn matches(&mut self) -> u128 {
        self.walk.matches(self.number).1
    }

    /// 15 if there is no such line, 16 if its number is over 2^64 - 1.
    pub fn line(&mut self, k: u64) -> Result<Line, Refusal> {
        let mut number = self.walk.ends_before(self.number, k).ok_or(NO_SUCH_LINE)?;
        number.add(&Natural::one());
        if number > Natural::of(u64::MAX) {
            return Err(LINE_NUMBER);
        }
        Ok(self.cut(number.word()))
    }

    /// The keys from behind the line end before, if there is one, to the line's own, less a CR there, or to the run's
    /// end.
    fn cut(&self, number: u64) -> Line {
        let mut place = Natural::default();
        if number > 1 {
            place = self.places.of_end(self.number, number - 1);
            place.add(&Natural::one());
        }
        let own = &self.places.measured.macros[self.number];
        let closed = Natural::of(number) <= own.ends;
        let mut length = if closed { self.places.of_end(self.number, number) } else { own.keys.clone() };
        length.subtract(&place);
        let line = Line { number, place, length };
        if closed && self.last_key(&line) == Some(CR) {
            return less_one(line);
        }
        line
    }

    fn last_key(&self, line: &Line) -> Option<u8> {
        if line.length.is_zero() {
            return None;
        }
        let mut last = line.place.clone();
        last.add(&line.length);
        last.subtract(&Natural::one());
        self.places.keys(self.number, &last, 1).first().copied()
    }

    /// The keys of a line, or the first of them.
    pub fn keys(&self, line: &Line, most: usize) -> Vec<u8> {
        let count = line.length.word().min(most as u64) as usize;
        self.places.keys(self.number, &line.place, count)
    }
}

fn less_one(mut line: Line) -> Line {
    line.length.subtract(&Natural::one());
    line
}

/// The same over a run that is written out: the line's number and its keys.
pub fn in_run<'a>(run: &'a [u8], tester: &mut Tester, k: u64) -> Result<(u64, &'a [u8]), Refusal> {
    let mut matching = lines(run).into_iter().zip(1..).filter(|(line, _)| tester.matches(line));
    let before = k.checked_sub(1).and_then(|before| usize::try_from(before).ok()).ok_or(NO_SUCH_LINE)?;
    matching.nth(before).map(|(line, number)| (number, line)).ok_or(NO_SUCH_LINE)
}
