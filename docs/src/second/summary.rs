//! The second method, for runs too long to write out: what each macro does to the states of all kinds is kept
//! and put together item by item, lower macros first (they are the only ones that can be called). What a repeated
//! item does (document 02, S-8) is put together of its passes by doubling, each doubling made once.

use crate::book::{Book, Item};
use crate::kinds::{Kinds, Machine};
use crate::line_ends::LF;
use crate::report::{Report, BEGINS_WITH_LF, ENDS_IN_CR};
use crate::states::{bit, States, FOUND, LINE_START, MID_LINE};
use std::collections::BTreeMap;

/// More than any count that is answered; sums stop here so that they stay small.
const TOO_HIGH: u128 = 1 << 64;

/// What the items read so far do.
#[derive(Clone)]
pub struct Summary {
    /// From each state of each kind, until the first LF.
    rows: Vec<Kinds>,
    /// Whether an LF was met; from there on only the fields below change.
    ended: bool,
    heads: Kinds,
    closed: u128,
    tail: Kinds,
    /// The pairs of states met before the items.
    pub steps: u64,
}

/// What something does once, twice, four times and so on, as far as that was asked for.
struct Doubled {
    doublings: Vec<Summary>,
}

pub fn summaries(book: &Book, states: &States, last: usize) -> Vec<Summary> {
    let machine = Machine { states };
    let mut keys: BTreeMap<u8, Doubled> = BTreeMap::new();
    let mut done: Vec<Doubled> = Vec::new();
    for number in 0..=last {
        let mut summary = Summary::nothing(&machine);
        for (item, repeat) in book.repeated(number) {
            summary.steps += summary.pairs(&machine);
            match item {
                Item::Key(key) if repeat == 1 => summary.key(&machine, key),
                Item::Key(key) => {
                    let doubled = keys.entry(key).or_insert_with(|| Doubled::of_key(&machine, key));
                    doubled.pass(&mut summary, repeat);
                }
                Item::Call(called) => done[called].pass(&mut summary, repeat),
            }
        }
        done.push(Doubled { doublings: vec![summary] });
    }
    done.into_iter().map(|mut doubled| doubled.doublings.swap_remove(0)).collect()
}

impl Doubled {
    fn of_key(machine: &Machine, key: u8) -> Doubled {
        let mut once = Summary::nothing(machine);
        once.key(machine, key);
        Doubled { doublings: vec![once] }
    }

    /// Puts so many passes behind what a summary has; in which order their groups stand plays no part.
    fn pass(&mut self, summary: &mut Summary, passes: u16) {
        for place in (0..16).filter(|place| passes >> place & 1 == 1) {
            while self.doublings.len() <= place {
                let half = &self.doublings[self.doublings.len() - 1];
                let mut twice = half.clone();
                twice.call(half);
                self.doublings.push(twice);
            }
            summary.call(&self.doublings[place]);
        }
    }
}

impl Summary {
    fn nothing(machine: &Machine) -> Summary {
        let rows = (0..machine.size()).map(|place| 1 << place).collect();
        Summary { rows, ended: false, heads: 0, closed: 0, tail: 0, steps: 0 }
    }

    /// Of states by all keys, from every state or from line-start alone.
    fn pairs(&self, machine: &Machine) -> u64 {
        let count = |set: &Kinds| u64::from(machine.reached(*set).count_ones());
        if self.ended {
            return count(&self.tail);
        }
        self.rows[..machine.states.s].iter().map(count).sum()
    }

    fn key(&mut self, machine: &Machine, key: u8) {
        match key {
            LF => self.line_end(machine.closing(), machine.plain(bit(LINE_START))),
            _ => self.pass(|set| machine.lead(set, key)),
        }
    }

    /// Something without LF.
    fn pass<F: Fn(Kinds) -> Kinds>(&mut self, lead: F) {
        if self.ended {
            self.tail = lead(self.tail);
            return;
        }
        for row in self.rows.iter_mut() {
            *row = lead(*row);
        }
    }

    /// An LF, or something from its first line on; `good` are those from which that line is accepted.
    fn line_end(&mut self, good: Kinds, tail: Kinds) {
        if self.ended {
            self.closed += u128::from(self.tail & good != 0);
        } else {
            for (place, row) in self.rows.iter().enumerate() {
                if row & good != 0 {
                    self.heads |= 1 << place;
                }
            }
        }
        self.ended = true;
        self.tail = tail;
    }

    fn call(&mut self, called: &Summary) {
        if !called.ended {
            self.pass(|set| union(&called.rows, set));
            return;
        }
        self.line_end(called.heads, called.tail);
        self.closed = (self.closed + called.closed).min(TOO_HIGH);
    }

    /// Of a macro, so of at least one key.
    pub fn report(&self, states: &States) -> Report {
        let machine = Machine { states };
        let mut report = Report::empty(states.s as u64);
        let accepted = |set: &Kinds| machine.held(*set) & states.accepting != 0;
        let open = if self.ended { self.tail } else { self.rows[MID_LINE] };
        // Some state is always reached, so there is something before a final CR; and only an LF helps what waits.
        let ends = machine.held(open) != 0;
        let begins = self.heads & machine.before(bit(FOUND)) != 0;
        report.edges = BEGINS_WITH_LF * u64::from(begins) + ENDS_IN_CR * u64::from(ends);
        if !self.ended {
            for (state, row) in self.rows[..states.s].iter().enumerate() {
                report.rows[state] = machine.reached(*row);
                report.trimmed |= if accepted(row) { bit(state) } else { 0 };
            }
            return report;
        }
        report.trimmed = if accepted(&self.tail) { bit(LINE_START) } else { 0 };
        report.heads = machine.plain_part(self.heads);
        report.tail = machine.reached(self.tail);
        report.flag = 2;
        if let Ok(closed) = u64::try_from(self.closed) {
            report.flag = 1;
            report.closed = closed;
        }
        report
    }
}

fn union(rows: &[Kinds], set: Kinds) -> Kinds {
    let mut all = 0;
    let mut left = set;
    while left != 0 {
        all |= rows[left.trailing_zeros() as usize];
        left &= left - 1;
    }
    all
}
