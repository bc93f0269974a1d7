//! Which line is the k-th that matches, in a run too long to write out. The run is followed as one walk: where it stands
//! in its line is a set of states of all kinds (kinds.rs), reached from line-start by the keys since the last line end.
//! What a macro does from one such set, how many lines that match it closes and which set it leaves, is worked out
//! when the walk first enters the macro so, and kept.

use crate::book::{Book, Item};
use crate::kinds::{Kinds, Machine};
use crate::line_ends::LF;
use crate::measures::Measured;
use crate::natural::Natural;
use crate::states::{bit, States, LINE_START};
use std::collections::HashMap;

/// More than any line that can be asked for; sums stop here so that they stay small.
const TOO_HIGH: u128 = 1 << 64;

/// What is left of a walk.
#[derive(Clone, Copy)]
struct Passage {
    exit: Kinds,
    /// Lines closed in it that match.
    matches: u128,
}

pub struct Walk<'a> {
    book: &'a Book<'a>,
    machine: Machine<'a>,
    measured: &'a Measured,
    /// For each macro what it does from the sets in which it was entered.
    known: Vec<HashMap<Kinds, Passage>>,
}

impl<'a> Walk<'a> {
    pub fn new(book: &'a Book<'a>, states: &'a States, measured: &'a Measured) -> Walk<'a> {
        let known = vec![HashMap::new(); measured.macros.len()];
        Walk { book, machine: Machine { states }, measured, known }
    }

    fn start(&self) -> Kinds {
        self.machine.plain(bit(LINE_START))
    }

    /// How many lines of a macro's run are closed and match, and how many there are that match.
    pub fn matches(&mut self, number: usize) -> (u128, u128) {
        let start = self.start();
        let whole = self.call(number, start);
        // Every key leaves line-start, so an open line has another set.
        let open = whole.exit != start && self.machine.states.accepts(self.machine.reached(whole.exit));
        (whole.matches, whole.matches + u128::from(open))
    }

    /// How many line ends stand before the k-th matching line of a macro's run; nothing if there is no such line.
    pub fn ends_before(&mut self, number: usize, k: u64) -> Option<Natural> {
        let (closed, all) = self.matches(number);
        match u128::from(k) {
            0 => None,
            k if k <= closed => Some(self.closed_line(number, k)),
            k if k <= all => Some(self.measured.macros[number].ends.clone()),
            _ => None,
        }
    }

    /// One that a line end closes, and that is there: goes down into the item that has the end.
    fn closed_line(&mut self, number: usize, k: u128) -> Natural {
        let (mut ends, mut entry, mut left) = (Natural::default(), self.start(), k);
        let mut inside = Item::Call(number);
        while let Item::Call(number) = inside {
            for (item, repeat) in self.book.repeated(number) {
                let all = self.passes(item, repeat, entry);
                if left <= all.matches {
                    inside = item;
                    break;
                }
                left -= all.matches;
                ends.add_times(&self.measured.item(item).ends, repeat);
                entry = all.exit;
            }
            let skipped = self.skip(inside, &mut entry, &mut left);
            ends.add_times(&self.measured.item(inside).ends, skipped);
        }
        ends
    }

    /// Goes over those passes of an item that stand before the line, and tells how many they are. The item has a line
    /// end, so that from the second pass on all are entered alike.
    fn skip(&mut self, item: Item, entry: &mut Kinds, left: &mut u128) -> u16 {
        let first = self.once(item, *entry);
        if *left <= first.matches {
            return 0;
        }
        *left -= first.matches;
        *entry = first.exit;
        let next = self.once(item, *entry).matches;
        let more = (*left - 1) / next;
        *left -= more * next;
        1 + more as u16
    }

    fn call(&mut self, number: usize, entry: Kinds) -> Passage {
        if let Some(known) = self.known[number].get(&entry) {
            return *known;
        }
        let mut passage = Passage { exit: entry, matches: 0 };
        for (item, repeat) in self.book.repeated(number) {
            let next = self.passes(item, repeat, passage.exit);
            passage = Passage { exit: next.exit, matches: (passage.matches + next.matches).min(TOO_HIGH) };
        }
        self.known[number].insert(entry, passage);
        passage
    }

    fn once(&mut self, item: Item, entry: Kinds) -> Passage {
        match item {
            Item::Key(LF) => {
                let matches = u128::from(entry & self.machine.closing() != 0);
                Passage { exit: self.start(), matches }
            }
            Item::Key(key) => Passage { exit: self.machine.lead(entry, key), matches: 0 },
            Item::Call(called) => self.call(called, entry),
        }
    }

    /// All passes of an item. What stands behind a line end does not depend on what stands before it.
    fn passes(&mut self, item: Item, repeat: u16, entry: Kinds) -> Passage {
        if self.measured.item(item).ends.is_zero() {
            return Passage { exit: self.turned(item, repeat, entry), matches: 0 };
        }
        let first = self.once(item, entry);
        if repeat == 1 {
            return first;
        }
        let next = self.once(item, first.exit);
        let matches = first.matches + u128::from(repeat - 1) * next.matches;
        Passage { exit: first.exit, matches: matches.min(TOO_HIGH) }
    }

    /// The set behind passes without a line end. There are finitely many sets, so they come round again in the end.
    fn turned(&mut self, item: Item, repeat: u16, entry: Kinds) -> Kinds {
        let repeat = usize::from(repeat);
        let (mut met, mut places) = (vec![entry], HashMap::from([(entry, 0)]));
        while met.len() <= repeat {
            let next = self.once(item, met[met.len() - 1]).exit;
            if let Some(&place) = places.get(&next) {
                let round = met.len() - place;
                return met[place + (repeat - place) % round];
            }
            places.insert(next, met.len());
            met.push(next);
        }
        met[repeat]
    }
}
