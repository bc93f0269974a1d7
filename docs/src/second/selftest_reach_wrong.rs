//! Orders of reach lists that are wrong, and easily taken for the right one (document 02, S-5). Each has the same
//! numbers; seeded books must tell them from it.

use crate::book::{item, Book, Item};
use crate::reach::{places, reached};
use std::collections::VecDeque;

/// What it is called, and the list.
pub type Wrong = (&'static str, fn(&Book, usize) -> Vec<u16>);

pub const WRONG: [Wrong; 9] = [
    ("rising", rising),
    ("falling", falling),
    ("nearest first", nearest_first),
    ("last call first", last_call_first),
    ("inner one first", inner_first),
    ("callers first", callers_first),
    ("known when called", known_when_called),
    ("last entry", last_entry),
    ("inner one first at the same key", inner_first_at_a_key),
];

fn calls(book: &Book, number: usize) -> Vec<usize> {
    let called = |&written: &u16| match item(written) {
        Item::Key(_) => None,
        Item::Call(called) => Some(called),
    };
    book.items(number).iter().filter_map(called).collect()
}

fn rising(book: &Book, number: usize) -> Vec<u16> {
    let mut list = reached(book, number);
    list.sort_unstable();
    list
}

fn falling(book: &Book, number: usize) -> Vec<u16> {
    let mut list = rising(book, number);
    list.reverse();
    list
}

/// First those called directly, then those that these call.
fn nearest_first(book: &Book, number: usize) -> Vec<u16> {
    let mut list: Vec<u16> = Vec::new();
    let mut waiting = VecDeque::from([number]);
    while let Some(next) = waiting.pop_front() {
        if !list.contains(&(next as u16)) {
            list.push(next as u16);
            waiting.extend(calls(book, next));
        }
    }
    list
}

/// A stack to which the calls go in their order, so that the last one is taken first.
fn last_call_first(book: &Book, number: usize) -> Vec<u16> {
    let mut list: Vec<u16> = Vec::new();
    let mut waiting = vec![number];
    while let Some(next) = waiting.pop() {
        if !list.contains(&(next as u16)) {
            list.push(next as u16);
            waiting.extend(calls(book, next));
        }
    }
    list
}

/// A macro when the run leaves it for the first time.
fn left_first(book: &Book, number: usize, list: &mut Vec<u16>) {
    for called in calls(book, number) {
        if !list.contains(&(called as u16)) {
            left_first(book, called, list);
        }
    }
    list.push(number as u16);
}

/// The named macro is still at the front.
fn inner_first(book: &Book, number: usize) -> Vec<u16> {
    let mut list = Vec::new();
    left_first(book, number, &mut list);
    list.rotate_right(1);
    list
}

/// Every macro behind all that call it.
fn callers_first(book: &Book, number: usize) -> Vec<u16> {
    let mut list = Vec::new();
    left_first(book, number, &mut list);
    list.reverse();
    list
}

/// A stack as it should be, but a macro is known from when it is put there, so that a later call which is
/// entered sooner is left out.
fn known_when_called(book: &Book, number: usize) -> Vec<u16> {
    let mut known = vec![false; number + 1];
    let mut list: Vec<u16> = Vec::new();
    let mut waiting = vec![number];
    while let Some(next) = waiting.pop() {
        list.push(next as u16);
        let mut fresh = calls(book, next);
        fresh.retain(|&called| !std::mem::replace(&mut known[called], true));
        waiting.extend(fresh.into_iter().rev());
    }
    list
}

/// A macro where the run enters it for the last time.
fn last_entry(book: &Book, number: usize) -> Vec<u16> {
    let mut lists: Vec<Vec<u16>> = Vec::new();
    for each in 0..=number {
        let inside: Vec<u16> =
            calls(book, each).into_iter().flat_map(|called| lists[called].clone()).collect();
        let mut seen = vec![false; each + 1];
        let mut list: Vec<u16> = inside.into_iter().rev().collect();
        list.retain(|&one| !std::mem::replace(&mut seen[usize::from(one)], true));
        list.push(each as u16);
        list.reverse();
        lists.push(list);
    }
    lists.swap_remove(number)
}

/// The named macro is still at the front.
fn inner_first_at_a_key(book: &Book, number: usize) -> Vec<u16> {
    let places = places(book, number);
    let mut list = reached(book, number);
    let place = |each: &u16| &places[usize::from(*each)];
    list[1..].sort_by(|one, other| place(one).cmp(place(other)).then(one.cmp(other)));
    list
}
