//! Regroupings that are wrong, and easily taken for the right one (document 02, S-7).

use crate::book::FIRST_CALL;
use crate::make_book::{call, Macros};
use crate::regroup::{regrouped, Cut};

/// What it is called, and the new book.
pub type Wrong = (&'static str, fn(&[Vec<u16>], &Cut) -> Macros);

pub const WRONG: [Wrong; 12] = [
    ("calls not raised", |macros, cut| raising(macros, cut, |_, _| false)),
    ("calls of macro j not raised", |macros, cut| raising(macros, cut, |_, item| item > call(cut.into))),
    ("calls raised in macro m alone", |macros, cut| {
        raising(macros, cut, |number, item| number == cut.number + 1 && item >= call(cut.into))
    }),
    ("calls not raised in macro m", |macros, cut| {
        raising(macros, cut, |number, item| number != cut.number + 1 && item >= call(cut.into))
    }),
    ("all calls raised", |macros, cut| raising(macros, cut, |_, item| item >= FIRST_CALL)),
    ("a call of the macro above", |macros, cut| put(macros, cut, |_, _, _| vec![call(cut.into + 1)])),
    ("a call of the macro below", |macros, cut| {
        put(macros, cut, |_, _, _| vec![call(cut.into.saturating_sub(1))])
    }),
    ("X lost", |macros, cut| around(macros, cut, |_, behind| (vec![], behind))),
    ("Z lost", |macros, cut| around(macros, cut, |before, _| (before, vec![]))),
    ("X and Z in each other's place", |macros, cut| around(macros, cut, |before, behind| (behind, before))),
    ("Y left behind the call", |macros, cut| put(macros, cut, |own, middle, _| [&[own], middle].concat())),
    ("Y turned round", turned),
];

/// The right macros, with calls that are raised where this says so, of the new numbers of the macros they stand in.
fn raising(macros: &[Vec<u16>], cut: &Cut, raise: impl Fn(usize, u16) -> bool) -> Macros {
    let mut new = regrouped(macros, cut);
    let own = call(cut.into);
    for (number, items) in new.iter_mut().enumerate() {
        let new_call = (number == cut.number + 1).then_some(cut.from);
        for (_, item) in items.iter_mut().enumerate().filter(|(place, _)| Some(*place) != new_call) {
            let old = *item - u16::from(*item > own);
            *item = old + u16::from(raise(number, old));
        }
    }
    new
}

type Parts = (Vec<u16>, Vec<u16>);

fn around(macros: &[Vec<u16>], cut: &Cut, change: fn(Vec<u16>, Vec<u16>) -> Parts) -> Macros {
    let mut new = regrouped(macros, cut);
    let items = &new[cut.number + 1];
    let (before, behind) = change(items[..cut.from].to_vec(), items[cut.from + 1..].to_vec());
    new[cut.number + 1] = [before, vec![call(cut.into)], behind].concat();
    new
}

/// Something else in the place of the call, of the call, Y and what stands behind.
fn put(macros: &[Vec<u16>], cut: &Cut, put: impl Fn(u16, &[u16], &[u16]) -> Vec<u16>) -> Macros {
    let mut new = regrouped(macros, cut);
    let items = &new[cut.number + 1];
    let (before, behind) = (&items[..cut.from], &items[cut.from + 1..]);
    let middle = put(call(cut.into), &new[cut.into], behind);
    new[cut.number + 1] = [before, &middle, behind].concat();
    new
}

fn turned(macros: &[Vec<u16>], cut: &Cut) -> Macros {
    let mut new = regrouped(macros, cut);
    new[cut.into].reverse();
    new
}
