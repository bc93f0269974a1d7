//! Seeded reports that keep the rules of document 02, S-7: nothing at s and above, nothing in fields that the flag
//! empties, and S-4's words 0.

use crate::report::Report;
use crate::rng::Rng;
use crate::states::bit;
use crate::triple::unit;

pub fn report(rng: &mut Rng, s: u64, flag: u64, closed: u64) -> Report {
    if flag == 0 {
        return open(rng, s);
    }
    let closed = if flag == 1 { closed } else { 0 };
    Report { flag, heads: set(rng, s), closed, tail: set(rng, s), ..Report::empty(s) }
}

fn full(s: u64) -> u64 {
    (1 << s) - 1
}

/// Often of one state, since then the sets of two reports meet about as often as they do not.
pub fn set(rng: &mut Rng, s: u64) -> u64 {
    let one = bit(rng.below(s as usize));
    match rng.below(12) {
        0 => 0,
        1 => full(s),
        2 => bit(s as usize - 1),
        3 => 1,
        4..=6 => one,
        7 => full(s) & !one,
        8..=9 => dense(rng, s),
        _ => sparse(rng, s),
    }
}

fn dense(rng: &mut Rng, s: u64) -> u64 {
    rng.next() & full(s)
}

fn sparse(rng: &mut Rng, s: u64) -> u64 {
    rng.next() & rng.next() & rng.next() & full(s)
}

/// How the rows of a report are made.
#[derive(Clone, Copy)]
enum Rows {
    Empty,
    Full,
    Same,
    Dense,
    Sparse,
    Any,
    /// Each state in one row.
    Permuted,
    /// One state in each row.
    Function,
    /// All lead to the last state, or only that one leads anywhere.
    Last,
    /// Row 0 has state 0, as the empty run's has it, and something else is not as there.
    NearlySame,
    LooksEmpty,
    OnlyLineStart,
}

const STYLES: [Rows; 16] = [
    Rows::Empty,
    Rows::Full,
    Rows::Same,
    Rows::Dense,
    Rows::Sparse,
    Rows::Sparse,
    Rows::Any,
    Rows::Permuted,
    Rows::Permuted,
    Rows::Function,
    Rows::Function,
    Rows::Last,
    Rows::NearlySame,
    Rows::LooksEmpty,
    Rows::LooksEmpty,
    Rows::OnlyLineStart,
];

fn open(rng: &mut Rng, s: u64) -> Report {
    let style = rng.pick(&STYLES);
    let mut report = unit(s);
    let rows = &mut report.rows[..s as usize];
    match style {
        Rows::Same => {}
        Rows::Permuted => permute(rng, rows),
        Rows::Last if rng.chance(50) => {
            rows.fill(0);
            rows[s as usize - 1] = set(rng, s);
        }
        Rows::NearlySame => rows[rng.between(1, s as usize - 1)] = set(rng, s),
        Rows::OnlyLineStart => rows[1..].fill(0),
        _ => rows.iter_mut().for_each(|row| *row = of_style(rng, s, style)),
    }
    if matches!(style, Rows::LooksEmpty) {
        rows[0] |= 1;
    }
    report
}

fn permute(rng: &mut Rng, rows: &mut [u64]) {
    for place in (1..rows.len()).rev() {
        rows.swap(place, rng.below(place + 1));
    }
}

/// A row that does not depend on the others.
fn of_style(rng: &mut Rng, s: u64, style: Rows) -> u64 {
    match style {
        Rows::Full => full(s),
        Rows::Dense => dense(rng, s),
        Rows::Sparse | Rows::LooksEmpty => sparse(rng, s),
        Rows::Any => set(rng, s),
        Rows::Function => bit(rng.below(s as usize)),
        Rows::Last => bit(s as usize - 1),
        _ => 0,
    }
}
