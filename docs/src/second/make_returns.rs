//! Line ends of all kinds, and CR and LF where they can meet across a cut, for seeded runs, books and reports, and
//! patterns that tell them apart (document 02, S-4).

use crate::line_ends::{CR, LF};
use crate::rng::Rng;

/// How the lines of one run are closed.
#[derive(Clone, Copy)]
pub enum Style {
    Lf,
    CrLf,
    Mixed,
}

const MIXED: [&[u8]; 6] = [b"\n", b"\n", b"\r\n", b"\r\n", b"\r\r\n", b"\n\r"];
/// Runs and macros of hardly more than a line end.
const LONE: [&[u8]; 8] = [b"\n", b"\n", b"\n", b"\r", b"\r", b"\r\n", b"\n\r", b"\r\r\n"];
/// A branch that tells whether a CR belongs to its line, in three parts.
const FRONTS: [&str; 4] = ["", "", "^", "^.*"];
const CORES: [&str; 8] = ["", "a", "b", "[ab]+", "a*b", "(a|b)c?", "Ab", "[^c]"];
const BACKS: [&str; 12] =
    ["$", "$", "$", "$", "\r$", "\r", "\r?$", ".$", "[[:space:]]$", "[[:cntrl:]]+$", "[^a]$", "(\r|b)*$"];

/// A sound pattern of one or two such branches.
pub fn pattern(rng: &mut Rng) -> Vec<u8> {
    let mut text = branch(rng);
    if rng.chance(25) {
        text = format!("{text}|{}", branch(rng));
    }
    text.into_bytes()
}

fn branch(rng: &mut Rng) -> String {
    [rng.pick(&FRONTS), rng.pick(&CORES), rng.pick(&BACKS)].concat()
}

pub fn style(rng: &mut Rng) -> Style {
    rng.pick(&[Style::Lf, Style::Lf, Style::CrLf, Style::CrLf, Style::Mixed])
}

pub fn end(rng: &mut Rng, style: Style) -> &'static [u8] {
    match style {
        Style::Lf => b"\n",
        Style::CrLf => b"\r\n",
        Style::Mixed => rng.pick(&MIXED),
    }
}

pub fn any_end(rng: &mut Rng) -> &'static [u8] {
    let style = style(rng);
    end(rng, style)
}

pub fn lone(rng: &mut Rng) -> &'static [u8] {
    rng.pick(&LONE)
}

/// Sometimes a CR more at the end, an LF more at the front, or a CR somewhere.
pub fn stray(rng: &mut Rng, run: &mut Vec<u8>) {
    match rng.below(12) {
        0 | 1 => run.push(CR),
        2 => run.insert(0, LF),
        3 => run.insert(rng.below(run.len() + 1), CR),
        _ => {}
    }
}

/// Of a run's first keys, how many go to the first piece: often those up to a CR that stands before an LF.
pub fn cut(rng: &mut Rng, run: &[u8], most: usize) -> usize {
    let most = most.min(run.len());
    let between = run.windows(2).take(most).position(|two| two == [CR, LF]);
    match between {
        Some(place) if rng.chance(50) => place + 1,
        _ => rng.between(1, most),
    }
}
