//! Seeded triples of the reports of long runs, with S-4's words (document 02, S-7): their closed lines come near
//! 2^64 - 1 and pass it.

use crate::make_book::keys;
use crate::make_deep::deep;
use crate::make_question::{some_letters, sound_question};
use crate::rng::Rng;
use crate::triple::Triple;
use crate::triple_runs::of_macros;

/// Of so many macros below the last one the longest runs are taken.
const HIGH: usize = 8;

pub fn long_runs(rng: &mut Rng) -> Triple {
    let letters = some_letters(rng);
    let (question, _) = sound_question(rng, letters);
    let mut macros = deep(rng, &question);
    let lone = macros.len();
    macros.extend([&b"\r"[..], b"\n", b"\r\n"].map(keys));
    let mut parts = [0; 3].map(|_| part(rng, lone));
    if parts == [None; 3] {
        parts[1] = Some(lone - 1);
    }
    of_macros("seeded long runs", &question, &macros, parts)
}

/// A long run, any, hardly more than a line end, or none.
fn part(rng: &mut Rng, lone: usize) -> Option<usize> {
    match rng.below(10) {
        0..=4 => Some(lone - 1 - rng.below(HIGH.min(lone))),
        5..=6 => Some(rng.below(lone)),
        7..=8 => Some(lone + rng.below(3)),
        _ => None,
    }
}
