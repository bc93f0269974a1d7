//! Triples of reports through the program that answers cases.

use crate::fixed_triple;
use crate::group;
use crate::make_triple;
use crate::tally::Tally;
use crate::triple::Triple;

/// As many seeded triples as seeded cases.
pub fn compare(program: &str, seed: u64, count: u64) -> Result<Tally, String> {
    group::compare(program, triples(seed, count))
}

/// The fixed ones, and behind them the seeded ones.
pub fn triples(seed: u64, count: u64) -> impl Iterator<Item = Triple> {
    fixed_triple::triples().into_iter().chain(make_triple::triples(seed, count))
}
