//! Lines that are sought, through the program that answers cases (document 02, S-3).

use crate::batch::Batch;
use crate::compare_repeats::add;
use crate::fixed;
use crate::make_find;
use crate::tally::Tally;

/// One seeded case of this kind for so many seeded cases.
const SHARE: u64 = 3;

pub fn compare(program: &str, seed: u64, count: u64) -> Result<Tally, String> {
    let mut batch = Batch::new(program);
    for fixed in fixed::of_finds() {
        add(&mut batch, fixed)?;
    }
    batch.send()?;
    for case in make_find::cases(seed, count / SHARE) {
        batch.ask(case)?;
    }
    batch.finish()
}

/// The largest books of both versions, each case in a stream of its own.
pub fn compare_largest(program: &str, seed: u64) -> Result<Tally, String> {
    let mut batch = Batch::new(program);
    for case in make_find::large_cases(seed) {
        batch.ask(case)?;
        batch.send()?;
    }
    batch.finish()
}
