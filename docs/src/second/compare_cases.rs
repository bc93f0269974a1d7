//! Streams of cases through the program that answers them.

use crate::answer::answer;
use crate::batch::{difference, Batch};
use crate::fixed;
use crate::make;
use crate::make_large::large_cases;
use crate::make_share::with_share;
use crate::tally::Tally;

pub fn compare(program: &str, seed: u64, count: u64) -> Result<Tally, String> {
    let mut batch = Batch::new(program);
    for fixed in fixed::all() {
        let own = answer(&fixed.case);
        if !fixed.agrees(&own) {
            return Err(difference(&fixed.case, &own, &format!("stated: {}", fixed.stated)));
        }
        batch.add(fixed.case, own)?;
    }
    batch.send()?;
    for case in large_cases(seed).into_iter().chain(make::cases(seed, with_share(count))) {
        batch.ask(case)?;
    }
    batch.finish()
}
