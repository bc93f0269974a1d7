//! Regroupings of books through the program that answers cases.

use crate::answer::answer;
use crate::batch::{difference, Batch};
use crate::fixed_regroup;
use crate::fixed_regroup_refused;
use crate::fixed_regroup_repeated;
use crate::group;
use crate::make_regroup;
use crate::tally::Tally;

/// One seeded regrouping for so many seeded cases, and one that breaks a condition for so many regroupings.
const SHARE: u64 = 20;
const REFUSED_SHARE: u64 = 3;

/// The fixed ones and half of the seeded ones; the other half are those of version 2 books.
pub fn compare(program: &str, seed: u64, count: u64) -> Result<Tally, String> {
    let all = count / SHARE;
    let seeded = make_regroup::regroupings(seed, all - all / 2);
    group::compare(program, fixed_regroup::regroupings().into_iter().chain(seeded))
}

pub fn compare_repeated(program: &str, seed: u64, count: u64) -> Result<Tally, String> {
    let seeded = make_regroup::repeated_ones(seed, count / SHARE / 2);
    group::compare(program, fixed_regroup_repeated::regroupings().into_iter().chain(seeded))
}

/// Those that break a condition: the new book alone, with the refusal stated.
pub fn compare_refused(program: &str, seed: u64, count: u64) -> Result<Tally, String> {
    let mut batch = Batch::new(program);
    let seeded = make_regroup::refused_ones(seed, count / SHARE / REFUSED_SHARE);
    for fixed in fixed_regroup_refused::refused_ones().into_iter().chain(seeded) {
        let own = answer(&fixed.case);
        if !fixed.agrees(&own) {
            return Err(difference(&fixed.case, &own, &format!("stated: {}", fixed.stated)));
        }
        batch.add(fixed.case, own)?;
    }
    batch.finish()
}
