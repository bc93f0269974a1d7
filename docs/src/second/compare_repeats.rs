//! Books of version 2 through the program that answers cases (document 02, S-8).

use crate::answer::answer;
use crate::batch::{difference, Batch};
use crate::fixed::{self, Fixed};
use crate::fixed_forms;
use crate::fixed_repeats_large::largest;
use crate::forms::Forms;
use crate::group;
use crate::make_forms;
use crate::make_repeats;
use crate::make_repeats_large;
use crate::tally::Tally;

/// One seeded case about repeat counts for so many seeded cases, and one book in its forms.
const SHARE: u64 = 3;
const FORMS_SHARE: u64 = 60;

pub fn compare(program: &str, seed: u64, count: u64) -> Result<Tally, String> {
    let mut batch = Batch::new(program);
    for fixed in fixed::of_repeats() {
        add(&mut batch, fixed)?;
    }
    batch.send()?;
    for case in make_repeats::cases(seed, count / SHARE) {
        batch.ask(case)?;
    }
    batch.finish()
}

/// Each in a stream of its own.
pub fn compare_largest(program: &str, seed: u64) -> Result<Tally, String> {
    let mut batch = Batch::new(program);
    for fixed in largest() {
        add(&mut batch, fixed)?;
        batch.send()?;
    }
    for case in make_repeats_large::cases(seed) {
        batch.ask(case)?;
        batch.send()?;
    }
    batch.finish()
}

/// The statement must be met before the case is asked.
pub fn add(batch: &mut Batch, fixed: Fixed) -> Result<(), String> {
    let own = answer(&fixed.case);
    if !fixed.agrees(&own) {
        return Err(difference(&fixed.case, &own, &format!("stated: {}", fixed.stated)));
    }
    batch.add(fixed.case, own)
}

pub fn compare_forms(program: &str, seed: u64, count: u64) -> Result<Tally, String> {
    group::compare(program, forms(seed, count / FORMS_SHARE))
}

/// The fixed ones, and behind them so many seeded ones.
pub fn forms(seed: u64, count: u64) -> impl Iterator<Item = Forms> {
    fixed_forms::all().into_iter().chain(make_forms::forms(seed, count))
}
