//! The figures of S-6 (document 02) for macros 0 to m: from the run written out where that can be done, and by
//! pairing closings with openings for every macro. Where there are both, they must be the same.

use crate::book::Book;
use crate::count::within;
use crate::depth::Keys;
use crate::depth_paired;
use crate::written::{self, Runs};

/// "Longer than 2^62 keys" is too long.
pub const LONGEST: i128 = 1 << 62;
/// So many keys are written out for one answer at most.
const LIMIT: u64 = 200_000;

#[derive(Clone, Copy, Debug, PartialEq)]
pub struct Figures {
    pub length: i128,
    pub end: i128,
    pub lowest: i128,
}

/// Nothing for a macro whose run is too long.
pub fn figures(book: &Book, keys: Keys, last: usize) -> Vec<Option<Figures>> {
    figures_within(book, keys, last, LIMIT, LONGEST)
}

/// The same with other limits, for the self test: so many keys are written out, and so long may a run be.
pub fn figures_within(
    book: &Book,
    keys: Keys,
    last: usize,
    limit: u64,
    longest: i128,
) -> Vec<Option<Figures>> {
    let all = depth_paired::figures(book, keys, last, longest);
    let mut runs = Runs::of(book);
    for (number, chosen) in within(&written::lengths(book, last), limit).into_iter().enumerate() {
        if chosen {
            let own = Some(of_run(runs.keep(number), keys)).filter(|own| own.length <= longest);
            assert_eq!(own, all[number], "run and pairs differ: the second program is wrong");
        }
    }
    all
}

/// By the words of S-6: openings less closings, and the lowest of that at the start and behind each key.
pub fn of_run(run: &[u8], keys: Keys) -> Figures {
    let mut depth = 0;
    let mut lowest = depth;
    for &key in run {
        if key == keys.opening {
            depth += 1;
        }
        if key == keys.closing {
            depth -= 1;
        }
        lowest = lowest.min(depth);
    }
    Figures { length: run.len() as i128, end: depth, lowest }
}
