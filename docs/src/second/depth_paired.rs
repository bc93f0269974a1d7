//! The figures of S-6 (document 02) without a run written out. Each closing is paired with the nearest opening
//! before it that is still free. What is left are closings that found none, and behind all of these openings that
//! wait for one. A closing that finds none is where the depth falls lower than ever before, by 1, and nothing else
//! is; so the lowest depth is 0 less these closings, and the end is that plus the openings left.

use crate::book::{Book, Item};
use crate::depth::Keys;
use crate::depth_figures::Figures;

/// What is left of a run.
#[derive(Clone, Copy, Default)]
struct Left {
    keys: i128,
    closings: i128,
    openings: i128,
}

impl Left {
    fn of_key(key: u8, keys: Keys) -> Left {
        Left { keys: 1, closings: i128::from(key == keys.closing), openings: i128::from(key == keys.opening) }
    }

    /// Closings of the run behind find the openings that still wait here, as far as there are some.
    fn and_then(self, behind: Left) -> Left {
        let paired = self.openings.min(behind.closings);
        Left {
            keys: self.keys + behind.keys,
            closings: self.closings + behind.closings - paired,
            openings: self.openings + behind.openings - paired,
        }
    }

    /// This run so many times, by halves: joining is the same however the passes are grouped.
    fn times(self, passes: u16) -> Left {
        if passes == 0 {
            return Left::default();
        }
        let half = self.times(passes / 2);
        let even = half.and_then(half);
        if passes % 2 == 0 {
            even
        } else {
            even.and_then(self)
        }
    }

    fn figures(self) -> Figures {
        Figures { length: self.keys, end: self.openings - self.closings, lowest: -self.closings }
    }
}

/// Nothing for a run longer than `longest`.
pub fn figures(book: &Book, keys: Keys, last: usize, longest: i128) -> Vec<Option<Figures>> {
    let mut all: Vec<Option<Left>> = Vec::new();
    for number in 0..=last {
        let left = of_items(book, number, keys, &all);
        all.push(left.filter(|left| left.keys <= longest));
    }
    all.into_iter().map(|left| left.map(Left::figures)).collect()
}

/// Nothing if a called macro's run is too long, since this one is no shorter. No sum passes 64 times 65,535 times
/// the longest run, 2^84, so nothing wraps.
fn of_items(book: &Book, number: usize, keys: Keys, lower: &[Option<Left>]) -> Option<Left> {
    let mut whole = Left::default();
    for (item, repeat) in book.repeated(number) {
        let once = match item {
            Item::Key(key) => Left::of_key(key, keys),
            Item::Call(called) => lower[called]?,
        };
        whole = whole.and_then(once.times(repeat));
    }
    Some(whole)
}
