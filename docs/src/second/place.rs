//! Where line ends and keys stand in a macro's run, told from the macros' measures. A place is how many keys stand
//! before it, exactly.

use crate::book::{Book, Item};
use crate::measures::Measured;
use crate::natural::Natural;

pub struct Places<'a> {
    pub book: &'a Book<'a>,
    pub measured: &'a Measured,
}

impl Places<'_> {
    /// The place of a line end by its number, from 1. There is one of that number.
    pub fn of_end(&self, number: usize, end: u64) -> Natural {
        let (mut place, mut left) = (Natural::default(), u128::from(end));
        let mut inside = Item::Call(number);
        while let Item::Call(number) = inside {
            for (item, repeat) in self.book.repeated(number) {
                // No end beyond 2^64 - 1 is asked for, so it does not matter how many there are.
                let (once, repeat) = (u128::from(self.measured.item(item).ends.word()), u128::from(repeat));
                let passes = if once * repeat < left { repeat } else { (left - 1) / once };
                left -= passes * once;
                place.add_times(&self.measured.item(item).keys, passes as u16);
                if passes < repeat {
                    inside = item;
                    break;
                }
            }
        }
        place
    }

    /// So many keys from a place on; as many as there are, if there are fewer.
    pub fn keys(&self, number: usize, place: &Natural, count: usize) -> Vec<u8> {
        let mut keys = Vec::new();
        self.copy(number, &mut place.clone(), count, &mut keys);
        keys
    }

    /// `skip` keys are still to be left out.
    fn copy(&self, number: usize, skip: &mut Natural, count: usize, keys: &mut Vec<u8>) {
        for (item, repeat) in self.book.repeated(number) {
            for _ in whole_passes(skip, &self.measured.item(item).keys, repeat)..repeat {
                if keys.len() == count {
                    return;
                }
                match item {
                    Item::Key(key) => keys.push(key),
                    Item::Call(called) => self.copy(called, skip, count, keys),
                }
            }
        }
    }
}

/// Takes as many passes from the keys left out as fit, at most `most`, and tells how many.
fn whole_passes(skip: &mut Natural, once: &Natural, most: u16) -> u16 {
    let mut taken = 0;
    for part in (0..16).rev().map(|place| 1u16 << place) {
        if part > most - taken || &*skip < once {
            continue;
        }
        let mut keys = Natural::default();
        keys.add_times(once, part);
        if keys <= *skip {
            skip.subtract(&keys);
            taken += part;
        }
    }
    taken
}
