//! What a macro's run tells without a pattern (PROTOCOL.md, "The line"): how many line ends and how many keys it has,
//! and how many keys stand before the first line end and behind the last. All are exact, however great.

use crate::book::{Book, Item};
use crate::line_ends::LF;
use crate::natural::Natural;

/// So many work words a macro has for these, behind all reports.
pub const MEASURE_WORDS: usize = 4;

#[derive(Clone, Debug, Default, PartialEq)]
pub struct Measures {
    pub ends: Natural,
    /// Keys before the first line end; all keys if there is none.
    pub front: Natural,
    /// Keys behind the last line end; all keys if there is none.
    pub back: Natural,
    /// Line ends included.
    pub keys: Natural,
}

/// The measures of macros 0 to m, and those of a key and of a line end.
pub struct Measured {
    pub macros: Vec<Measures>,
    key: Measures,
    end: Measures,
}

impl Measures {
    fn of_key(key: u8) -> Measures {
        let (one, none) = (Natural::one(), Natural::default());
        match key {
            LF => Measures { ends: one.clone(), front: none.clone(), back: none, keys: one },
            _ => Measures { ends: none, front: one.clone(), back: one.clone(), keys: one },
        }
    }

    /// Puts something behind, so many times. Until the first line end all keys are at the front and at the back.
    fn append(&mut self, once: &Measures, times: u16) {
        let ended = !self.ends.is_zero();
        if once.ends.is_zero() {
            if !ended {
                self.front.add_times(&once.keys, times);
            }
            self.back.add_times(&once.keys, times);
        } else {
            if !ended {
                self.front.add(&once.front);
            }
            self.back = once.back.clone();
        }
        self.ends.add_times(&once.ends, times);
        self.keys.add_times(&once.keys, times);
    }

    /// As they stand in the work space, each the smaller of its number and 2^64 - 1.
    pub fn words(&self) -> [u64; MEASURE_WORDS] {
        [&self.ends, &self.front, &self.back, &self.keys].map(Natural::word)
    }
}

impl Measured {
    pub fn of(book: &Book, last: usize) -> Measured {
        let (key, end) = (Measures::of_key(b'a'), Measures::of_key(LF));
        let mut measured = Measured { macros: Vec::new(), key, end };
        for number in 0..=last {
            let mut own = Measures::default();
            for (item, repeat) in book.repeated(number) {
                own.append(measured.item(item), repeat);
            }
            measured.macros.push(own);
        }
        measured
    }

    /// Of one pass of an item.
    pub fn item(&self, item: Item) -> &Measures {
        match item {
            Item::Key(LF) => &self.end,
            Item::Key(_) => &self.key,
            Item::Call(called) => &self.macros[called],
        }
    }
}
