//! Cases that show an atom's whole set.

use crate::fixed::Fixed;
use crate::letters::Letters;
use crate::line_ends::closed;

/// From a key to a key, both included.
pub type Ranges = &'static [(u8, u8)];
/// An atom, the keys it has by document 01, and those that come to it with case ignored.
pub type Named = (&'static [u8], Ranges, Ranges);

pub fn holds(ranges: Ranges, key: u8) -> bool {
    ranges.iter().any(|&(low, high)| low <= key && key <= high)
}

/// Whether an atom names a key, before a leading `^` turns its set round.
pub fn names(named: &Named, letters: Letters, key: u8) -> bool {
    let (_, apart, more) = named;
    holds(apart, key) || letters == Letters::Alike && holds(more, key)
}

/// The bracket with a leading `^`.
pub fn turned(bracket: &[u8]) -> Vec<u8> {
    [b"[^", &bracket[1..]].concat()
}

/// A pattern's last atom has so many keys of all, and as many of those that it should have: so it has these
/// and no others. `before` is what the atoms before it take.
pub fn exactly(letters: Letters, pattern: &[u8], before: &[u8], wanted: impl Fn(u8) -> bool) -> [Fixed; 2] {
    let keys: Vec<u8> = (1..=255u8).filter(|&key| key != 10).collect();
    let those: Vec<u8> = keys.iter().copied().filter(|&key| wanted(key)).collect();
    let stated = format!("lines {}", those.len());
    [keys, those].map(|keys| {
        let run: Vec<u8> = keys.iter().flat_map(|&key| closed(&[before, &[key]].concat())).collect();
        Fixed::run(letters, pattern, &run, &stated)
    })
}
