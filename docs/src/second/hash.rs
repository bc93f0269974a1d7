//! The hash in which answers show words, bytes and entries.

/// Begins with 7; each word is added to 31 times the number so far, modulo 2^64.
pub fn hash<I: Iterator<Item = u64>>(words: I) -> u64 {
    words.fold(7, |sum, word| sum.wrapping_mul(31).wrapping_add(word))
}
