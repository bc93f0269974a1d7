//! Macro numbers, and numbers of lines, as they stand among the command's arguments.

use crate::rng::Rng;

/// Stands for every number that is too long to be a macro's.
const NO_MACRO: usize = 999_999_999;

/// The digits without leading zeros; nothing if the text is not decimal digits.
fn digits(text: &str) -> Option<&str> {
    let decimal = !text.is_empty() && text.bytes().all(|byte| byte.is_ascii_digit());
    decimal.then(|| text.trim_start_matches('0'))
}

/// A number of lines: digits, up to 2^64 - 1.
pub fn decimal(text: &str) -> Option<u64> {
    let sum = digits(text)?.bytes().try_fold(0u128, |sum, digit| {
        let sum = 10 * sum + u128::from(digit - b'0');
        (sum <= u128::from(u64::MAX)).then_some(sum)
    });
    sum.map(|sum| sum as u64)
}

/// The number of a macro; nothing if the text is not decimal digits.
pub fn number(text: &str) -> Option<usize> {
    let digits = digits(text)?;
    if digits.len() > 8 {
        return Some(NO_MACRO);
    }
    Some(digits.bytes().fold(0, |sum, digit| 10 * sum + usize::from(digit - b'0')))
}

/// None, a macro of the book, one just beyond, or a number of many digits.
pub fn seeded(rng: &mut Rng, count: usize) -> Option<String> {
    match rng.below(10) {
        0..=3 => None,
        4..=7 => Some(rng.below(count).to_string()),
        8 => Some((count + rng.below(3)).to_string()),
        _ => Some(format!("{}{:020}", rng.between(1, 9), rng.next())),
    }
}
