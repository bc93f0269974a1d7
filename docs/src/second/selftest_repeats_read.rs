//! A second reading of books of both versions, which tells only the first fault, and readings that are wrong and easily
//! taken for the right one (document 02, S-8).

use crate::refusal::*;

/// How an item of four bytes is read.
#[derive(Clone, Copy, PartialEq)]
pub enum Rule {
    Right,
    /// 20 before 6, before 5 and 6, or before 4.
    NoRepeatBeforeCall,
    NoRepeatBeforeBoth,
    NoRepeatBeforeMissing,
    /// The item alone is looked at before its repeat count is missed.
    FaultsBeforeMissing,
    /// A missing high byte is 0.
    ThreeBytes,
    /// A repeat count of 0 is taken.
    AnyRepeat,
    /// Behind the last macro anything may stand.
    MoreBehind,
    /// Versions above 2, too, or those with a low byte 2.
    AnyVersion,
    LowByte,
    /// Only version 1 is known.
    Plain,
    /// Items of two bytes in both versions.
    TwoBytes,
    /// Up to 128 items, since a repeated one fills two places.
    ManyItems,
}

pub const WRONG: [(&str, Rule); 12] = [
    ("20 before 6", Rule::NoRepeatBeforeCall),
    ("20 before 5 and 6", Rule::NoRepeatBeforeBoth),
    ("20 before 4", Rule::NoRepeatBeforeMissing),
    ("5 and 6 before missing bytes", Rule::FaultsBeforeMissing),
    ("three bytes read as an item", Rule::ThreeBytes),
    ("a repeat count of 0 let through", Rule::AnyRepeat),
    ("bytes left over let through", Rule::MoreBehind),
    ("version 3 let through", Rule::AnyVersion),
    ("versions cut to one byte", Rule::LowByte),
    ("version 2 refused", Rule::Plain),
    ("items of two bytes", Rule::TwoBytes),
    ("128 items let through", Rule::ManyItems),
];

/// A number of two bytes at the front, and what stands behind it.
fn number(bytes: &[u8]) -> Option<(u16, &[u8])> {
    let (front, behind) = bytes.split_at_checked(2)?;
    Some((u16::from_le_bytes([front[0], front[1]]), behind))
}

/// The macro count of a sound book.
pub fn macro_count(bytes: &[u8], rule: Rule) -> Result<usize, Refusal> {
    let head = bytes.strip_prefix(b"MBK").ok_or(NO_BOOK)?;
    let (version, head) = number(head).ok_or(NO_BOOK)?;
    let (count, mut left) = number(head).ok_or(NO_BOOK)?;
    let version = if rule == Rule::LowByte { version % 256 } else { version };
    let repeating = match (version, rule) {
        (1, _) => false,
        (2, Rule::Plain) => return Err(STRANGE_VERSION),
        (2, _) => true,
        (3.., Rule::AnyVersion) => true,
        _ => return Err(STRANGE_VERSION),
    };
    if !(1..=1024).contains(&count) {
        return Err(MACRO_COUNT);
    }
    for place in 0..count {
        let (items, behind) = number(left).ok_or(BROKEN_BODY)?;
        let most = if rule == Rule::ManyItems { 128 } else { 64 };
        if items < 1 || items > most {
            return Err(BROKEN_BODY);
        }
        left = behind;
        for _ in 0..items {
            left = one_item(left, 256 + place, repeating && rule != Rule::TwoBytes, rule)?;
        }
    }
    if !left.is_empty() && rule != Rule::MoreBehind {
        return Err(BROKEN_BODY);
    }
    Ok(usize::from(count))
}

/// What stands behind the item; `own` is a call of the macro itself.
fn one_item(bytes: &[u8], own: u16, repeating: bool, rule: Rule) -> Result<&[u8], Refusal> {
    let (item, behind) = number(bytes).ok_or(BROKEN_BODY)?;
    let dead = if item == 0 { Err(DEAD_KEY) } else { Ok(()) };
    let forward = if item >= own { Err(FORWARD_CALL) } else { Ok(()) };
    if !repeating {
        return dead.and(forward).map(|_| behind);
    }
    if rule == Rule::NoRepeatBeforeMissing && behind.first() == Some(&0) && behind.len() == 1 {
        return Err(NO_REPEAT);
    }
    if rule == Rule::FaultsBeforeMissing {
        dead.and(forward)?;
    }
    let (repeat, behind) = match (behind, rule) {
        ([low], Rule::ThreeBytes) => (u16::from(*low), &behind[1..]),
        _ => number(behind).ok_or(BROKEN_BODY)?,
    };
    let none = if repeat == 0 && rule != Rule::AnyRepeat { Err(NO_REPEAT) } else { Ok(()) };
    match rule {
        Rule::NoRepeatBeforeCall => dead.and(none).and(forward),
        Rule::NoRepeatBeforeBoth => none.and(dead).and(forward),
        _ => dead.and(forward).and(none),
    }
    .map(|_| behind)
}
