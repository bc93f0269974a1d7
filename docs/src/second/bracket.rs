//! Reads a bracket, from behind its opening `[` to behind its closing `]` (document 01, "Patterns").

use crate::classes::CLASSES;
use crate::parser::Reader;
use crate::refusal::{Refusal, BAD_PATTERN};
use crate::tree::Set;

/// The keys that the elements name, and whether a leading `^` turns the set round.
pub fn bracket(reader: &mut Reader) -> Result<(Set, bool), Refusal> {
    let negated = reader.eat(b'^');
    let mut set = [false; 256];
    let mut first = true;
    // A `]` as first element is itself; any later one closes.
    while first || reader.peek(0) != Some(b']') {
        element(reader, first, &mut set)?;
        first = false;
    }
    reader.eat(b']');
    Ok((set, negated))
}

/// `^` stands for all keys but these, and no set holds 0 or LF.
pub fn finish(mut set: Set, negated: bool) -> Set {
    if negated {
        for holds in set.iter_mut() {
            *holds = !*holds;
        }
    }
    set[0] = false;
    set[10] = false;
    set
}

fn element(reader: &mut Reader, first: bool, set: &mut Set) -> Result<(), Refusal> {
    if opens_name(reader) {
        return class(reader, set);
    }
    let low = reader.next().ok_or(BAD_PATTERN)?;
    // A `-` that begins an element must be first or last, or start a range as the first element.
    if low == b'-' && !first && reader.peek(0) != Some(b']') {
        return Err(BAD_PATTERN);
    }
    if !starts_range(reader) {
        set[usize::from(low)] = true;
        return Ok(());
    }
    reader.next();
    range_end(reader, low, set)
}

/// At a `[.`, `[=` or `[:`.
fn opens_name(reader: &Reader) -> bool {
    reader.peek(0) == Some(b'[') && matches!(reader.peek(1), Some(b'.' | b'=' | b':'))
}

/// An element followed by `-` and then not by `]` starts a range.
fn starts_range(reader: &Reader) -> bool {
    reader.peek(0) == Some(b'-') && reader.peek(1) != Some(b']')
}

fn range_end(reader: &mut Reader, low: u8, set: &mut Set) -> Result<(), Refusal> {
    if opens_name(reader) {
        return Err(BAD_PATTERN);
    }
    let high = reader.next().ok_or(BAD_PATTERN)?;
    if low > high {
        return Err(BAD_PATTERN);
    }
    for value in low..=high {
        set[usize::from(value)] = true;
    }
    Ok(())
}

/// Only the twelve classes pass; `[.` and `[=` fall through to the refusal.
fn class(reader: &mut Reader, set: &mut Set) -> Result<(), Refusal> {
    for (name, ranges) in CLASSES {
        if !reader.eat_all(format!("[:{name}:]").as_bytes()) {
            continue;
        }
        for &(low, high) in ranges {
            for value in low..=high {
                set[usize::from(value)] = true;
            }
        }
        return if starts_range(reader) { Err(BAD_PATTERN) } else { Ok(()) };
    }
    Err(BAD_PATTERN)
}
