//! Where the brackets of a pattern stand, by a walk over its bytes that reads no sets: a second view of the
//! pattern reader's.

/// Places count from 0.
#[derive(Debug, Default, PartialEq)]
pub struct Brackets {
    /// From the `[` to behind the `]`.
    pub closed: Vec<(usize, usize)>,
    /// The `[` of one that is not closed where the pattern ends.
    pub open: Option<usize>,
}

pub fn brackets(pattern: &[u8]) -> Brackets {
    let mut found = Brackets::default();
    let mut at = 0;
    while at < pattern.len() && found.open.is_none() {
        match (pattern[at], end(pattern, at + 1)) {
            (b'\\', _) => at += 2,
            (b'[', Some(end)) => {
                found.closed.push((at, end));
                at = end;
            }
            (b'[', None) => found.open = Some(at),
            _ => at += 1,
        }
    }
    found
}

/// Behind the first `]` that is neither the first element nor a name's.
fn end(pattern: &[u8], from: usize) -> Option<usize> {
    let first = from + usize::from(pattern.get(from) == Some(&b'^'));
    let mut at = first + usize::from(pattern.get(first) == Some(&b']'));
    loop {
        match pattern.get(at)? {
            b']' => return Some(at + 1),
            b'[' if pattern.get(at + 1) == Some(&b':') => at = name_end(pattern, at + 2)?,
            _ => at += 1,
        }
    }
}

fn name_end(pattern: &[u8], from: usize) -> Option<usize> {
    let name = pattern[from..].windows(2).position(|two| two == b":]")?;
    Some(from + name + 2)
}
