//! What the command's `line` and `lines` print of a macro's run (PROTOCOL.md, "The command").

use crate::book;
use crate::find::MOST_BUFFER;
use crate::measures::Measured;
use crate::question::Question;
use crate::refusal::{Refusal, NO_SUCH_MACRO};
use crate::seek::{Line, Seeker};
use crate::states::States;

/// The highest length that is told.
const TOP_LENGTH: u64 = u64::MAX - 1;

/// The k-th matching line and those behind it, at most so many, each as it is printed; of the last macro if none is
/// asked for. The k-th must be there.
pub fn shown(
    asked: Option<usize>,
    question: &Question,
    k: u64,
    most: usize,
    bytes: &[u8],
) -> Result<Vec<String>, Refusal> {
    let book = book::read(bytes)?;
    let pattern = question.read()?;
    let number = asked.unwrap_or(book.macros.len() - 1);
    if number >= book.macros.len() {
        return Err(NO_SUCH_MACRO);
    }
    let (measured, states) = (Measured::of(&book, number), States::of(&pattern));
    let mut seeker = Seeker::new(&book, &states, &measured, number);
    let mut lines = Vec::new();
    // A line behind the one of k = 2^64 - 1 has a higher number than that.
    for k in (k..=u64::MAX).take(most) {
        match seeker.line(k) {
            Ok(line) => lines.push(printed(&line, &seeker)),
            Err(refusal) if lines.is_empty() => return Err(refusal),
            Err(_) => break,
        }
    }
    Ok(lines)
}

fn printed(line: &Line, seeker: &Seeker) -> String {
    let (number, length) = (line.number, line.length.word());
    if length > MOST_BUFFER as u64 {
        return format!("{number} length {}", length.min(TOP_LENGTH));
    }
    format!("{number}:{}", text(&seeker.keys(line, MOST_BUFFER)))
}

/// Keys from 32 to 126 as they are, but for the backslash, which is two of them; every other by its number.
pub fn text(keys: &[u8]) -> String {
    let key = |&key: &u8| match key {
        b'\\' => String::from("\\\\"),
        32..=126 => char::from(key).to_string(),
        _ => format!("\\x{key:02x}"),
    };
    keys.iter().map(key).collect()
}
