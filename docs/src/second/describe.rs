//! A case in words, for the report of a difference: texts with escapes and in hex, numbers in decimal.

use crate::case::Case;
use crate::report::Report;

pub fn hex(bytes: &[u8]) -> String {
    bytes.iter().map(|byte| format!("{byte:02X}")).collect()
}

/// The same; a tail of one byte, as long files have it, is shown by its length.
pub fn hex_of_long(bytes: &[u8]) -> String {
    let last = bytes.last();
    let tail = bytes.iter().rev().take_while(|&byte| Some(byte) == last).count();
    if tail < 100 {
        return hex(bytes);
    }
    let front = bytes.len() - tail;
    format!("{} and then {tail} bytes {}", hex(&bytes[..front]), hex(&bytes[front..front + 1]))
}

/// A pattern both ways.
pub fn pattern_lines(pattern: &[u8]) -> String {
    format!("pattern: {}\npattern in hex: {}\n", pattern.escape_ascii(), hex(pattern))
}

pub fn describe(case: &Case) -> String {
    let kind = char::from(case.kind());
    let rest = match case {
        Case::Line { question, line } => {
            format!("{}line in hex: {}", pattern_lines(&question.pattern), hex(line))
        }
        Case::Run { question, run } => {
            format!("{}run in hex: {}", pattern_lines(&question.pattern), hex(run))
        }
        Case::Count { number, words, question, book } => {
            format!(
                "macro {number}, work words {words}\n{}book in hex: {}",
                pattern_lines(&question.pattern),
                hex(book)
            )
        }
        Case::Sound { book } => format!("book in hex: {}", hex(book)),
        Case::Body { number, book } => format!("macro {number}\nbook in hex: {}", hex(book)),
        Case::Reach { number, entries, book } => {
            format!("macro {number}, entries {entries}\nbook in hex: {}", hex(book))
        }
        Case::Depth { number, words, keys, book } => {
            format!("macro {number}, work words {words}, {keys:?}\nbook in hex: {}", hex(book))
        }
        Case::Find { number, words, buffer, k, question, book } => {
            format!(
                "macro {number}, work words {words}, buffer {buffer}, line {k}\n{}book in hex: {}",
                pattern_lines(&question.pattern),
                hex(book)
            )
        }
        Case::Join { left, right } => format!("left {}\nright {}", numbers(left), numbers(right)),
    };
    format!("kind: {kind}\n{rest}")
}

pub fn numbers(report: &Report) -> String {
    let Report { s, rows, flag, heads, closed, tail, trimmed, edges } = report;
    let words = format!("trimmed {trimmed} edges {edges}");
    format!("s {s} flag {flag} heads {heads} closed {closed} tail {tail} {words} rows {rows:?}")
}
