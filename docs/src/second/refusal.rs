//! The refusal numbers of document 01, "Refused", under their trade's words, and those of document 02.

pub type Refusal = u8;

pub const NO_BOOK: Refusal = 1;
pub const STRANGE_VERSION: Refusal = 2;
pub const MACRO_COUNT: Refusal = 3;
pub const BROKEN_BODY: Refusal = 4;
pub const DEAD_KEY: Refusal = 5;
pub const FORWARD_CALL: Refusal = 6;
pub const PATTERN_LENGTH: Refusal = 7;
pub const BAD_PATTERN: Refusal = 8;
pub const TOO_MANY_ATOMS: Refusal = 9;
pub const NO_SUCH_MACRO: Refusal = 10;
pub const SHORT_WORK: Refusal = 11;
pub const COUNT_TOO_HIGH: Refusal = 12;
pub const UNLIKE_REPORTS: Refusal = 13;
pub const LONG_INPUT: Refusal = 14;
/// Document 02, S-3: fewer matching lines than asked for, a line number over 2^64 - 1, and a buffer that is shorter
/// than the line.
pub const NO_SUCH_LINE: Refusal = 15;
pub const LINE_NUMBER: Refusal = 16;
pub const SHORT_BUFFER: Refusal = 17;
/// Document 02, S-6.
pub const BAD_KEYS: Refusal = 18;
pub const LONG_RUN: Refusal = 19;
/// Document 02, S-8.
pub const NO_REPEAT: Refusal = 20;
