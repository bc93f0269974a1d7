//! Runs of the command's `depth` about the words in the places of the two keys: those that are keys, those that
//! are refused with 18, and those that are none.

use crate::command::Run;
use crate::compare_depth::run;
use crate::make_book::write;

/// The book's one macro has these keys so many times each, in this order, so that the end tells the key.
const TIMES: [(u16, usize); 9] =
    [(5, 1), (53, 2), (40, 3), (41, 4), (123, 5), (45, 6), (255, 7), (13, 8), (1, 9)];

/// A word, and how often its key stands in the book.
const WORDS: &[(&[u8], i32)] = &[
    (b"5", 2),
    (b"05", 1),
    (b"005", 1),
    (b"53", 2),
    (b"053", 2),
    (b"(", 3),
    (b"40", 3),
    (b"040", 3),
    (b")", 4),
    (b"041", 4),
    (b"{", 5),
    (b"123", 5),
    (b"-", 6),
    (b"45", 6),
    (b"\xff", 7),
    (b"255", 7),
    (b"\r", 8),
    (b"13", 8),
    (b"013", 8),
    (b"\x01", 9),
    (b"01", 9),
    (b"001", 9),
    (b"0", 0),
    (b"9", 0),
    (b"99", 0),
    (b"099", 0),
    (b"\xc3", 0),
    (b" ", 0),
];

/// Words for one key twice, or for a key that is 0 or 10.
const REFUSED: &[[&[u8]; 2]] = &[
    [b"(", b"40"],
    [b"040", b"("],
    [b"5", b"53"],
    [b"05", b"005"],
    [b"255", b"\xff"],
    [b"-", b"45"],
    [b"00", b")"],
    [b"(", b"000"],
    [b"10", b")"],
    [b"(", b"010"],
    [b"\n", b")"],
    [b"(", b"\n"],
    [b"10", b"010"],
    [b"0", b"00"],
];

const NO_KEYS: &[&[u8]] = &[
    b"",
    b"256",
    b"999",
    b"0005",
    b"ab",
    b"1a",
    b"\xc3\xa9",
    b"-1",
    b"a1",
    b"300",
    b"1000",
    b"0040",
    b" 5",
    b"5\n",
    b"+5",
    b"0x5",
    b"()",
    b"\xd9\xa3",
    b"\xff\xff",
    b"4.0",
];

pub fn runs() -> Vec<Run> {
    let book = write(&[TIMES.iter().flat_map(|&(key, times)| vec![key; times]).collect()]);
    let stated = |keys: [&[u8]; 2], text: &str| run(keys, book.clone(), None, Some(text));
    let mut runs = Vec::new();
    for (place, (word, times)) in WORDS.iter().enumerate() {
        runs.push(stated([word, b"200"], &format!("end {times} lowest 0")));
        if place % 3 == 0 {
            runs.push(stated([b"200", word], &format!("end {} lowest {}", -times, -times)));
        }
    }
    runs.extend(REFUSED.iter().map(|keys| stated(*keys, "refused 18")));
    for (place, word) in NO_KEYS.iter().enumerate() {
        runs.push(stated([word, b")"], "nothing"));
        if place < 8 {
            runs.push(stated([b"(", word], "nothing"));
        }
    }
    // Two numbers and the characters of one of them are different keys.
    runs.push(stated([b"5", b"05"], "end 1 lowest -1"));
    runs.push(stated([b"05", b"5"], "end -1 lowest -1"));
    runs.push(stated([b"256", b"256"], "nothing"));
    runs.push(stated([b"ab", b"10"], "nothing"));
    runs.push(stated([b"10", b"ab"], "nothing"));
    runs.push(run([b"(", b"256"], b"MBK".to_vec(), None, Some("nothing")));
    runs.push(run([b"(", b"("], book, Some("one"), Some("nothing")));
    runs
}
