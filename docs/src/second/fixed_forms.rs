//! Fixed books of version 1 that are asked in their forms of version 2 as well (document 02, S-8).

use crate::depth::Keys;
use crate::fixed_books::{example, tower};
use crate::fixed_depth::macros;
use crate::forms::Forms;
use crate::letters::Letters;
use crate::make_book::{call, Macros};
use crate::question::Question;

/// The pattern, the items of each macro as fixed_depth.rs has them, and the lines of the last one.
type Small = (&'static str, &'static [&'static str], u64);

const SMALL: &[Small] = &[
    ("a", &["a"], 1),
    ("aa", &["a a"], 1),
    ("aa", &["a", "0 0"], 1),
    ("a", &["a LF", "0 0 0 b 0 0"], 5),
    ("^$", &["LF LF LF"], 3),
    ("^$", &["LF LF", "0 0 0", "1 0 0 0 1"], 18),
    ("a$", &["LF a CR", "0 0 0"], 2),
    ("a$", &["LF a CR", "0 0 0", "1 1 LF"], 6),
    ("^\r$", &["CR CR LF CR CR"], 1),
    ("^\r\r$", &["CR CR LF CR CR"], 1),
    ("ba", &["a b", "0 0"], 1),
    ("^ba$", &["a LF b", "0 0 0"], 2),
    ("b", &["( ( ) ) )", "0 0 LF b b", "1 1 1"], 3),
    ("a", &["a LF", "b LF", "0 0 1 1 0 0", "2 2 1 1 2"], 12),
];

pub fn all() -> Vec<Forms> {
    let mut forms = vec![
        of("document 01's example", "B", example(), "lines 2"),
        of("document 01's tower", "a", tower(), "lines 18446744073709551615"),
        of("one line more", "a", [tower(), vec![vec![call(63), call(0)]]].concat(), "refused 12"),
        of("twice the tower", "a", [tower(), vec![vec![call(63), call(63)]]].concat(), "refused 12"),
        of("twice the tower, no match", "b", [tower(), vec![vec![call(63); 2]]].concat(), "lines 0"),
        of("64 calls", "a", vec![vec![97, 10], vec![call(0); 64], vec![call(1); 64]], "lines 4096"),
        of("64 keys", "^a+$", vec![vec![97; 64], vec![call(0); 64]], "lines 1"),
    ];
    for (pattern, texts, lines) in SMALL {
        forms.push(of("a small book", pattern, macros(texts), &format!("lines {lines}")));
    }
    forms
}

fn of(why: &str, pattern: &str, macros: Macros, stated: &str) -> Forms {
    Forms {
        why: String::from(why),
        number: macros.len() - 1,
        macros,
        question: Question::new(Letters::Apart, pattern.as_bytes()),
        keys: Keys { opening: b'a', closing: b'b' },
        more: 0,
        stated: Some(String::from(stated)),
    }
}
