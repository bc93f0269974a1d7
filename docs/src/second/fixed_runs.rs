//! Fixed plain runs with the counts stated for them: document 01's own, lines and their ends, the
//! classes counted over all keys, and patterns at the limits of length and atoms.

use crate::fixed::Fixed;
use crate::letters::Letters;
use crate::line_ends::closed;

/// Pattern, run, answer (document 01, "Runs on both sides" and "Lines", with the line ends of document 02, S-4).
const RUNS: &[(&str, &str, &str)] = &[
    ("^$", "\n", "lines 1"),
    ("^$", "a", "lines 0"),
    ("a*", "\n", "lines 1"),
    ("ab", "ab", "lines 1"),
    ("ab", "a\nb", "lines 0"),
    ("a$", "a\r\n", "lines 1"),
    ("^$", "", "lines 0"),
    ("^$", "\n\n\n", "lines 3"),
    ("^$", "\n\na", "lines 2"),
    ("a", "a", "lines 1"),
    ("a", "a\n", "lines 1"),
    ("a", "a\na", "lines 2"),
    ("a", "aaaa\n", "lines 1"),
    ("a", "\na\n\nb\na", "lines 2"),
    ("a$|^b", "ab\nba\ncb\nca\nb", "lines 3"),
    (".", "\n\r\n \n", "lines 1"),
    ("[^a]", "\na\nb\n", "lines 1"),
    ("", "\0", "refused 7"),
    ("a**", "\0", "refused 8"),
    ("a", "\0", "refused 5"),
    ("a", "a\n\0", "refused 5"),
];

/// How many keys other than LF each class has: the sizes of its ranges without 0 and LF.
const SIZES: [(&str, u64); 12] = [
    ("upper", 26),
    ("lower", 26),
    ("alpha", 52),
    ("digit", 10),
    ("alnum", 62),
    ("xdigit", 22),
    ("punct", 32),
    ("graph", 94),
    ("print", 95),
    ("cntrl", 31),
    ("space", 5),
    ("blank", 2),
];

pub fn runs() -> Vec<Fixed> {
    let mut fixed: Vec<Fixed> = RUNS
        .iter()
        .map(|(pattern, run, stated)| run_of(pattern.as_bytes(), run.as_bytes(), stated))
        .collect();
    fixed.extend(classes());
    fixed.extend(limits());
    fixed
}

fn run_of(pattern: &[u8], run: &[u8], stated: &str) -> Fixed {
    Fixed::run(Letters::Apart, pattern, run, stated)
}

/// One line for each key but LF, CR too.
fn every_key() -> Vec<u8> {
    (1..=255u8).filter(|&key| key != 10).flat_map(|key| closed(&[key])).collect()
}

/// Each class, and all keys but those of the class.
fn classes() -> Vec<Fixed> {
    let run = every_key();
    let mut fixed = vec![run_of(b"^.$", &run, "lines 254"), run_of(b"^[\x01-\xff]$", &run, "lines 254")];
    fixed.push(run_of(b"^[^\x01-\xff]$", &run, "lines 0"));
    fixed.push(run_of(b"^[\x80-\xff]$", &run, "lines 128"));
    fixed.push(run_of(b"\xe4|\x80", &run, "lines 2"));
    for (name, size) in SIZES {
        let inside = format!("^[[:{name}:]]$");
        let outside = format!("^[^[:{name}:]]$");
        fixed.push(run_of(inside.as_bytes(), &run, &format!("lines {size}")));
        fixed.push(run_of(outside.as_bytes(), &run, &format!("lines {}", 254 - size)));
    }
    fixed
}

fn limits() -> Vec<Fixed> {
    let nest = |depth: usize| [vec![b'('; depth], vec![b'a'], vec![b')'; depth]].concat();
    let wide = |bytes: usize| [vec![b'['], vec![b'a'; bytes - 2], vec![b']']].concat();
    let run = [vec![b'a'; 29], vec![10], vec![b'a'; 28]].concat();
    vec![
        run_of(&[b'a'; 29], &run, "lines 1"),
        run_of(&[b'a'; 30], &run, "refused 9"),
        run_of(b"(a|b|c|d|e|f|g|h|i|j)(a|b|c|d|e|f|g|h|i|j)abcdefgh.", &run, "lines 0"),
        run_of(b"(a|b|c|d|e|f|g|h|i|j)(a|b|c|d|e|f|g|h|i|j)abcdefgh..", &run, "refused 9"),
        run_of(&[&[b'a'; 30][..], b"("].concat(), &run, "refused 8"),
        run_of(&[b'a'; 128], &run, "refused 9"),
        run_of(&[b'a'; 129], &run, "refused 7"),
        run_of(&[b'*'; 129], &run, "refused 7"),
        run_of(&wide(128), &run, "lines 2"),
        run_of(&wide(129), &run, "refused 7"),
        run_of(&nest(63), &run, "lines 2"),
        run_of(&[nest(63), b"+".to_vec()].concat(), &run, "lines 2"),
        run_of(&nest(64), &run, "refused 7"),
        run_of(&[b'('; 128], &run, "refused 8"),
    ]
}
