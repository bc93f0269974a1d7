//! Fixed counts over books with stated lines and steps: document 01's example, "Runs on both sides",
//! "Shortcuts that miscount", and the order of the refusals.

use crate::case::Case;
use crate::fixed::Fixed;
use crate::letters::Letters;
use crate::make_book::{call, keys, write, Macros};
use crate::operations::COUNT_WORDS as ENOUGH;
use crate::question::Question;

pub fn counts() -> Vec<Fixed> {
    let mut fixed = paper();
    fixed.extend(shortcuts());
    fixed.extend(tops());
    fixed.extend(orders());
    fixed
}

fn count(pattern: &str, macros: &[Vec<u16>], number: usize, words: usize, stated: &str) -> Fixed {
    let question = Question::new(Letters::Apart, pattern.as_bytes());
    Fixed::new(Case::Count { number, words, question, book: write(macros) }, stated)
}

/// The book of the example under "The program cuecount".
pub fn example() -> Macros {
    vec![keys(b"B\n"), vec![call(0), u16::from(b'C'), call(0)]]
}

fn paper() -> Vec<Fixed> {
    let across = [keys(b"a"), vec![call(0), u16::from(b'b')]];
    vec![
        count("B", &example(), 1, 20, "lines 2 steps 17"),
        count("B", &example(), 1, 19, "refused 11"),
        count("B", &example(), 1, 21, "lines 2 steps 17"),
        count("B", &example(), 0, 10, "lines 1 steps 11"),
        count("B", &example(), 0, 9, "refused 11"),
        count("B", &example(), 2, ENOUGH, "refused 10"),
        count("ab", &across, 1, 22, "lines 1 steps 15"),
        count("^$", &[keys(b"\n")], 0, 9, "lines 1 steps 3"),
        count("^$", &[keys(b"a")], 0, 9, "lines 0 steps 3"),
        count("a*", &[keys(b"\n")], 0, 10, "lines 1 steps 4"),
        count("ab", &[keys(b"a\nb")], 0, 11, "lines 0 steps 11"),
        count("a$", &[keys(b"a\r\n")], 0, 10, "lines 1 steps 12"),
    ]
}

/// Each of these comes out differently if the shortcut is taken.
fn shortcuts() -> Vec<Fixed> {
    let lone_end = [keys(b"\n"), vec![u16::from(b'a'), call(0), u16::from(b'b')]];
    let no_match = [keys(b"x\n"), vec![u16::from(b'a'), call(0), u16::from(b'b')]];
    let twice = [keys(b"a"), vec![call(0), call(0)]];
    let closed = [keys(b"a\n"), vec![call(0), call(0)]];
    let joined = [keys(b"xa"), keys(b"bx\n"), vec![call(0), call(1), call(0), call(1)]];
    let apart = [keys(b"ab\nb"), keys(b"a\nab"), vec![call(0), call(1)]];
    vec![
        count("ab", &lone_end, 1, 22, "lines 0 steps 16"),
        count("ab", &no_match, 1, 22, "lines 0"),
        count("a", &[keys(b"a")], 0, 10, "lines 1 steps 4"),
        count("a", &[keys(b"a\n")], 0, 10, "lines 1 steps 11"),
        count("a", &[keys(b"b")], 0, 10, "lines 0 steps 4"),
        count("a", &twice, 1, 20, "lines 1 steps 15"),
        count("a", &closed, 1, 20, "lines 2 steps 16"),
        count("ab", &joined, 2, 33, "lines 2"),
        count("ab", &apart, 2, 33, "lines 2"),
        count("ba", &apart, 2, 33, "lines 1"),
        count("a|b", &apart, 2, 33, "lines 3"),
    ]
}

/// Macro 0 is `a` LF, macro i calls i - 1, i - 1 and 0: 2^(i+1) - 1 lines.
pub fn tower() -> Macros {
    let mut macros = vec![keys(b"a\n")];
    for number in 1..64 {
        macros.push(vec![call(number - 1), call(number - 1), call(0)]);
    }
    macros
}

fn tower_with(more: &[Vec<u16>]) -> Macros {
    [tower(), more.to_vec()].concat()
}

/// Steps: macro 0 has 4 + 7, each of macros 1 to 63 has 4 + 1 + 1, and the further ones likewise.
fn tops() -> Vec<Fixed> {
    let top = "lines 18446744073709551615 steps";
    let a = u16::from(b'a');
    let beyond = vec![call(63), call(63)];
    vec![
        count("a", &tower(), 63, 640, &format!("{top} 389")),
        count("a", &tower(), 62, 630, "lines 9223372036854775807 steps 383"),
        count("a", &tower_with(&[vec![call(63), call(0)]]), 64, 650, "refused 12"),
        count("a", &tower_with(&[vec![call(63), call(0)]]), 63, 650, &format!("{top} 389")),
        count("a", &tower_with(&[vec![call(63), call(0)]]), 64, 649, "refused 11"),
        count("a", &tower_with(&[vec![call(63), a]]), 64, ENOUGH, "refused 12"),
        count("a", &tower_with(&[vec![call(63), 98]]), 64, ENOUGH, &format!("{top} 394")),
        count("a", &tower_with(&[vec![call(63), 98, 10]]), 64, ENOUGH, &format!("{top} 395")),
        count("a", &tower_with(&[vec![98, 10, call(63)]]), 64, ENOUGH, &format!("{top} 397")),
        count("a", &tower_with(&[vec![a, 10, call(63)]]), 64, ENOUGH, "refused 12"),
        count("a", &tower_with(&[vec![98, call(63)]]), 64, ENOUGH, &format!("{top} 396")),
        count("a", &tower_with(&[beyond.clone()]), 64, ENOUGH, "refused 12"),
        count("a", &tower_with(&[beyond.clone(), vec![a]]), 65, 660, "lines 1 steps 398"),
        count("a", &tower_with(&[beyond.clone(), vec![call(63)]]), 65, 660, &format!("{top} 398")),
        count("a", &tower_with(&[beyond.clone(), vec![a, call(64)]]), 65, 660, "refused 12"),
        count("b", &tower_with(&[beyond]), 64, 650, "lines 0"),
    ]
}

/// 1 to 6 before 7, then 8, 9, 10, 11, 12.
fn orders() -> Vec<Fixed> {
    let own = [vec![call(0)]];
    let over = tower_with(&[vec![call(63), call(0)]]);
    let mut fixed = vec![
        count("", &own, 5, 0, "refused 6"),
        count("", &example(), 5, 0, "refused 7"),
        count("(", &example(), 5, 0, "refused 8"),
        count(&"a".repeat(30), &example(), 5, 0, "refused 9"),
        count("a", &example(), 5, 0, "refused 10"),
        count("a", &example(), 1, 0, "refused 11"),
        count("a", &over, 64, 0, "refused 11"),
        count("a", &over, 65, 0, "refused 10"),
    ];
    for (at, byte, stated) in [
        (0, b'm', "refused 1"),
        (3, 3, "refused 2"),
        (5, 0, "refused 3"),
        (7, 0, "refused 4"),
        (9, 0, "refused 5"),
    ] {
        let mut book = write(&example());
        book[at] = byte;
        let question = Question::new(Letters::Apart, b"");
        fixed.push(Fixed::new(Case::Count { number: 9, words: 0, question, book }, stated));
    }
    fixed
}
