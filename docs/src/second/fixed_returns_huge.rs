//! Fixed counts near 2^64 - 1 and beyond where lines end with CR LF, also cut between macros (document 02, S-4).

use crate::fixed::Fixed;
use crate::fixed_returns_books::{count, words};
use crate::make_book::{call, keys, Macros};

const TOP: &str = "lines 18446744073709551615";
const BELOW_TOP: &str = "lines 18446744073709551614";
const OVER: &str = "refused 12";

pub fn huge_returns() -> Vec<Fixed> {
    [closed(), turned(), meeting()].concat()
}

/// Document 01's tower over some macros: each further one calls the one below twice and the last of these once,
/// so that the 63rd holds it 2^64 - 1 times. Then one more macro, if it has items.
fn tower(base: &[Vec<u16>], more: &[u16]) -> Macros {
    let ground = base.len() - 1;
    let mut macros = base.to_vec();
    for number in ground + 1..ground + 64 {
        macros.push(vec![call(number - 1), call(number - 1), call(ground)]);
    }
    if !more.is_empty() {
        macros.push(more.to_vec());
    }
    macros
}

/// A count under a pattern of one atom with exactly the words needed, or one fewer.
fn exact(pattern: &[u8], book: &[Vec<u16>], stated: &str) -> [Fixed; 2] {
    let needed = words(book, 1);
    [count(pattern, book, needed, stated), count(pattern, book, needed - 1, "refused 11")]
}

/// Over `a` CR LF. Steps: 4, 5 and 3 for the macro below, 4, 1 and 1 for each above; then 4 and 1 more.
fn closed() -> Vec<Fixed> {
    let base = [keys(b"a\r\n")];
    let ask = |pattern: &[u8], more: &[u16], stated: &str| exact(pattern, &tower(&base, more), stated);
    [
        ask(b"a$", &[], &format!("{TOP} steps 390")),
        ask(b"a$", &[call(63), call(0)], OVER),
        ask(b"a$", &[call(63), 97, 13], &format!("{TOP} steps 397")),
        ask(b"a$", &[call(63), 97], OVER),
        ask(b"a$", &[call(63), 97, 13, 10], OVER),
        ask(b"a$", &[call(63), 13, 10], &format!("{TOP} steps 396")),
        ask(b"a$", &[97, 13, call(63)], TOP),
        ask(b"a$", &[13, 10, call(63)], TOP),
        ask(b"\r", &[call(63), 97, 13, 10], "lines 0"),
        ask(b"\r", &[call(63), 97, 13], "lines 1"),
        ask(b"[[:cntrl:]]", &[call(63), call(63)], "lines 0"),
    ]
    .concat()
}

/// The same with CR and LF in macros of their own.
pub fn huge_cuts() -> Vec<Fixed> {
    let two = [keys(b"a\r"), keys(b"\n"), vec![call(0), call(1)]];
    let four = [keys(b"a"), keys(b"\r"), keys(b"\n"), vec![call(0), call(1)], vec![call(3), call(2)]];
    [
        exact(b"a$", &tower(&two, &[]), &format!("{TOP} steps 398")),
        exact(b"a$", &tower(&two, &[call(65), call(0)]), TOP),
        exact(b"a$", &tower(&two, &[call(65), call(0), call(1)]), OVER),
        exact(b"a$", &tower(&two, &[call(65), call(1)]), TOP),
        exact(b"a$", &tower(&two, &[call(0), call(65)]), TOP),
        exact(b"\r", &tower(&two, &[call(65), call(65), call(0)]), "lines 1"),
        exact(b"a$", &tower(&four, &[]), TOP),
        exact(b"a$", &tower(&four, &[call(67), call(3), call(2)]), OVER),
        exact(b"a$", &tower(&four, &[call(67), call(3)]), TOP),
    ]
    .concat()
}

/// Over LF `a` CR: every CR meets the LF of the next copy, and the last one stands alone.
fn turned() -> Vec<Fixed> {
    let base = [keys(b"\na\r")];
    let ask = |pattern: &[u8], more: &[u16], stated: &str| exact(pattern, &tower(&base, more), stated);
    [
        ask(b"a$", &[], BELOW_TOP),
        ask(b"a$", &[call(63), 10], TOP),
        ask(b"a$", &[call(63), 13, 10], BELOW_TOP),
        ask(b"a$", &[call(63), call(0)], TOP),
        ask(b"a$", &[call(63), call(0), 10], OVER),
        ask(b"a$", &[call(63), call(0), 13, 10], TOP),
        ask(b"a$", &[call(63), call(63)], OVER),
        ask(b"a$", &[97, 13, call(63)], TOP),
        ask(b"a$", &[97, 13, call(63), 10], OVER),
        ask(b"a$", &[97, 13, 13, call(63)], BELOW_TOP),
        ask(b"a", &[], TOP),
        ask(b"a", &[call(63), 10], TOP),
        ask(b"a", &[call(63), call(0)], OVER),
        ask(b"\r", &[], "lines 1"),
        ask(b"\r", &[call(63), 10], "lines 0"),
        ask(b"a*", &[], OVER),
        ask(b"^a?$", &[], TOP),
        ask(b"^a?$", &[call(63), 10], OVER),
        ask(b"^x*$", &[], "lines 1"),
        ask(b"^x*$", &[13, call(63)], "lines 1"),
        ask(b"^x*$", &[13, 13, call(63)], "lines 0"),
    ]
    .concat()
}

/// Two runs with 2^69 lines `x` each: one ends in `a` CR, the other begins with LF, and only what is between
/// them tells.
fn meeting() -> Vec<Fixed> {
    let half = |left: bool, first: usize| {
        let mut macros = vec![keys(b"x\r\n")];
        for number in first + 1..first + 70 {
            macros.push(vec![call(number - 1), call(number - 1)]);
        }
        let line: &[u16] = if left { &[97, 13] } else { &[10] };
        let below = [call(first + 69)];
        macros.push(if left { [&below, line].concat() } else { [line, &below].concat() });
        macros
    };
    let book = |last: &[u16]| [half(true, 0), half(false, 71), vec![last.to_vec()]].concat();
    let (left, right) = (call(70), call(141));
    [
        exact(b"a$", &book(&[left, right]), "lines 1"),
        exact(b"a$", &book(&[left, 13, right]), "lines 0"),
        exact(b"a$", &book(&[left, left, right]), "lines 1"),
        exact(b"a$", &book(&[left, right, left, right]), "lines 2"),
        exact(b"\r", &book(&[left, right]), "lines 0"),
        exact(b"\r", &book(&[left, 13, right]), "lines 1"),
        exact(b"\r", &book(&[left]), "lines 1"),
        exact(b"^x*$", &book(&[right]), OVER),
        exact(b"x$", &book(&[left, right]), OVER),
        exact(b"^$|a$", &book(&[right, left, right]), "lines 2"),
    ]
    .concat()
}
