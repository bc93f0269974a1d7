//! Fixed regroupings of large books (document 02, S-7): counts at 2^64 - 1 and past it, macros of 64 items, and as
//! many macros as the new book may have.

use crate::fixed_books::tower;
use crate::fixed_regroup::stated;
use crate::letters::Letters;
use crate::make_book::{call, keys, Macros};
use crate::make_large::BUSY;
use crate::question::Question;
use crate::regroup::{Cut, Regrouping};

const TOP: &str = "lines 18446744073709551615";
const OVER: &str = "refused 12";

pub fn large() -> Vec<Regrouping> {
    [tops(), full_macros(), full_books(), full_of_both()].concat()
}

fn plain(pattern: &[u8]) -> Question {
    Question::new(Letters::Apart, pattern)
}

/// Document 01's tower, whose macro 63 counts 2^64 - 1 under `a`, and one more macro.
fn tops() -> Vec<Regrouping> {
    let a = u16::from(b'a');
    let over = |more: &[u16]| [tower(), vec![more.to_vec()]].concat();
    let ask = |why: &str, macros: Macros, [number, from, to, into]: [usize; 4], lines: &str| {
        stated(why, plain(b"a"), macros, Cut { number, from, to, into }, lines)
    };
    let twice = over(&[call(63), call(63), a]);
    let beside = [over(&[call(63), call(63)]), vec![vec![a, 10, a, 10]]].concat();
    vec![
        ask("2^64 - 1, Y is both long calls", tower(), [63, 0, 2, 63], TOP),
        ask("2^64 - 1, Y is all", tower(), [63, 0, 3, 63], TOP),
        ask("2^64 - 1, Y is the short call, lowest", tower(), [63, 2, 3, 1], TOP),
        ask("2^64 - 1, a macro on the way", tower(), [30, 1, 3, 30], "lines 2147483647"),
        ask("2^64 - 1, an open line in Y", over(&[call(63), 98, 98]), [64, 1, 2, 0], TOP),
        ask("past by Y and Z together", over(&[call(63), call(0)]), [64, 1, 2, 1], OVER),
        ask("past by the last line, which Y opens", over(&[call(63), 98, a]), [64, 1, 3, 0], OVER),
        ask("past by the first line, in X", over(&[a, 10, call(63)]), [64, 1, 3, 64], OVER),
        ask("past within Y", twice.clone(), [64, 0, 2, 64], OVER),
        ask("past in X and Y", twice, [64, 1, 2, 64], OVER),
        ask("past in a macro that is not reached", beside.clone(), [65, 1, 3, 0], "lines 2"),
        ask("past in a macro that is not reached, j behind it", beside, [65, 1, 3, 65], "lines 2"),
    ]
}

/// 64 items: with Y of one item the new macro has as many again.
fn full_macros() -> Vec<Regrouping> {
    let ends = [b'a', 13, 10, b'b'].repeat(16);
    let calls = vec![vec![97, 10], vec![call(0); 64], vec![call(1); 64]];
    let mut all = Vec::new();
    for (from, to) in [(0, 1), (63, 64), (31, 32), (0, 64), (0, 63), (1, 64), (1, 2), (2, 3), (9, 50)] {
        // The first line is `a`, the others are `ba` and the last one is `b`.
        let cut = |number, into| Cut { number, from, to, into };
        all.push(stated("64 keys", plain(b"a$"), vec![keys(&ends)], cut(0, 0), "lines 16"));
        all.push(stated("64 calls", plain(b"a"), calls.clone(), cut(2, 2), "lines 4096"));
    }
    all
}

/// 1,023 macros, 1,024 with the new one.
fn full_books() -> Vec<Regrouping> {
    let mut chain: Macros = vec![keys(b"a\nb")];
    chain.extend((1..1023).map(|number| vec![call(number - 1), u16::from(b'b')]));
    let flat: Macros = (0..1023).map(|_| keys(b"a\r\na\r\n")).collect();
    let cut = |number, from, to, into| Cut { number, from, to, into };
    vec![
        stated("1,023 macros, the last one", plain(b"^b*$"), chain.clone(), cut(1022, 0, 1, 1022), "lines 1"),
        stated("1,023 macros, j is 0", plain(b"^ab*$"), chain.clone(), cut(1022, 1, 2, 0), "lines 1"),
        stated("1,023 macros, one within", plain(b"b$"), chain, cut(511, 1, 2, 256), "lines 1"),
        stated("1,023 macros, the first one", plain(b"a$"), flat.clone(), cut(0, 2, 4, 0), "lines 2"),
        stated("1,023 macros, 29 atoms", plain(BUSY), flat, cut(1022, 1, 5, 1022), "lines 0"),
    ]
}

/// As many macros as fit, each of 64 items. Each calls the one below in the place of one key; those whose numbers
/// are multiples of 100 do not.
fn full_of_both() -> Vec<Regrouping> {
    let mut macros = Macros::new();
    for number in 0..1023 {
        let mut items = keys(&b"ab\r\nb\na\n".repeat(8));
        if number % 100 != 0 {
            items[40] = call(number - 1);
        }
        macros.push(items);
    }
    // Eight lines `ab`, and in each macro above one less, since a call stands in the place of its `a`.
    let lines = |number: usize| 8 * (number % 100 + 1) - number % 100;
    let mut all = Vec::new();
    for (number, from, to, into) in
        [(1022, 40, 41, 1022), (1022, 0, 64, 1022), (1022, 0, 40, 0), (599, 39, 43, 599)]
    {
        let cut = Cut { number, from, to, into };
        let lines = format!("lines {}", lines(number));
        all.push(stated("1,023 macros of 64 items", plain(b"^ab$"), macros.clone(), cut, &lines));
    }
    all
}
