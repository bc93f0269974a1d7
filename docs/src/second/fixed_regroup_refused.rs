//! Fixed regroupings that break one condition (document 02, S-7): the new book is refused by document 01. Calls of
//! macros from j on go up by one in Y, too.

use crate::fixed::Fixed;
use crate::fixed_depth::macros;
use crate::make_book::{call, keys, Macros};
use crate::make_regroup::stated;
use crate::regroup::Cut;

/// The items of each macro, the macro, where Y begins and ends, and the new macro's number.
type Small = (&'static [&'static str], [usize; 4]);

/// Y has no items: macro j has none.
const NOTHING: &[Small] = &[
    (&["a"], [0, 0, 0, 0]),
    (&["a"], [0, 1, 1, 0]),
    (&["a b c"], [0, 1, 1, 0]),
    (&["a", "0 0"], [1, 0, 0, 0]),
    (&["a", "0 0"], [1, 1, 1, 1]),
    (&["a", "0 0", "1 1"], [1, 2, 2, 1]),
    (&["a", "0 0", "1 1"], [2, 1, 1, 2]),
];

/// Y calls a macro that is not below j, in its first item or in another.
const FORWARD: &[Small] = &[
    (&["a", "0"], [1, 0, 1, 0]),
    (&["a", "0 b"], [1, 0, 2, 0]),
    (&["a", "b 0"], [1, 0, 2, 0]),
    (&["a", "b", "0 1"], [2, 0, 2, 1]),
    (&["a", "b", "0 1"], [2, 1, 2, 1]),
    (&["a", "b", "0 1"], [2, 1, 2, 0]),
    (&["a", "b", "0 1"], [2, 0, 1, 0]),
    (&["a", "0", "1", "2 2 0"], [3, 1, 3, 2]),
    (&["a", "0", "1", "2 2 0", "3 2"], [3, 1, 3, 1]),
];

/// j is above m, so that the call of j stands in a macro not above it.
const ABOVE: &[Small] = &[
    (&["a b"], [0, 0, 1, 1]),
    (&["a", "0 0"], [1, 0, 2, 2]),
    (&["a", "0 0", "1 1"], [1, 1, 2, 2]),
    (&["a", "0 0", "1 1"], [0, 0, 1, 3]),
];

pub fn refused_ones() -> Vec<Fixed> {
    let mut fixed = Vec::new();
    for (list, refusal) in [(NOTHING, "refused 4"), (FORWARD, "refused 6"), (ABOVE, "refused 6")] {
        for (texts, [number, from, to, into]) in list {
            let cut = Cut { number: *number, from: *from, to: *to, into: *into };
            fixed.push(stated(&macros(texts), &cut, refusal));
        }
    }
    fixed.extend(too_many());
    fixed.extend(full_macros());
    fixed
}

/// 1,025 macros, which is met first whatever else is wrong.
fn too_many() -> Vec<Fixed> {
    let mut chain: Macros = vec![keys(b"a\n")];
    chain.extend((1..1024).map(|number| vec![call(number - 1), call(number - 1)]));
    let cut = |number, from, to, into| Cut { number, from, to, into };
    vec![
        stated(&chain, &cut(1023, 0, 1, 1023), "refused 3"),
        stated(&chain, &cut(0, 0, 2, 0), "refused 3"),
        stated(&chain, &cut(1023, 0, 0, 1023), "refused 3"),
        stated(&chain, &cut(1023, 0, 1, 1022), "refused 3"),
        stated(&vec![vec![97; 64]; 1024], &cut(512, 0, 64, 7), "refused 3"),
        // One macro fewer, and the same faults are met.
        stated(&chain[..1023], &cut(1022, 0, 0, 1022), "refused 4"),
        stated(&chain[..1023], &cut(1022, 0, 1, 1021), "refused 6"),
    ]
}

/// With nothing taken out of 64 items macro m + 1 has 65, too; macro j is read first.
fn full_macros() -> Vec<Fixed> {
    let full = vec![keys(b"a"), vec![call(0); 64]];
    let cut = |from, to, into| Cut { number: 1, from, to, into };
    vec![
        stated(&full, &cut(0, 0, 1), "refused 4"),
        stated(&full, &cut(64, 64, 0), "refused 4"),
        stated(&full, &cut(0, 64, 0), "refused 6"),
        stated(&full, &cut(63, 64, 0), "refused 6"),
    ]
}
