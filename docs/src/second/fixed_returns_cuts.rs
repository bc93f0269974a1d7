//! All ways to cut the run `a` CR LF `b` CR CR LF CR into macros (document 02, S-4). Its lines are `a`, `b` CR
//! and CR, wherever it is cut.

use crate::fixed::Fixed;
use crate::fixed_returns_books::{count, words};
use crate::make_book::{call, keys, Macros};

const RUN: &[u8] = b"a\r\nb\r\r\n\r";

/// Pattern, atoms, matching lines.
const ASKED: &[(&[u8], usize, u64)] = &[
    (b"a$", 1, 1),
    (b"^.$", 1, 2),
    (b"^$|b$", 1, 0),
    (b"^b\r$|^\r$", 3, 2),
    (b"[[:cntrl:]]", 1, 2),
    (b"^[^b]*$", 1, 2),
];

pub fn cuts() -> Vec<Fixed> {
    let mut fixed = Vec::new();
    for cut in 0..1 << (RUN.len() - 1) {
        let pieces = pieces(cut);
        for more in [0, 2] {
            let book = called(&pieces, more);
            for (pattern, atoms, lines) in ASKED {
                fixed.push(count(pattern, &book, words(&book, *atoms), &format!("lines {lines}")));
            }
        }
    }
    fixed
}

/// Bit n says whether the run is cut behind key n.
fn pieces(cut: usize) -> Vec<&'static [u8]> {
    let mut pieces = Vec::new();
    let mut from = 0;
    for to in 1..=RUN.len() {
        if to == RUN.len() || cut >> (to - 1) & 1 == 1 {
            pieces.push(&RUN[from..to]);
            from = to;
        }
    }
    pieces
}

/// A macro for each piece, so many more that each call the one below, and one that calls all in order.
fn called(pieces: &[&[u8]], more: usize) -> Macros {
    let mut macros = Macros::new();
    let mut last = Vec::new();
    for piece in pieces {
        macros.push(keys(piece));
        for _ in 0..more {
            macros.push(vec![call(macros.len() - 1)]);
        }
        last.push(call(macros.len() - 1));
    }
    macros.push(last);
    macros
}
