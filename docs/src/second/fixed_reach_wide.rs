//! Fixed reach lists where a macro has as many as 64 calls (document 02, S-5). The lists are those orders in
//! which the calls were written.

use crate::fixed::Fixed;
use crate::fixed_reach::each_way;
use crate::make_book::{call, Macros};

pub fn wide_reaches() -> Vec<Fixed> {
    let mut fixed = Vec::new();
    for order in orders() {
        fixed.extend(alone(&order));
        fixed.extend(chained(&order));
        fixed.extend(mirrored(&order));
        fixed.extend(twice(&order));
    }
    fixed.extend(rows());
    fixed
}

/// The numbers 0 to 63 falling, rising, and mixed: an odd number times all of them, modulo 64, is all of them.
fn orders() -> Vec<Vec<usize>> {
    let mixed = |times: usize, more: usize| (0..64).map(|place| (times * place + more) % 64).collect();
    vec![(0..64).rev().collect(), (0..64).collect(), mixed(37, 11), mixed(5, 60), mixed(27, 0)]
}

/// The numbers as a list's text.
pub fn text(list: &[usize]) -> String {
    list.iter().map(|number| number.to_string()).collect::<Vec<String>>().join(" ")
}

fn calls(order: &[usize]) -> Vec<u16> {
    order.iter().map(|&number| call(number)).collect()
}

fn leaves(count: usize) -> Macros {
    (0..count).map(|number| vec![1 + number as u16 % 255]).collect()
}

/// 64 macros of one key, and one that calls them all.
fn alone(order: &[usize]) -> Vec<Fixed> {
    let mut macros = leaves(64);
    macros.push(calls(order));
    each_way(64, &macros, &text(&[&[64], order].concat()))
}

/// Each of the 64 calls the one below: a call brings in those that are higher than all before it.
fn chained(order: &[usize]) -> Vec<Fixed> {
    let mut macros = leaves(1);
    macros.extend((1..64).map(|number| vec![b'x'.into(), call(number - 1)]));
    macros.push(calls(order));
    let mut list = vec![64];
    let mut known = 0;
    for &number in order {
        list.extend((known..=number).rev());
        known = known.max(number + 1);
    }
    each_way(64, &macros, &text(&list))
}

/// 64 macros of one key each, 64 more that call one of them each, from the other end, and one that calls these.
fn mirrored(order: &[usize]) -> Vec<Fixed> {
    let mut macros = leaves(64);
    macros.extend((0..64).map(|number| vec![call(63 - number), b'y'.into()]));
    let upper: Vec<usize> = order.iter().map(|number| 64 + number).collect();
    macros.push(calls(&upper));
    let mut list = vec![128];
    list.extend(order.iter().flat_map(|number| [64 + number, 63 - number]));
    each_way(128, &macros, &text(&list))
}

/// A macro that calls the first half, one that calls the other half, and one that calls the second of these
/// before the first; then one that calls all 64 from behind, which are all known, and a last one.
fn twice(order: &[usize]) -> Vec<Fixed> {
    let (first, second) = order.split_at(32);
    let backwards: Vec<usize> = order.iter().rev().copied().collect();
    let mut macros = leaves(64);
    macros.extend([calls(first), calls(second), calls(&[65, 64]), calls(&backwards)]);
    macros.push(calls(&[66, 67, 65, 64]));
    each_way(68, &macros, &text(&[&[68, 66, 65], second, &[64], first, &[67]].concat()))
}

/// The same macro called many times in a row, before another, behind it and on both sides.
fn rows() -> Vec<Fixed> {
    let row = |parts: &[(usize, usize)]| -> Vec<u16> {
        parts.iter().flat_map(|&(number, times)| vec![call(number); times]).collect()
    };
    let over =
        |items: Vec<u16>| vec![vec![b'a'.into()], vec![b'b'.into(), call(0)], vec![b'c'.into()], items];
    [
        each_way(3, &over(row(&[(0, 64)])), "3 0"),
        each_way(3, &over(row(&[(0, 63), (1, 1)])), "3 0 1"),
        each_way(3, &over(row(&[(1, 63), (0, 1)])), "3 1 0"),
        each_way(3, &over(row(&[(2, 1), (1, 63)])), "3 2 1 0"),
        each_way(3, &over(row(&[(0, 30), (2, 4), (1, 30)])), "3 0 2 1"),
        each_way(3, &over(row(&[(2, 31), (1, 1), (0, 1), (2, 31)])), "3 2 1 0"),
    ]
    .concat()
}
