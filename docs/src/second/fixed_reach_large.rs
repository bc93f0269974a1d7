//! Fixed reach lists of books with 1,024 macros or nearly so, most of them with runs that nobody could write out
//! (document 02, S-5). Each list is put together from stretches of numbers that were worked out by hand.

use crate::fixed::Fixed;
use crate::fixed_reach::{asked, each_way, stated};
use crate::fixed_reach_wide::text;
use crate::make_book::{call, keys, write, Macros};

const LAST: usize = 1023;

pub fn large_reaches() -> Vec<Fixed> {
    [chains(), two_below(), halves(), towers(), trees(), far_places(), full()].concat()
}

/// Numbers from one down to another, both included, in steps.
fn down(from: usize, to: usize, step: usize) -> Vec<usize> {
    (to..=from).rev().step_by(step).collect()
}

fn up(from: usize, to: usize, step: usize) -> Vec<usize> {
    (from..=to).step_by(step).collect()
}

/// Some macros, and then as many as books may have, each by its number.
fn filled(first: &[&[u8]], items: impl Fn(usize) -> Vec<u16>) -> Macros {
    let mut macros: Macros = first.iter().map(|text| keys(text)).collect();
    macros.extend((first.len()..=LAST).map(items));
    macros
}

/// Every macro calls the one below, alone, with keys before or behind, or twice, or with macro 0 besides.
fn chains() -> Vec<Fixed> {
    let x = u16::from(b'x');
    let plain = filled(&[b"a"], |number| vec![call(number - 1)]);
    let before = filled(&[b"a"], |number| vec![x, call(number - 1)]);
    let behind = filled(&[b"a"], |number| vec![call(number - 1), x]);
    let doubled = filled(&[b"a"], |number| vec![call(number - 1), call(number - 1)]);
    let ground_last = filled(&[b"a"], |number| vec![call(number - 1), call(0)]);
    let ground_first = filled(&[b"a"], |number| vec![call(0), call(number - 1)]);
    let falling = text(&down(LAST, 0, 1));
    let mut fixed = Vec::new();
    for macros in [&plain, &before, &behind, &doubled, &ground_last] {
        fixed.extend(each_way(LAST, macros, &falling));
    }
    fixed.extend(each_way(511, &plain, &text(&down(511, 0, 1))));
    fixed.extend(each_way(512, &doubled, &text(&down(512, 0, 1))));
    fixed.extend(each_way(0, &doubled, "0"));
    fixed.extend(each_way(LAST, &ground_first, &text(&[vec![LAST, 0], down(1022, 1, 1)].concat())));
    fixed.extend(each_way(600, &ground_first, &text(&[vec![600, 0], down(599, 1, 1)].concat())));
    fixed
}

/// Every macro calls the second one below, and then the one below, too.
fn two_below() -> Vec<Fixed> {
    let skipping = filled(&[b"a", b"b"], |number| vec![call(number - 2)]);
    let near_last = filled(&[b"a", b"b"], |number| vec![call(number - 2), call(number - 1)]);
    let near_first = filled(&[b"a", b"b"], |number| vec![call(number - 1), call(number - 2)]);
    // Down to macro 1; on the way back macro 3 calls 2, which calls 0, and then each even one is new.
    let from_odd = [down(LAST, 1, 2), vec![2, 0], up(4, 1022, 2)].concat();
    // Down to macro 0; on the way back each odd one is new.
    let from_even = [down(1022, 0, 2), up(1, 1021, 2)].concat();
    [
        each_way(LAST, &skipping, &text(&down(LAST, 1, 2))),
        each_way(1022, &skipping, &text(&down(1022, 0, 2))),
        each_way(LAST, &near_last, &text(&from_odd)),
        each_way(1022, &near_last, &text(&from_even)),
        // 2 enters 1 first, and 0 last.
        each_way(LAST, &near_first, &text(&down(LAST, 0, 1))),
    ]
    .concat()
}

/// Macro i calls the one at half its number and the one below.
fn halves() -> Vec<Fixed> {
    let macros = filled(&[b"a"], |number| vec![call(number / 2), call(number - 1)]);
    // 1023, 511 and so on down to 1 and 0; then 2; then 6 to 4, 14 to 8, and at last 1022 to 512.
    let mut list = vec![1023, 511, 255, 127, 63, 31, 15, 7, 3, 1, 0];
    for low in [2, 4, 8, 16, 32, 64, 128, 256, 512] {
        list.extend(down(2 * low - 2, low, 1));
    }
    each_way(LAST, &macros, &text(&list))
}

/// 512 macros of one key, and above them 512 that each call the one below 63 times, the lowest of them none, and
/// once one of the first: behind, before or in the middle.
fn towers() -> Vec<Fixed> {
    let leaf = keys(b"k");
    let tower = |before: usize| {
        let mut macros: Macros = vec![leaf.clone(); 513];
        macros[512] = vec![call(0)];
        for number in 513..=LAST {
            let mut items = vec![call(number - 1); 63];
            items.insert(before, call(number - 512));
            macros.push(items);
        }
        write(&macros)
    };
    let ask = |book, list: Vec<usize>| asked(LAST, 1030, book, &stated(&text(&list), 1030));
    // The lowest is through first.
    let behind = [down(LAST, 512, 1), up(0, 511, 1)].concat();
    let before = (0..512).flat_map(|place| [LAST - place, 511 - place]).collect();
    vec![
        ask(tower(63), behind.clone()),
        ask(tower(31), behind.clone()),
        ask(tower(1), behind),
        ask(tower(0), before),
    ]
}

/// 960 macros of one key, 60 that call 16 of them each, side by side or far apart, and one that calls the 60.
fn trees() -> Vec<Fixed> {
    let tree = |leaves: fn(usize) -> Vec<usize>, branches: Vec<usize>| {
        let mut macros: Macros = vec![keys(b"k"); 960];
        let calls = |numbers: &[usize]| numbers.iter().map(|&number| call(number)).collect();
        macros.extend((0..60).map(|branch| -> Vec<u16> { calls(&leaves(branch)) }));
        macros.push(calls(&branches));
        let below = branches.iter().flat_map(|&branch| [vec![branch], leaves(branch - 960)].concat());
        let list: Vec<usize> = [vec![1020], below.collect()].concat();
        each_way(1020, &macros, &text(&list))
    };
    let beside = |branch: usize| up(16 * branch, 16 * branch + 15, 1);
    let apart = |branch: usize| down(branch + 900, branch, 60);
    [
        tree(beside, up(960, 1019, 1)),
        tree(beside, down(1019, 960, 1)),
        tree(apart, up(960, 1019, 1)),
        tree(apart, (0..60).map(|place| 960 + (7 * place + 3) % 60).collect()),
    ]
    .concat()
}

/// Macro 100 has 2^96 keys; behind it and behind half of it come macros entered one key apart, the lower first.
fn far_places() -> Vec<Fixed> {
    let mut macros: Macros = vec![keys(b"a"), keys(b"b"), keys(b"c"), keys(b"d"), vec![call(3)]];
    macros.extend((5..=100).map(|number| vec![call(number - 1), call(number - 1)]));
    macros.push(vec![call(100), call(0), call(1), call(2)]);
    macros.push(vec![call(99), call(0), call(100), call(1), call(2)]);
    macros.push(vec![call(2), call(101), call(102), call(1)]);
    [
        each_way(101, &macros, &text(&[vec![101], down(100, 3, 1), vec![0, 1, 2]].concat())),
        each_way(102, &macros, &text(&[vec![102], down(99, 3, 1), vec![0, 100, 1, 2]].concat())),
        each_way(103, &macros, &text(&[vec![103, 2, 101], down(100, 3, 1), vec![0, 1, 102]].concat())),
    ]
    .concat()
}

/// The largest books: 64 macros of 64 keys, and all others call the 64 below them, rising or falling.
fn full() -> Vec<Fixed> {
    let book = |rising: bool| {
        let calls = |number: usize| {
            if rising {
                up(number - 64, number - 1, 1)
            } else {
                down(number - 1, number - 64, 1)
            }
        };
        let row = [b'k'; 64];
        write(&filled(&[&row[..]; 64], |number| calls(number).into_iter().map(call).collect()))
    };
    let ask = |number, book, list: &[usize]| asked(number, 1024, book, &stated(&text(list), 1024));
    // 1023, 959 and so on down to 63; macro 127 goes on with 64, which brings 0 to 62, and with 65 to 126; each
    // one above it goes on with the 63 that are new.
    let mut rising = [down(LAST, 63, 64), vec![64], up(0, 62, 1), up(65, 126, 1)].concat();
    for low in up(128, 960, 64) {
        rising.extend(up(low, low + 62, 1));
    }
    vec![
        ask(LAST, book(true), &rising),
        ask(LAST, book(false), &down(LAST, 0, 1)),
        ask(127, book(true), &[vec![127, 63, 64], up(0, 62, 1), up(65, 126, 1)].concat()),
    ]
}
