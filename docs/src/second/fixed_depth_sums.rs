//! Fixed depths of runs of 2^62 keys, one less and one more, put together from powers of two, and of such runs
//! with openings and closings against each other (document 02, S-6).

use crate::fixed::Fixed;
use crate::fixed_depth::{each_way, Row, ROUND};
use crate::fixed_depth_long::{chain, rows, LONGEST};
use crate::make_book::{call, Macros};

const OPEN: u16 = b'(' as u16;
const CLOSE: u16 = b')' as u16;
const OTHER: u16 = b'a' as u16;
const HALF: i128 = 1 << 61;
const QUARTER: i128 = 1 << 60;

pub fn long_sums() -> Vec<Fixed> {
    [sums(), against(), nearly()].concat()
}

/// A macro with so many openings, from 1 to 2^61, and one with so many closings.
fn up(power: usize) -> u16 {
    call(power)
}

fn down(power: usize) -> u16 {
    call(62 + power)
}

/// All of them, 2^61 down to 1: together 2^62 - 1 keys.
fn all(one: fn(usize) -> u16) -> Vec<u16> {
    (0..62).rev().map(one).collect()
}

/// The openings' macros 0 to 61, and the closings' 62 to 123.
fn both() -> (Macros, Vec<Row>) {
    let mut macros = chain(b"(", 61);
    macros.push(vec![CLOSE]);
    macros.extend((1..62).map(|power| vec![down(power - 1); 2]));
    (macros, [rows((1, 1, 0), 61), rows((1, -1, -1), 61)].concat())
}

fn top(items: Vec<u16>, row: Row) -> Vec<Fixed> {
    let (macros, all) = both();
    each_way(ROUND, &[&macros[..], &[items]].concat(), &[&all[..], &[row]].concat())
}

/// 2^62 - 1, 2^62 and 2^62 + 1 keys of one kind, and 2^64 - 1, which is 64 powers.
fn sums() -> Vec<Fixed> {
    let mut fixed = Vec::new();
    for (key, first) in [(b'(', (1, 1, 0)), (b')', (1, -1, -1)), (b'a', (1, 0, 0))] {
        let (_, end, lowest) = first;
        let times = |length: i128| Some((length, end * length, lowest * length));
        let powers: Vec<u16> = (0..62).rev().map(call).collect();
        for (more, row) in [
            (vec![], times(LONGEST - 1)),
            (vec![call(0)], times(LONGEST)),
            (vec![call(0), call(0)], None),
            (vec![call(1)], None),
        ] {
            let items = [&powers[..], &more].concat();
            for items in [items.clone(), items.into_iter().rev().collect()] {
                let macros = [&chain(&[key], 61)[..], &[items]].concat();
                fixed.extend(each_way(ROUND, &macros, &[&rows(first, 61)[..], &[row]].concat()));
            }
        }
        let wide = [&chain(&[key], 63)[..], &[(0..64).map(call).collect(), vec![call(64), call(0)]]].concat();
        let long = [&rows(first, 63)[..], &[None, None]].concat();
        fixed.extend(each_way(ROUND, &wide, &long[..65]));
        fixed.extend(each_way(ROUND, &wide, &long));
    }
    fixed
}

/// Half of the run one way and half of it the other.
fn against() -> Vec<Fixed> {
    let exactly = |end, lowest| Some((LONGEST, end, lowest));
    [
        top(vec![up(61), down(61)], exactly(0, 0)),
        top(vec![down(61), up(61)], exactly(0, -HALF)),
        top(vec![up(60), down(61), up(60)], exactly(0, -QUARTER)),
        top(vec![down(60), up(61), down(60)], exactly(0, -QUARTER)),
        top(vec![down(61), down(60), up(60)], exactly(-HALF, -HALF - QUARTER)),
        top(vec![up(61), up(60), down(60)], exactly(HALF, 0)),
        top(vec![up(60), down(60), down(60), up(60)], exactly(0, -QUARTER)),
        top(vec![down(60), up(60), up(60), down(60)], exactly(0, -QUARTER)),
        top(vec![up(60), down(61), down(60)], exactly(-HALF, -HALF)),
        top(vec![down(60), up(61), up(60)], exactly(HALF, -QUARTER)),
        top(vec![up(61), down(60), down(59)], Some((HALF + QUARTER + (1 << 59), 1 << 59, 0))),
        top(vec![down(61), up(61), OPEN], None),
        top(vec![CLOSE, up(61), down(61)], None),
        top(vec![up(61), OTHER, down(61)], None),
        top(vec![up(61), down(61), up(61), down(61)], None),
    ]
    .concat()
}

/// All but one or two keys the same.
fn nearly() -> Vec<Fixed> {
    let with = |before: &[u16], one: fn(usize) -> u16, behind: &[u16]| [before, &all(one), behind].concat();
    [
        top(with(&[], down, &[OPEN]), Some((LONGEST, 2 - LONGEST, 1 - LONGEST))),
        top(with(&[OPEN], down, &[]), Some((LONGEST, 2 - LONGEST, 2 - LONGEST))),
        top(with(&[], down, &[OTHER]), Some((LONGEST, 1 - LONGEST, 1 - LONGEST))),
        top(with(&[], down, &[CLOSE]), Some((LONGEST, -LONGEST, -LONGEST))),
        top(with(&[CLOSE], up, &[]), Some((LONGEST, LONGEST - 2, -1))),
        top(with(&[], up, &[CLOSE]), Some((LONGEST, LONGEST - 2, 0))),
        top(with(&[OTHER], up, &[]), Some((LONGEST, LONGEST - 1, 0))),
        top(with(&[OPEN], up, &[]), Some((LONGEST, LONGEST, 0))),
        top(with(&[OPEN], down, &[OPEN]), None),
        top(with(&[CLOSE], up, &[CLOSE]), None),
        top(with(&[CLOSE], down, &[CLOSE]), None),
        top(with(&[OTHER], up, &[OTHER]), None),
    ]
    .concat()
}
