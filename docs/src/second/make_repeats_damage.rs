//! Damaged books of version 2: one or two faults put into a sound one (document 02, S-8).

use crate::make_damage::{damage_item, damage_item_count, put, shift, some_item};
use crate::rng::Rng;

/// So many bytes an item of version 2 has.
const ITEM: usize = 4;

pub fn damage(rng: &mut Rng, bytes: &mut Vec<u8>) {
    for _ in 0..rng.pick(&[1, 1, 1, 2, 3]) {
        damage_once(rng, bytes);
    }
}

fn damage_once(rng: &mut Rng, bytes: &mut Vec<u8>) {
    let length = bytes.len();
    if length < 13 {
        bytes.push(rng.byte());
        return;
    }
    match rng.below(16) {
        0 => put(bytes, 3, rng.pick(&[0, 1, 1, 3, 4, 256, 258, 512, 65_535])),
        1 => put(bytes, 5, rng.pick(&[0, 1, 1_024, 1_025, 65_535, 256])),
        2 => shift(rng, bytes, 5),
        3 => bytes.truncate(rng.below(length)),
        4..=5 => bytes.truncate(length - rng.between(1, 4)),
        6 => bytes.extend((0..rng.between(1, 5)).map(|place| place as u8)),
        7 => damage_item_count(rng, bytes, ITEM),
        8..=9 => damage_item(rng, bytes, ITEM),
        10..=13 => no_repeat(rng, bytes),
        _ => {
            let place = rng.below(length);
            bytes[place] ^= 1 << rng.below(8);
        }
    }
}

/// A repeat count of 0, sometimes with another fault of the same item or of one near it.
fn no_repeat(rng: &mut Rng, bytes: &mut Vec<u8>) {
    if let Some((at, number)) = some_item(rng, bytes, ITEM) {
        put(bytes, at + 2, 0);
        match rng.below(8) {
            0 => put(bytes, at, 0),
            1 => put(bytes, at, 256 + number as u16),
            2 => bytes.truncate(at + rng.between(1, 3)),
            3 if at + 2 * ITEM <= bytes.len() => put(bytes, at + ITEM, 0),
            _ => {}
        }
    }
}
