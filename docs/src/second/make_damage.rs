//! Damaged books: one or two faults put into a sound one (document 01, "Refused", 1 to 6).
//! What follows an item count takes the number of bytes that an item has.

use crate::rng::Rng;

/// So many bytes an item of version 1 has.
const ITEM: usize = 2;

pub fn damage_book(rng: &mut Rng, bytes: &mut Vec<u8>) {
    for _ in 0..rng.pick(&[1, 1, 1, 2, 3]) {
        damage_once(rng, bytes);
    }
}

fn damage_once(rng: &mut Rng, bytes: &mut Vec<u8>) {
    let length = bytes.len();
    if length < 12 {
        bytes.push(rng.byte());
        return;
    }
    match rng.below(12) {
        0 => bytes[rng.below(3)] ^= 1 << rng.below(8),
        1 => put(bytes, 3, rng.pick(&[0, 3, 256, 257, 65535])),
        2 => put(bytes, 5, rng.pick(&[0, 1, 1024, 1025, 65535, 256])),
        3 => shift(rng, bytes, 5),
        4 => bytes.truncate(rng.below(length)),
        5 => bytes.truncate(length - 1 - rng.below(2)),
        6 => bytes.extend((0..rng.between(1, 4)).map(|place| place as u8)),
        7 => damage_item_count(rng, bytes, ITEM),
        8 | 9 => damage_item(rng, bytes, ITEM),
        _ => {
            let place = rng.below(length);
            bytes[place] ^= 1 << rng.below(8);
        }
    }
}

pub fn put(bytes: &mut [u8], at: usize, number: u16) {
    bytes[at..at + 2].copy_from_slice(&number.to_le_bytes());
}

fn get(bytes: &[u8], at: usize) -> usize {
    usize::from(bytes[at]) + 256 * usize::from(bytes[at + 1])
}

/// One more or one less than stands there.
pub fn shift(rng: &mut Rng, bytes: &mut [u8], at: usize) {
    let number = get(bytes, at) as u16;
    put(bytes, at, if rng.chance(50) { number.wrapping_add(1) } else { number.wrapping_sub(1) });
}

/// Where the item counts stand, as far as they can be followed.
fn counts(bytes: &[u8], width: usize) -> Vec<usize> {
    let mut places = Vec::new();
    let mut at = 7;
    while at + 2 <= bytes.len() {
        places.push(at);
        at += 2 + width * get(bytes, at);
    }
    places
}

pub fn damage_item_count(rng: &mut Rng, bytes: &mut [u8], width: usize) {
    let places = counts(bytes, width);
    if places.is_empty() {
        return;
    }
    let at = rng.pick(&places);
    if rng.chance(40) {
        shift(rng, bytes, at);
    } else {
        put(bytes, at, rng.pick(&[0, 64, 65, 256, 257, 65_535]));
    }
}

/// Where an item stands, and the number of its macro.
pub fn some_item(rng: &mut Rng, bytes: &[u8], width: usize) -> Option<(usize, usize)> {
    let places = counts(bytes, width);
    if places.is_empty() {
        return None;
    }
    let number = rng.below(places.len());
    let items = get(bytes, places[number]).max(1);
    let at = places[number] + 2 + width * rng.below(items);
    (at + width <= bytes.len()).then_some((at, number))
}

/// An item 0, a call of the macro itself or a later one, or a call far away.
pub fn damage_item(rng: &mut Rng, bytes: &mut [u8], width: usize) {
    if let Some((at, number)) = some_item(rng, bytes, width) {
        let itself = 256 + number as u16;
        let choices = [0, itself, itself.wrapping_sub(1), itself + 1, 256, 65_535, 255, 1];
        put(bytes, at, rng.pick(&choices));
    }
}
