//! The reach list in running order (document 02, S-5). A macro's place is how many keys of the run stand before
//! its first entry; the places are told from the macros' lengths, so no run is written out.

use crate::book::{Book, Item};
use crate::natural::Natural;

/// By place; macros entered at the same key follow each other from the outer to the inner one. There the inner
/// one is called by the outer one, directly or through others, so its number is lower.
pub fn reached(book: &Book, number: usize) -> Vec<u16> {
    let places = places(book, number);
    let mut list: Vec<usize> = (0..=number).filter(|&each| places[each].is_some()).collect();
    list.sort_by(|one, other| places[*one].cmp(&places[*other]).then(other.cmp(one)));
    list.into_iter().map(|each| each as u16).collect()
}

/// How many keys the run of each macro from 0 to `last` has.
pub fn lengths(book: &Book, last: usize) -> Vec<Natural> {
    let one = Natural::one();
    let mut lengths: Vec<Natural> = Vec::new();
    for number in 0..=last {
        let mut length = Natural::default();
        for (item, repeat) in book.repeated(number) {
            match item {
                Item::Key(_) => length.add_times(&one, repeat),
                Item::Call(called) => length.add_times(&lengths[called], repeat),
            }
        }
        lengths.push(length);
    }
    lengths
}

/// The place of each macro in the run of `number`; none for a macro that is not reached. Only higher macros call
/// a macro, so with the highest first its place is settled before its own calls are looked at, and it is enough
/// to look at them from that place. Of a repeated call the first pass is the first entry.
pub fn places(book: &Book, number: usize) -> Vec<Option<Natural>> {
    let (one, lengths) = (Natural::one(), lengths(book, number));
    let mut places: Vec<Option<Natural>> = vec![None; number + 1];
    places[number] = Some(Natural::default());
    for caller in (0..=number).rev() {
        let mut at = match &places[caller] {
            Some(place) => place.clone(),
            None => continue,
        };
        for (item, repeat) in book.repeated(caller) {
            match item {
                Item::Key(_) => at.add_times(&one, repeat),
                Item::Call(called) => {
                    bring_forward(&mut places[called], &at);
                    at.add_times(&lengths[called], repeat);
                }
            }
        }
    }
    places
}

/// The first entry is the one with the fewest keys before it.
fn bring_forward(place: &mut Option<Natural>, at: &Natural) {
    if place.as_ref().map_or(true, |known| at < known) {
        *place = Some(at.clone());
    }
}
