//! What must hold of lines in runs of any length (document 02, S-3): other books that write the same run give the same
//! lines, and line ends put in front move their numbers and places by as many.

use crate::book::{self, Book, MOST_MACROS};
use crate::line_ends::LF;
use crate::make_book::call;
use crate::meaning::line_matches;
use crate::measures::Measured;
use crate::natural::Natural;
use crate::refusal::{Refusal, LINE_NUMBER};
use crate::repeats::{write, Repeats};
use crate::rng::Rng;
use crate::seek::{Line, Seeker};
use crate::states::States;
use crate::tree::Pattern;

/// A line, and its first keys.
type Told = Result<(Line, Vec<u8>), Refusal>;

/// So many keys of a line are looked at.
const MOST_KEYS: usize = 100;

/// Whether both laws hold for each k of some macro.
pub fn hold(rng: &mut Rng, tree: &Pattern, book: &Book, number: usize, asked: &[u64]) -> bool {
    if book.macros.len() == MOST_MACROS {
        return true;
    }
    let own = lines(tree, book.bytes, number, asked);
    let times = rng.pick(&[1, 2, 3, 400, 65_535]);
    let mut above = repeats(book);
    above.push(vec![(u16::from(LF), times), (call(number), 1)]);
    let more = if line_matches(tree, b"") { u64::from(times) } else { 0 };
    let moved: Vec<u64> = asked.iter().map(|k| k.saturating_add(more)).collect();
    let behind = lines(tree, &write(&above), book.macros.len(), &moved);
    let follow = own.iter().zip(&behind).zip(asked);
    own == lines(tree, &write(&halved(book)), number, asked)
        && follow.into_iter().all(|((own, behind), &k)| {
            k.checked_add(more).is_none() || is_moved(own, behind, u64::from(times))
        })
}

/// The book's items with their repeat counts.
fn repeats(book: &Book) -> Repeats {
    let of_macro =
        |each: &book::Macro| each.items.iter().copied().zip(each.repeats.iter().copied()).collect();
    book.macros.iter().map(of_macro).collect()
}

/// The same runs with the passes of an item cut in two, as far as a macro has room for them.
fn halved(book: &Book) -> Repeats {
    let cut = |items: Vec<(u16, u16)>| {
        let mut room = 64 - items.len();
        let mut parts = Vec::new();
        for (item, repeat) in items {
            if repeat > 1 && room > 0 {
                room -= 1;
                parts.extend([(item, repeat / 2), (item, repeat - repeat / 2)]);
            } else {
                parts.push((item, repeat));
            }
        }
        parts
    };
    repeats(book).into_iter().map(cut).collect()
}

fn lines(tree: &Pattern, bytes: &[u8], number: usize, asked: &[u64]) -> Vec<Told> {
    let book = book::read(bytes).expect("a sound book was refused: the second program is wrong");
    let (measured, states) = (Measured::of(&book, number), States::of(tree));
    let mut seeker = Seeker::new(&book, &states, &measured, number);
    let mut told = |&k: &u64| {
        let line = seeker.line(k)?;
        let keys = seeker.keys(&line, MOST_KEYS);
        Ok((line, keys))
    };
    asked.iter().map(&mut told).collect()
}

/// By so many lines, and by as many keys.
fn is_moved(own: &Told, behind: &Told, times: u64) -> bool {
    match (own, behind) {
        (Ok((line, keys)), Ok((other, same))) => {
            let mut place = line.place.clone();
            place.add(&Natural::of(times));
            other.number == line.number + times
                && other.place == place
                && line.length == other.length
                && keys == same
        }
        (Ok((line, _)), Err(LINE_NUMBER)) => line.number > u64::MAX - times,
        (Err(refusal), Err(same)) => refusal == same,
        _ => false,
    }
}
