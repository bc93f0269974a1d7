//! Checks reach lists (document 02, S-5): against runs written out with a note of the macros entered at each key,
//! against the lists of the called macros put one behind the other, and against the words of S-5 one by one.

use crate::book::{self, item, Book, Item};
use crate::case::Case;
use crate::fixed;
use crate::make::macro_count;
use crate::make_book::{call, write, Macros};
use crate::make_large::largest_books;
use crate::make_reach;
use crate::natural::Natural;
use crate::reach::reached;
use crate::rng::Rng;
use crate::selftest::Checks;
use crate::selftest_reach_made;
use crate::written::{lengths, Runs};

/// So many keys are written out with notes.
const MOST_KEYS: u64 = 3000;
const SEEDED: u64 = 1500;

pub fn all(checks: &mut Checks) {
    naturals(checks);
    tiny_books(checks);
    for number in 0..SEEDED {
        let mut rng = Rng::for_case(0x5EAC, number);
        let count = rng.between(2, 40);
        let macros = make_reach::macros(&mut rng, count);
        every_macro(checks, &write(&macros));
    }
    for fixed in fixed::of_reach_lists() {
        if let Case::Reach { number, book, .. } = fixed.case {
            asked(checks, &book, number);
        }
    }
    let rng = &mut Rng::new(0x5EAD);
    for bytes in largest_books(rng).into_iter().chain(make_reach::full_books(rng)) {
        asked(checks, &bytes, 1023);
    }
    selftest_reach_made::all(checks);
}

/// Sums past a word and past two, and which is the greater.
fn naturals(checks: &mut Checks) {
    let mut powers = vec![Natural::one()];
    for place in 0..200 {
        let mut twice = powers[place].clone();
        twice.add(&powers[place]);
        powers.push(twice);
    }
    let mut all_below = Natural::default();
    for power in &powers {
        let mut next = all_below.clone();
        next.add(&Natural::one());
        checks.check(&all_below < power && &next == power, || String::from("numbers of any size"));
        all_below.add(power);
    }
}

/// Every book of five macros of one or two items, in which macro 0 is a key.
fn tiny_books(checks: &mut Checks) {
    let mut books: Vec<Macros> = vec![vec![vec![97]]];
    for number in 1..5 {
        let items: Vec<u16> = (0..number).map(call).chain([98]).collect();
        let pairs = items.iter().flat_map(|&one| items.iter().map(move |&other| vec![one, other]));
        let bodies: Vec<Vec<u16>> = items.iter().map(|&one| vec![one]).chain(pairs).collect();
        let longer = |macros: &Macros| -> Vec<Macros> {
            bodies.iter().map(|body| [&macros[..], &[body.clone()]].concat()).collect()
        };
        books = books.iter().flat_map(longer).collect();
    }
    for macros in books {
        asked(checks, &write(&macros), 4);
    }
}

fn every_macro(checks: &mut Checks, bytes: &[u8]) {
    for number in 0..macro_count(bytes) {
        asked(checks, bytes, number);
    }
}

/// Nothing is checked of a book that is refused.
fn asked(checks: &mut Checks, bytes: &[u8], number: usize) {
    if let Ok(book) = book::read(bytes) {
        if number < book.macros.len() {
            checks.check(is_right(&book, number), || format!("reach list of {number} in {bytes:?}"));
        }
    }
}

/// The list by all the methods that the book allows.
pub fn is_right(book: &Book, number: usize) -> bool {
    let list = reached(book, number);
    let right = list == reached_upwards(book, number) && keeps_the_numbers(book, number, &list);
    if lengths(book, number)[number] > MOST_KEYS {
        return right;
    }
    let mut run = Vec::new();
    write_out(book, number, &mut run);
    let same_run = run.iter().map(|noted| noted.key).eq(Runs::of(book).keep(number).iter().copied());
    right && same_run && list == by_notes(&run) && keeps_the_places(book, &run, &list)
}

/// A key of a run, and the macros that the run enters at it, the outer one first.
struct Noted {
    key: u8,
    entered: Vec<u16>,
}

/// The items in order, each call replaced by the called macro's written-out run. The macro is entered at the
/// first key of them, pass by pass; those inside it are noted there before it is.
fn write_out(book: &Book, number: usize, run: &mut Vec<Noted>) {
    let first = run.len();
    for (item, repeat) in book.repeated(number) {
        for _ in 0..repeat {
            match item {
                Item::Key(key) => run.push(Noted { key, entered: Vec::new() }),
                Item::Call(called) => write_out(book, called, run),
            }
        }
    }
    run[first].entered.insert(0, number as u16);
}

/// The macros in the order in which the notes name them first.
fn by_notes(run: &[Noted]) -> Vec<u16> {
    let mut list = Vec::new();
    for number in run.iter().flat_map(|noted| &noted.entered) {
        if !list.contains(number) {
            list.push(*number);
        }
    }
    list
}

/// "A macro stands at the place where the run first enters it, the outer one first where two are entered at the
/// same key": the outer one reaches the other.
fn keeps_the_places(book: &Book, run: &[Noted], list: &[u16]) -> bool {
    let place = |number: &u16| run.iter().position(|noted| noted.entered.contains(number));
    let places: Vec<Option<usize>> = list.iter().map(place).collect();
    (1..list.len()).all(|behind| {
        let (before, then) = (list[behind - 1], list[behind]);
        let same_key = places[behind - 1] == places[behind];
        let outer = || reached_before(book, before.into()).contains(&then);
        places[behind].is_some() && (places[behind - 1] < places[behind] || same_key && outer())
    })
}

/// "The named macro at the front", and "the same numbers as before, each once".
fn keeps_the_numbers(book: &Book, number: usize, list: &[u16]) -> bool {
    let mut sorted = list.to_vec();
    sorted.sort_unstable();
    list[0] == number as u16 && sorted == reached_before(book, number)
}

/// The macro itself and every macro it calls, directly or through others, each once, in ascending order.
fn reached_before(book: &Book, number: usize) -> Vec<u16> {
    let mut seen = vec![false; number + 1];
    let mut waiting = vec![number];
    while let Some(next) = waiting.pop() {
        if seen[next] {
            continue;
        }
        seen[next] = true;
        for &written in book.items(next) {
            if let Item::Call(called) = item(written) {
                waiting.push(called);
            }
        }
    }
    (0..=number).filter(|&each| seen[each]).map(|each| each as u16).collect()
}

/// What a macro reaches, from the lists of the macros it calls: they follow each other as the calls do, and what
/// stood before is left out.
pub fn reached_upwards(book: &Book, last: usize) -> Vec<u16> {
    let mut lists: Vec<Vec<u16>> = Vec::new();
    for number in 0..=last {
        let mut seen = vec![false; number + 1];
        let mut list = vec![number as u16];
        for &written in book.items(number) {
            if let Item::Call(called) = item(written) {
                for &each in &lists[called] {
                    if !std::mem::replace(&mut seen[usize::from(each)], true) {
                        list.push(each);
                    }
                }
            }
        }
        lists.push(list);
    }
    lists.swap_remove(last)
}
