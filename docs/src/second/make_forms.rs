//! Seeded books of version 1 that are asked in their forms of version 2 as well (document 02, S-8).

use crate::book::MOST_ITEMS;
use crate::depth::Keys;
use crate::forms::Forms;
use crate::make::macros_for;
use crate::make_book::Macros;
use crate::make_depth;
use crate::make_question::{some_letters, sound_question};
use crate::question::Question;
use crate::rng::Rng;

pub fn forms(seed: u64, count: u64) -> impl Iterator<Item = Forms> {
    (0..count).map(move |number| of_one(&mut Rng::for_case(seed ^ 0xF023, number)))
}

fn of_one(rng: &mut Rng) -> Forms {
    let letters = some_letters(rng);
    let (question, _) = sound_question(rng, letters);
    let keys =
        if rng.chance(50) { Keys { opening: b'a', closing: b'b' } } else { make_depth::some_pair(rng) };
    let macros = book(rng, &question, keys);
    let number = if rng.chance(75) { macros.len() - 1 } else { rng.below(macros.len()) };
    let more = rng.pick(&[0, 0, 1, 30]);
    Forms { why: String::from("seeded"), macros, number, question, keys, more, stated: None }
}

/// Mostly with equal items one behind the other.
fn book(rng: &mut Rng, question: &Question, keys: Keys) -> Macros {
    let mut macros = match rng.below(5) {
        0 => make_depth::small(rng, keys),
        _ => macros_for(rng, question),
    };
    let percent = rng.pick(&[0, 20, 60]);
    for items in macros.iter_mut() {
        let times = |rng: &mut Rng| if rng.chance(percent) { rng.between(2, 5) } else { 1 };
        *items = items.iter().flat_map(|&item| vec![item; times(rng)]).collect();
        items.truncate(MOST_ITEMS);
    }
    macros
}
