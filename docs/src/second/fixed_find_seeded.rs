//! Every matching line of some small books, each told from the run written out, line by line (document 02, S-3). The books
//! come from one fixed seed, so that they are the same each time.

use crate::book;
use crate::fixed::Fixed;
use crate::fixed_find::{asked, found, refused};
use crate::letters::BOTH;
use crate::line_ends::lines;
use crate::make_book::{shallow, write};
use crate::make_question::sound_question;
use crate::make_repeats_book::{at_seams, with_counts, Hand};
use crate::meaning::line_matches;
use crate::question::Question;
use crate::refusal::NO_SUCH_LINE;
use crate::repeats;
use crate::rng::Rng;
use crate::tree::Pattern;
use crate::written::Runs;

const SEED: u64 = 0x53F1;
/// So many books, none with more bytes, and none with more keys in its run.
const BOOKS: usize = 240;
const MOST_BYTES: usize = 220;
const MOST_KEYS: usize = 150;

pub fn every_line() -> Vec<Fixed> {
    let mut fixed = Vec::new();
    let mut books = 0;
    for turn in 0.. {
        let rng = &mut Rng::for_case(SEED, turn);
        let (question, tree) = sound_question(rng, BOTH[turn as usize % 2]);
        let bytes = some_book(rng, &question);
        if let Some(run) = short_run(&bytes) {
            fixed.extend(of_book(&question, &tree, &bytes, &run));
            books += 1;
        }
        if books == BOOKS {
            break;
        }
    }
    fixed
}

/// Of either version.
pub fn some_book(rng: &mut Rng, question: &Question) -> Vec<u8> {
    match rng.below(4) {
        0 | 1 => write(&shallow(rng, question)),
        2 => {
            let macros = shallow(rng, question);
            repeats::write(&with_counts(rng, &macros, Hand::Light))
        }
        _ => repeats::write(&at_seams(rng, question)),
    }
}

/// The run of the last macro.
fn short_run(bytes: &[u8]) -> Option<Vec<u8>> {
    let book = book::read(bytes).ok()?;
    let run = Runs::of(&book).keep(book.macros.len() - 1).to_vec();
    (bytes.len() <= MOST_BYTES && run.len() <= MOST_KEYS).then_some(run)
}

/// k from 0 to one behind the last, with as many bytes as the line needs or a few more.
fn of_book(question: &Question, tree: &Pattern, bytes: &[u8], run: &[u8]) -> Vec<Fixed> {
    let last = usize::from(bytes[5]) + 256 * usize::from(bytes[6]) - 1;
    let ask = |k: u64, buffer: usize, stated: &str| {
        asked(question.clone(), bytes.to_vec(), last, buffer, k, stated)
    };
    let mut fixed = vec![ask(0, 2, &refused(NO_SUCH_LINE, 2))];
    let mut k = 0;
    for (line, number) in lines(run).into_iter().zip(1..).filter(|(line, _)| line_matches(tree, line)) {
        k += 1;
        let buffer = line.len() + k as usize % 3;
        fixed.push(ask(k, buffer, &found(number, line, buffer)));
    }
    fixed.push(ask(k + 1, 5, &refused(NO_SUCH_LINE, 5)));
    fixed
}
