//! Runs of the command's `line` and `lines` (document 02, S-3).

use crate::asked;
use crate::case::Case;
use crate::command::{self, Run, Start, Way};
use crate::command_form::Sought;
use crate::command_form_lines::in_turn;
use crate::compare_line_stated;
use crate::expected::Expected;
use crate::fixed;
use crate::letters::Letters;
use crate::make::macro_count;
use crate::make_find;
use crate::make_large::{largest_books, BUSY};
use crate::make_repeats_large;
use crate::question::Question;
use crate::rng::Rng;
use crate::show::shown;
use crate::tally::Tally;

/// One of so many fixed cases, and so many seeded runs of each verb.
const SHARE: usize = 9;
const SEEDED: u64 = 60;
/// As many lines as are shown without a number, and at most.
const DEFAULT_LINES: usize = 10;
const MOST_LINES: u64 = 1_024;

pub fn compare(program: &str, seed: u64) -> Result<Tally, String> {
    command::compare(program, &runs(seed), own_answer)
}

pub fn runs(seed: u64) -> Vec<Run> {
    let mut starts: Vec<Start> = shared();
    starts.extend(large_starts(seed));
    for number in 0..2 * SEEDED {
        starts.push(seeded_start(&mut Rng::for_case(seed ^ 0x11E5, number), number % 2 == 0));
    }
    // A byte 0 cannot stand in an argument.
    starts.retain(|start| !start.pattern.iter().any(|(_, pattern)| pattern.contains(&0)));
    let mut runs: Vec<Run> = starts.into_iter().map(|start| (start, None)).collect();
    runs.extend(compare_line_stated::runs());
    for (place, (start, _)) in runs.iter_mut().enumerate() {
        start.way = Way::in_turn(place);
    }
    runs
}

/// Without numbers where numbers must be there is no answer, whatever else is asked.
pub fn own_answer(start: &Start) -> Expected {
    let asked = start.asked.as_deref().map(asked::number);
    let k = start.sought.k.as_deref().map_or(Some(1), asked::decimal);
    let most = match start.sought.most.as_deref() {
        None if start.verb == "line" => Some(1),
        None => Some(DEFAULT_LINES),
        Some(text) => {
            asked::decimal(text).filter(|most| (1..=MOST_LINES).contains(most)).map(|most| most as usize)
        }
    };
    match (start.question(), asked, k, most) {
        (_, Some(None), _, _) => Expected::Nothing,
        (Some(question), asked, Some(k), Some(most)) => {
            match shown(asked.flatten(), &question, k, most, &start.book) {
                Ok(lines) => Expected::Shown(lines),
                Err(refusal) => Expected::refused(refusal),
            }
        }
        _ => Expected::Nothing,
    }
}

/// A start with the next form in turn that fits.
pub fn start(
    verb: &'static str,
    question: &Question,
    [k, most]: [Option<String>; 2],
    book: Vec<u8>,
    asked: Option<String>,
    turn: usize,
) -> Start {
    let mut sought = Sought { k, most, behind: "" };
    let (form, behind) = in_turn(turn, verb, question.letters, &question.pattern, &sought);
    sought.behind = behind;
    let pattern = Some((form, question.pattern.clone()));
    Start { verb, pattern, keys: None, sought, way: Way::Path, book, asked }
}

/// Every `SHARE`th fixed case as a line, and each second of these as lines, from there on.
fn shared() -> Vec<Start> {
    let mut starts = Vec::new();
    for (turn, fixed) in fixed::of_finds().into_iter().step_by(SHARE).enumerate() {
        if let Case::Find { number, k, question, book, .. } = fixed.case {
            let asked = Some(number.to_string());
            let first = Some(k.to_string());
            if turn % 2 == 0 {
                let most = (turn % 4 == 0).then(|| (1 + turn % 5).to_string());
                let numbers = [first.clone(), most];
                starts.push(start("lines", &question, numbers, book.clone(), asked.clone(), turn / 2));
            }
            starts.push(start("line", &question, [first, None], book, asked, turn));
        }
    }
    starts
}

/// The largest books of both versions.
fn large_starts(seed: u64) -> Vec<Start> {
    let mut books = largest_books(&mut Rng::new(seed ^ 0xB17));
    books.extend(make_repeats_large::books(&mut Rng::new(seed ^ 0xB18)));
    let mut starts = Vec::new();
    for (turn, book) in books.into_iter().enumerate() {
        let busy = Question::new(Letters::Apart, BUSY);
        let (k, most) = (Some((1u64 << (7 * turn)).to_string()), Some(String::from("20")));
        starts.push(start("lines", &busy, [k.clone(), most], book.clone(), None, turn));
        starts.push(start("line", &busy, [k, None], book, Some(String::from("1000")), turn));
    }
    starts
}

/// The books of the seeded cases, with the same k, or without one, and with macros named and not.
fn seeded_start(rng: &mut Rng, one: bool) -> Start {
    let turn = rng.below(1000);
    let Case::Find { question, k, book, .. } = make_find::case(rng) else {
        unreachable!("a seeded case of another kind: the second program is wrong");
    };
    let asked = asked::seeded(rng, macro_count(&book).max(1));
    let zeros = if rng.chance(10) { rng.below(30) } else { 0 };
    let k = Some(format!("{:0>1$}", k, zeros));
    if one {
        return start("line", &question, [k, None], book, asked, turn);
    }
    let k = k.filter(|_| rng.chance(60));
    let most = rng.chance(50).then(|| rng.pick(&[1, 2, 3, 9, 10, 11, 40, 100]).to_string());
    start("lines", &question, [k, most], book, asked, turn)
}
