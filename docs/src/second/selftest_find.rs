//! Checks the lines that are sought (document 02, S-3): what is told without writing the run out against the run written
//! out, line by line, for every k; the measures against the same run; and what must agree in runs of any length.

use crate::batch::MOST_BYTES;
use crate::book::{self, Book};
use crate::case::{Case, Stream};
use crate::count::count_within;
use crate::describe::describe;
use crate::find::{book_find, FIND_WORDS};
use crate::fixed::{self, Fixed};
use crate::letters::BOTH;
use crate::line_ends::{less_final_cr, LF};
use crate::make_find;
use crate::make_question::sound_question;
use crate::meaning::line_matches;
use crate::measures::Measured;
use crate::natural::Natural;
use crate::question::Question;
use crate::refusal::{Refusal, LINE_NUMBER, NO_SUCH_LINE, SHORT_BUFFER};
use crate::rng::Rng;
use crate::seek::{Line, Seeker};
use crate::selftest::Checks;
use crate::selftest_find_laws;
use crate::selftest_find_made;
use crate::states::States;
use crate::tree::Pattern;
use crate::written::{lengths, Runs};

/// So many seeded books are looked at.
const SEEDED: u64 = 1500;
/// So long a run is written out.
const MOST_KEYS: u64 = 4_000;
/// So many lines of one run are sought at most, and so long ones are looked at in longer runs.
const MOST_LINES: usize = 400;
const MOST_LENGTH: u64 = 300;

pub fn all(checks: &mut Checks) {
    let fixed = fixed::of_finds();
    sizes(checks, &fixed);
    selftest_find_made::all(checks, &fixed);
    numbers(checks);
    streams(checks);
    for number in 0..SEEDED {
        let rng = &mut Rng::for_case(0x2F17, number);
        let (question, tree) = sound_question(rng, BOTH[number as usize % 2]);
        let (bytes, _, _) = make_find::some_book(rng, &question);
        match book::read(&bytes) {
            Ok(book) => every_macro(checks, rng, &question, &tree, &book),
            Err(refusal) => checks.check(false, || format!("a sound book was refused: {refusal}")),
        }
    }
}

/// The fixed ones go in one stream.
fn sizes(checks: &mut Checks, fixed: &[Fixed]) {
    let bytes: usize = fixed.iter().map(|fixed| fixed.case.bytes().len()).sum();
    checks.check(bytes <= MOST_BYTES && fixed.len() >= 1500, || {
        format!("{} cases, {bytes} bytes", fixed.len())
    });
}

/// Numbers of any size, against those of 128 bits.
fn numbers(checks: &mut Checks) {
    let rng = &mut Rng::new(0x2F18);
    let whole = |number: u128| {
        let mut high = Natural::of((number >> 64) as u64);
        for _ in 0..4 {
            let once = high.clone();
            high = Natural::default();
            high.add_times(&once, 65_535);
            high.add(&once);
        }
        high.add(&Natural::of(number as u64));
        high
    };
    for _ in 0..2000 {
        let mut some = || u128::from(rng.next() >> rng.below(64)) << rng.below(62);
        let (one, other) = (some(), some());
        let (low, high) = (one.min(other), one.max(other));
        let mut less = whole(high);
        less.subtract(&whole(low));
        checks.check(less == whole(high - low), || format!("{high} less {low}"));
        checks.check(whole(low) <= whole(high), || format!("{low} and {high}"));
        let word = u64::try_from(high).unwrap_or(u64::MAX);
        checks.check(whole(high).word() == word, || format!("the word of {high}"));
    }
}

/// Cases written to a stream and read again are the same.
fn streams(checks: &mut Checks) {
    let cases: Vec<Case> = make_find::cases(12, 400).collect();
    let bytes: Vec<u8> = cases.iter().flat_map(Case::bytes).collect();
    let mut stream = Stream { left: &bytes };
    for case in &cases {
        let read = stream.case().map(|case| case.bytes());
        checks.check(read == Some(case.bytes()), || format!("stream: {}", describe(case)));
    }
    checks.check(stream.left.is_empty(), || String::from("stream: bytes left over"));
}

fn every_macro(checks: &mut Checks, rng: &mut Rng, question: &Question, tree: &Pattern, book: &Book) {
    let last = book.macros.len() - 1;
    let (measured, states) = (Measured::of(book, last), States::of(tree));
    let lengths = lengths(book, last);
    let asked = rng.below(last + 1);
    for number in [asked, last] {
        let shown = |k: u64| shown(number, k, question, book);
        let mut seeker = Seeker::new(book, &states, &measured, number);
        if lengths[number] > MOST_KEYS {
            long_run(checks, rng, tree, book, &mut seeker, number, &shown);
            continue;
        }
        let mut runs = Runs::of(book);
        let run = runs.keep(number);
        checks.check(measured.macros[number].words() == measures(run), || format!("measures: {}", shown(0)));
        let matching = matching(run, tree);
        every_line(checks, &mut seeker, &matching, &shown);
        operation(checks, rng, question, book.bytes, number, &matching);
    }
}

fn shown(number: usize, k: u64, question: &Question, book: &Book) -> String {
    let (question, book) = (question.clone(), book.bytes.to_vec());
    describe(&Case::Find { number, words: 0, buffer: 0, k, question, book })
}

/// Line ends, keys before the first of them, keys behind the last, all keys.
fn measures(run: &[u8]) -> [u64; 4] {
    let front = run.iter().take_while(|&&key| key != LF).count();
    let back = run.iter().rev().take_while(|&&key| key != LF).count();
    let ends = run.iter().filter(|&&key| key == LF).count();
    [ends, front, back, run.len()].map(|count| count as u64)
}

/// A line's number, where it begins in the run, and its keys.
type Told<'a> = (u64, usize, &'a [u8]);

/// The lines of a run that match, from one line end to the next.
fn matching<'a>(run: &'a [u8], tree: &Pattern) -> Vec<Told<'a>> {
    let (mut told, mut from, mut number) = (Vec::new(), 0, 0);
    while from < run.len() {
        number += 1;
        let end = run[from..].iter().position(|&key| key == LF);
        let keys = end.map_or(&run[from..], |end| less_final_cr(&run[from..from + end]));
        if line_matches(tree, keys) {
            told.push((number, from, keys));
        }
        from = end.map_or(run.len(), |end| from + end + 1);
    }
    told
}

/// k from 0 to one behind the last.
fn every_line(checks: &mut Checks, seeker: &mut Seeker, matching: &[Told], shown: &impl Fn(u64) -> String) {
    let count = matching.len() as u64;
    checks.check(seeker.matches() == u128::from(count), || format!("how many lines: {}", shown(count)));
    for k in [0, count + 1, u64::MAX] {
        checks.check(seeker.line(k) == Err(NO_SUCH_LINE), || format!("no such line: {}", shown(k)));
    }
    let step = matching.len() / MOST_LINES + 1;
    for (place, &(number, from, keys)) in matching.iter().enumerate().step_by(step) {
        let k = place as u64 + 1;
        let line = seeker.line(k);
        let same = line.as_ref().map_or(false, |line| {
            let cut =
                [&line.place, &line.length].map(Natural::word) == [from, keys.len()].map(|at| at as u64);
            cut && line.number == number && seeker.keys(line, usize::MAX) == keys
        });
        checks.check(same, || format!("line {number}, told {line:?}: {}", shown(k)));
    }
}

/// The operation with a buffer one shorter, as long and longer, for one k.
fn operation(
    checks: &mut Checks,
    rng: &mut Rng,
    question: &Question,
    bytes: &[u8],
    number: usize,
    matching: &[Told],
) {
    let place = rng.below(matching.len() + 1);
    let (k, (line, _, keys)) = match matching.get(place) {
        Some(told) => (place as u64 + 1, *told),
        None => return,
    };
    for buffer in [keys.len().saturating_sub(1), keys.len(), keys.len() + 5] {
        let (mut lent, mut work) = (vec![1; buffer], vec![0; FIND_WORDS]);
        let answered = book_find(number, question, k, bytes, &mut lent, &mut work);
        let holds = match answered {
            Ok(told) => {
                told == (line, keys.len() as u64) && lent == [keys, &vec![1; buffer - keys.len()]].concat()
            }
            Err(refusal) => refusal == SHORT_BUFFER && buffer < keys.len() && lent == vec![1; buffer],
        };
        checks.check(holds, || format!("buffer {buffer}: {question:?} line {k} of {number} in {bytes:?}"));
    }
}

/// What must agree, however long the run is: as many lines as the count has, each one that is found matches, and they
/// stand one behind the other.
fn long_run(
    checks: &mut Checks,
    rng: &mut Rng,
    tree: &Pattern,
    book: &Book,
    seeker: &mut Seeker,
    number: usize,
    shown: &impl Fn(u64) -> String,
) {
    let count = count_within(book, tree, number, 0).lines;
    let matches = seeker.matches();
    checks.check(u64::try_from(matches).ok() == count, || format!("how many lines: {}", shown(0)));
    let most = u64::try_from(matches).unwrap_or(u64::MAX);
    let some = 1 + rng.next() % most.max(1);
    let asked = [1, 2, most / 2, most.saturating_sub(1), most, some].map(|k| k.max(1));
    checks.check(selftest_find_laws::hold(rng, tree, book, number, &asked), || {
        format!("laws: {}", shown(some))
    });
    for k in asked {
        let pair = [seeker.line(k), seeker.line(k.saturating_add(1))];
        checks.check(in_order(&pair, tree, seeker, k <= most), || format!("{pair:?}: {}", shown(k)));
    }
}

/// Two lines that follow each other, or one and a refusal.
fn in_order(pair: &[Result<Line, Refusal>; 2], tree: &Pattern, seeker: &Seeker, there: bool) -> bool {
    let matches =
        |line: &Line| line.length.word() > MOST_LENGTH || line_matches(tree, &seeker.keys(line, usize::MAX));
    match pair {
        [Ok(line), Ok(next)] => {
            let mut end = line.place.clone();
            end.add(&line.length);
            there && matches(line) && (line == next || line.number < next.number && end < next.place)
        }
        [Ok(line), Err(_)] => there && matches(line),
        [Err(refusal), Err(next)] => {
            let told = if there { LINE_NUMBER } else { NO_SUCH_LINE };
            *refusal == told && (*next == told || *next == NO_SUCH_LINE)
        }
        [Err(_), Ok(_)] => false,
    }
}
