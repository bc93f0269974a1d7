//! Seeded triples of reports (document 02, S-7): of numbers that keep the rules, and of runs under one pattern.

use crate::line_ends::{CR, LF};
use crate::make_line;
use crate::make_question::{some_letters, sound_question};
use crate::make_returns;
use crate::make_triple_long::long_runs;
use crate::make_triple_report::report;
use crate::question::Question;
use crate::rng::Rng;
use crate::triple::Triple;
use crate::triple_runs::of_runs;

const TOP: u64 = u64::MAX;
const HALF: u64 = 1 << 63;
const NEAR_TOP: [u64; 12] = [TOP, TOP, TOP - 1, TOP - 1, TOP - 2, HALF, HALF, HALF - 1, HALF + 1, 0, 0, 1];

pub fn triples(seed: u64, count: u64) -> impl Iterator<Item = Triple> {
    (0..count).map(move |number| triple(&mut Rng::for_case(seed ^ 0x791B, number)))
}

/// Of every three one is of runs, and some of these are long.
pub fn triple(rng: &mut Rng) -> Triple {
    match rng.below(100) {
        0..=4 => return long_runs(rng),
        5..=34 => return runs(rng),
        _ => {}
    }
    let s = match rng.below(12) {
        0..=1 => 3,
        2 => 31,
        3..=5 => 32,
        _ => rng.between(3, 32) as u64,
    };
    let closed = closed(rng);
    // Sums need flags of 1; all mixes are wanted, too.
    let flags: &[u64] = if rng.chance(70) { &[0, 0, 1, 1, 1] } else { &[0, 1, 2] };
    let mut part = |closed| {
        let flag = rng.pick(flags);
        report(rng, s, flag, closed)
    };
    Triple { why: String::from("seeded numbers"), parts: closed.map(&mut part), whole: None }
}

/// Small ones, any at all, those about the limits, and those that come to the limit or just past it together;
/// what the lines across add decides.
fn closed(rng: &mut Rng) -> [u64; 3] {
    match rng.below(10) {
        0..=1 => [0; 3].map(|_| rng.below(9) as u64),
        2 => [0; 3].map(|_| rng.next()),
        3..=4 => [0; 3].map(|_| rng.pick(&NEAR_TOP)),
        _ => divided(rng),
    }
}

/// Three numbers that make 2^64 - 1 less 0 to 3, some of them 0.
fn divided(rng: &mut Rng) -> [u64; 3] {
    let sum = TOP - rng.pick(&[0, 0, 1, 1, 2, 3]);
    let first = match rng.below(4) {
        0 => sum,
        1 => HALF,
        _ => rng.next() % sum,
    };
    let second = match rng.below(3) {
        0 => 0,
        1 => sum - first,
        _ => rng.next() % (sum - first + 1),
    };
    let mut three = [first, second, sum - first - second];
    three.rotate_left(rng.below(3));
    three
}

/// A run cut in three, or three runs; some of them hardly more than a line end, or nothing.
fn runs(rng: &mut Rng) -> Triple {
    let letters = some_letters(rng);
    let (question, _) = sound_question(rng, letters);
    let mut runs = if rng.chance(45) { cut(rng, &question) } else { [(); 3].map(|_| one(rng, &question)) };
    for run in runs.iter_mut() {
        match rng.below(12) {
            0 => run.clear(),
            1 => *run = make_returns::lone(rng).to_vec(),
            2 => run.push(CR),
            3 => run.insert(0, LF),
            _ => {}
        }
    }
    of_runs("seeded runs", &question, &runs.each_ref().map(|run| &run[..]))
}

fn one(rng: &mut Rng, question: &Question) -> Vec<u8> {
    let mut run = make_line::run(rng, question);
    if rng.chance(40) {
        run.retain(|&key| key != LF);
    }
    make_returns::stray(rng, &mut run);
    run
}

/// Often between a CR and its LF.
fn cut(rng: &mut Rng, question: &Question) -> [Vec<u8>; 3] {
    let run = one(rng, question);
    let mut places = [0; 2].map(|_| {
        let meet: Vec<usize> = (1..run.len()).filter(|&place| run[place - 1..=place] == [CR, LF]).collect();
        if !meet.is_empty() && rng.chance(50) {
            rng.pick(&meet)
        } else {
            rng.below(run.len() + 1)
        }
    });
    places.sort_unstable();
    [&run[..places[0]], &run[places[0]..places[1]], &run[places[1]..]].map(<[u8]>::to_vec)
}
