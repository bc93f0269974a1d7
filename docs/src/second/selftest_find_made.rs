//! Checks that the fixed cases of a line that is sought are answered as stated, that the seeded ones ask enough, and that
//! wrong programs are seen by both (document 02, S-3).

use crate::answer::answer;
use crate::case::Case;
use crate::describe::describe;
use crate::fixed::Fixed;
use crate::line_ends::{CR, LF};
use crate::make_find;
use crate::measures::Measures;
use crate::seek::Line;
use crate::selftest::Checks;
use crate::selftest_find_parts::Parts;
use crate::selftest_find_wrong::{Wrong, WRONG};
use std::collections::BTreeMap;

const SEEDED: u64 = 3000;
/// A wrong program is seen by so many fixed cases at least, and by so many seeded ones.
const LEAST_FIXED: usize = 5;
const LEAST_SEEDED: usize = 3;
const TOLD_SEEDED: usize = 1200;

/// What must be seen among the seeded cases, and how often at least.
const LEAST: &[(&str, usize)] = &[
    ("F", 1_500),
    ("f", 700),
    ("version 1", 1_000),
    ("version 2", 1_200),
    ("line", 800),
    ("refused 1", 5),
    ("refused 2", 5),
    ("refused 3", 3),
    ("refused 4", 40),
    ("refused 5", 2),
    ("refused 6", 10),
    ("refused 7", 3),
    ("refused 8", 10),
    ("refused 9", 1),
    ("refused 10", 50),
    ("refused 11", 100),
    ("refused 15", 300),
    ("refused 16", 15),
    ("refused 17", 200),
    ("refused 20", 10),
    ("k is 0", 80),
    ("one more than there are", 80),
    ("the last one", 200),
    ("k over 2^32", 60),
    ("k from 2^64 - 3 on", 15),
    ("a number over 2^32", 40),
    ("an empty line", 100),
    ("a line with a CR", 40),
    ("a CR before the line's end", 60),
    ("a line without an end", 100),
    ("as many bytes as keys", 300),
    ("one byte fewer", 100),
    ("more bytes", 150),
    ("a line over more than one macro", 200),
    ("over 2^64 - 1 line ends", 60),
    ("over 2^64 - 1 keys", 100),
];

/// What was seen, and how often.
type Seen = BTreeMap<String, usize>;

pub fn all(checks: &mut Checks, fixed: &[Fixed]) {
    let mut told = Told::new();
    for fixed in fixed {
        let own = answer(&fixed.case);
        checks.check(fixed.agrees(&own), || {
            format!("{}\nstated {}, answered {own}", describe(&fixed.case), fixed.stated)
        });
        if let Some(parts) = Parts::of(&fixed.case) {
            told.look_at(checks, &parts, &own);
        }
    }
    told.check(checks, "fixed", LEAST_FIXED);
    seeded(checks);
}

fn seeded(checks: &mut Checks) {
    let (mut told, mut seen) = (Told::new(), Seen::new());
    for (turn, case) in make_find::cases(0x5E20, SEEDED).enumerate() {
        let own = answer(&case);
        note_answer(&mut seen, &case, &own);
        if let Some(parts) = Parts::of(&case) {
            look_at(&mut seen, &parts);
            if turn < TOLD_SEEDED {
                told.look_at(checks, &parts, &own);
            }
        }
    }
    told.check(checks, "seeded", LEAST_SEEDED);
    for (what, least) in LEAST {
        let times = seen.get(*what).copied().unwrap_or(0);
        checks.check(times >= *least, || format!("seeded lines: {what} {times} times, not {least}"));
    }
}

/// How often each wrong program gave another answer.
struct Told {
    wrong: Vec<&'static Wrong>,
    times: Vec<usize>,
}

impl Told {
    fn new() -> Told {
        let wrong: Vec<&Wrong> = WRONG.iter().copied().flatten().collect();
        Told { times: vec![0; wrong.len()], wrong }
    }

    /// Put together rightly, the parts give the right answer.
    fn look_at(&mut self, checks: &mut Checks, parts: &Parts, own: &str) {
        let again = parts.with_line(parts.right.clone());
        checks.check(again == own, || format!("{own} told otherwise: {again}"));
        for (times, (_, wrong)) in self.times.iter_mut().zip(&self.wrong) {
            *times += usize::from(wrong(parts) != own);
        }
    }

    fn check(&self, checks: &mut Checks, name: &str, least: usize) {
        for (times, (wrong, _)) in self.times.iter().zip(&self.wrong) {
            checks.check(*times >= least, || format!("{name} lines: {wrong} is seen {times} times"));
        }
    }
}

fn note(seen: &mut Seen, what: &str, holds: bool) {
    *seen.entry(String::from(what)).or_default() += usize::from(holds);
}

/// By its first word, a refusal by its number.
fn note_answer(seen: &mut Seen, case: &Case, line: &str) {
    note(seen, &char::from(case.kind()).to_string(), true);
    let words: Vec<&str> = line.split(' ').collect();
    match words[0] {
        "refused" => note(seen, &format!("refused {}", words[1]), true),
        first => note(seen, first, true),
    }
}

fn look_at(seen: &mut Seen, parts: &Parts) {
    let own: &Measures = &parts.measured.macros[parts.number];
    let [ends, _, _, keys] = own.words();
    note(seen, &format!("version {}", parts.book.version()), true);
    note(seen, "over 2^64 - 1 line ends", ends == u64::MAX);
    note(seen, "over 2^64 - 1 keys", keys == u64::MAX);
    note(seen, "k is 0", parts.k == 0);
    note(seen, "k over 2^32", parts.k >> 32 > 0);
    note(seen, "k from 2^64 - 3 on", parts.k >= u64::MAX - 2);
    let matches = parts.matches();
    note(seen, "one more than there are", u128::from(parts.k) == matches + 1);
    note(seen, "the last one", parts.k > 0 && u128::from(parts.k) == matches);
    if let Some(found) = parts.found() {
        look_at_line(seen, parts, &found, ends);
    }
}

/// A line that is there, whatever the buffer.
fn look_at_line(seen: &mut Seen, parts: &Parts, line: &Line, ends: u64) {
    let (length, room) = (line.length.word(), parts.buffer as u64);
    note(seen, "a number over 2^32", line.number >> 32 > 0);
    note(seen, "an empty line", length == 0);
    note(seen, "a line without an end", line.number == ends.saturating_add(1));
    note(seen, "as many bytes as keys", length == room && room > 0);
    note(seen, "one byte fewer", length == room + 1);
    note(seen, "more bytes", length < room);
    if length > 1_000 {
        return;
    }
    let keys = parts.keys(line, length as usize + 2);
    let (own, behind) = keys.split_at(length as usize);
    note(seen, "a line with a CR", own.contains(&CR));
    note(seen, "a CR before the line's end", behind == [CR, LF]);
    note(seen, "a line over more than one macro", !parts.in_one_macro(own));
}
