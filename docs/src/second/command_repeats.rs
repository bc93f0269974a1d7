//! Runs of the command with books of version 2 (document 02, S-8): a share of the fixed cases, books in their forms,
//! the largest books, and seeded ones.

use crate::asked;
use crate::case::Case;
use crate::command::{Run, Start, Way};
use crate::command_form::{safe, Sought};
use crate::command_key::word;
use crate::compare_count::vary;
use crate::compare_repeats;
use crate::depth::Keys;
use crate::fixed;
use crate::fixed_books::{example, tower};
use crate::fixed_repeats_large::{of_keys, of_lines};
use crate::letters::Letters;
use crate::make::macro_count;
use crate::make_depth;
use crate::make_question::{question_with, some_letters};
use crate::make_repeats::{for_reach, some_book};
use crate::make_repeats_book::{for_depths, for_question};
use crate::make_repeats_damage::damage;
use crate::make_repeats_large;
use crate::question::Question;
use crate::repeats::{gathered, macros, single, write};
use crate::rng::Rng;

/// One of so many fixed cases, and so many seeded runs of a verb.
const SHARE: usize = 7;
const SEEDED: u64 = 40;
const FORMS: u64 = 8;

fn bare(verb: &'static str, book: Vec<u8>, asked: Option<String>) -> Start {
    Start { verb, pattern: None, keys: None, sought: Sought::default(), way: Way::Path, book, asked }
}

fn count(question: &Question, book: Vec<u8>, asked: Option<String>) -> Start {
    let pattern = Some((safe(question.letters), question.pattern.clone()));
    Start { pattern, ..bare("count", book, asked) }
}

fn depth(keys: Keys, turn: usize, book: Vec<u8>, asked: Option<String>) -> Start {
    let words = [word(keys.opening, turn), word(keys.closing, turn / 3)];
    Start { keys: Some(words), ..bare("depth", book, asked) }
}

fn stated(start: Start, stated: &str) -> Run {
    (start, Some(String::from(stated)))
}

/// Every `SHARE`th fixed case, as far as it is one of a verb.
fn shared(of: impl Fn(&Case) -> Option<Start>) -> Vec<Run> {
    let starts = fixed::of_repeats().into_iter().step_by(SHARE).filter_map(|fixed| of(&fixed.case));
    starts.map(|start| (start, None)).collect()
}

fn in_turn(mut runs: Vec<Run>) -> Vec<Run> {
    for (place, (start, _)) in runs.iter_mut().enumerate() {
        start.way = Way::in_turn(place);
    }
    runs
}

pub fn count_runs(seed: u64) -> Vec<Run> {
    let mut runs = shared(|case| match case {
        Case::Count { number, question, book, .. } => {
            Some(count(question, book.clone(), Some(number.to_string())))
        }
        _ => None,
    });
    for forms in compare_repeats::forms(seed ^ 0xA57, FORMS) {
        let asked = Some(forms.number.to_string());
        runs.extend(forms.books().map(|book| (count(&forms.question, book, asked.clone()), None)));
    }
    for number in 0..SEEDED {
        let rng = &mut Rng::for_case(seed ^ 0xA58, number);
        let letters = some_letters(rng);
        let question = question_with(rng, letters, 80);
        let macros = for_question(rng, &question);
        let mut book = write(&macros);
        if rng.chance(20) {
            damage(rng, &mut book);
        }
        runs.push((count(&question, book, asked::seeded(rng, macros.len())), None));
    }
    // A byte 0 cannot stand in an argument.
    runs.retain(|(start, _)| !start.pattern.iter().any(|(_, pattern)| pattern.contains(&0)));
    vary(runs.iter_mut().map(|(start, _)| start));
    runs.extend(stated_counts());
    runs
}

fn stated_counts() -> Vec<Run> {
    let of = |pattern: &[u8], book: Vec<u8>, asked: Option<&str>, told: &str| {
        let question = Question::new(Letters::Apart, pattern);
        stated(count(&question, book, asked.map(String::from)), told)
    };
    let chase = write(&macros(&["a LF", "0*400"]));
    let mut strange = chase.clone();
    strange[3] = 3;
    vec![
        of(b"a", chase.clone(), None, "lines 400 steps 0"),
        of(b"a", chase.clone(), Some("0"), "lines 1 steps 0"),
        of(b"a", chase.clone(), Some("2"), "refused 10"),
        of(b"", chase.clone(), None, "refused 7"),
        of(b"", strange, None, "refused 2"),
        of(b"", [&chase[..21], &[0, 0]].concat(), None, "refused 20"),
        of(b"a", of_lines(), None, "refused 12"),
        of(b"b", of_lines(), None, "lines 0 steps 0"),
        of(b"a", of_lines(), Some("1"), "lines 134215680 steps 0"),
        of(b"^a*$", of_keys(), Some("1023"), "lines 1 steps 0"),
        of(b"", [of_lines(), vec![0; 800_000]].concat(), None, "refused 4"),
    ]
}

pub fn check_runs(seed: u64) -> Vec<Run> {
    let of = |book: Vec<u8>, told: &str| stated(bare("check", book, None), told);
    let largest = of_lines();
    let mut runs = vec![
        of(write(&single(&example())), "sound version 2 macros 2 items 5 bytes 31"),
        of(write(&gathered(&example())), "sound version 2 macros 2 items 5 bytes 31"),
        of(write(&single(&tower())), "sound version 2 macros 64 items 191 bytes 899"),
        of(write(&gathered(&tower())), "sound version 2 macros 64 items 127 bytes 643"),
        of(write(&macros(&["a LF", "0*400"])), "sound version 2 macros 2 items 3 bytes 23"),
        of(write(&[vec![(97, 65_535); 64]]), "sound version 2 macros 1 items 64 bytes 265"),
        of(largest.clone(), "sound version 2 macros 1024 items 65536 bytes 264199"),
        of(largest[..264_198].to_vec(), "refused 4"),
        of([&largest[..], &[0]].concat(), "refused 4"),
        of([&largest[..264_197], &vec![0; 700_000]].concat(), "refused 20"),
        of(b"MBK\x03\0\x01\0\x01\0a\0\x01\0".to_vec(), "refused 2"),
        of(b"MBK\x02\0\x01\0\x01\0a\0\x01".to_vec(), "refused 4"),
        of(b"MBK\x02\0\x01\0\x01\0a\0\0\0".to_vec(), "refused 20"),
        of(b"MBK\x02\0\x01\0\x01\0\0\0\0\0".to_vec(), "refused 5"),
        of(b"MBK\x02\0\x01\0\x01\0\0\x01\0\0".to_vec(), "refused 6"),
    ];
    runs.extend(shared(|case| match case {
        Case::Sound { book } => Some(bare("check", book.clone(), None)),
        _ => None,
    }));
    for number in 0..SEEDED {
        runs.push((bare("check", some_book(&mut Rng::for_case(seed ^ 0xCED, number), 60), None), None));
    }
    in_turn(runs)
}

pub fn reach_runs(seed: u64) -> Vec<Run> {
    let falling: String = (0..1024).rev().map(|number| format!(" {number}")).collect();
    let small = || write(&macros(&["a*9", "b", "1*3 0*3", "x*65535 0*2 2*400"]));
    let of = |book: Vec<u8>, asked: Option<&str>, told: &str| {
        stated(bare("reach", book, asked.map(String::from)), told)
    };
    let mut runs = vec![
        of(small(), None, "numbers 3 0 2 1"),
        of(small(), Some("2"), "numbers 2 1 0"),
        of(small(), Some("4"), "refused 10"),
        of(of_lines(), None, &format!("numbers{falling}")),
        of([&small()[..13], &[0; 40]].concat(), Some("9"), "refused 4"),
        of(b"MBK\x02\0\x01\0\x01\0a\0\0\0".to_vec(), Some("9"), "refused 20"),
    ];
    runs.extend(shared(|case| match case {
        Case::Reach { number, book, .. } => Some(bare("reach", book.clone(), Some(number.to_string()))),
        _ => None,
    }));
    for book in make_repeats_large::books(&mut Rng::new(seed ^ 0x4EB)) {
        runs.push((bare("reach", book, None), None));
    }
    for forms in compare_repeats::forms(seed ^ 0x4EC, FORMS).skip(10) {
        let asked = Some(forms.number.to_string());
        runs.extend(forms.books().map(|book| (bare("reach", book, asked.clone()), None)));
    }
    for number in 0..SEEDED {
        let rng = &mut Rng::for_case(seed ^ 0x4ED, number);
        let mut book = write(&for_reach(rng));
        if rng.chance(15) {
            damage(rng, &mut book);
        }
        let asked = asked::seeded(rng, macro_count(&book).max(1));
        runs.push((bare("reach", book, asked), None));
    }
    in_turn(runs)
}

pub fn depth_runs(seed: u64) -> Vec<Run> {
    let round = Keys { opening: b'(', closing: b')' };
    let of = |keys: Keys, book: Vec<u8>, asked: Option<&str>, told: &str| {
        stated(depth(keys, 0, book, asked.map(String::from)), told)
    };
    let falling = || write(&macros(&[") ) (", "0*400", "(*401 1"]));
    let powers = || write(&macros(&["(", "0*65535 0", "1*65535 1", "2*65535 2", "3*16384", "4 0", "0*7"]));
    let same = Keys { opening: b'(', closing: b'(' };
    let letters = Keys { opening: b'a', closing: b'b' };
    let mut runs = vec![
        of(round, falling(), None, "end 1 lowest 0"),
        of(round, falling(), Some("1"), "end -400 lowest -401"),
        of(round, falling(), Some("3"), "refused 10"),
        of(round, powers(), Some("4"), "end 4611686018427387904 lowest 0"),
        of(round, powers(), Some("5"), "refused 19"),
        of(round, powers(), None, "end 7 lowest 0"),
        of(round, b"MBK\x02\0\x01\0\x01\0a\0\0\0".to_vec(), Some("9"), "refused 20"),
        of(same, b"MBK\x02\0\x01\0\x01\0a\0\0\0".to_vec(), Some("9"), "refused 18"),
        of(letters, of_lines(), None, "refused 19"),
        of(letters, of_lines(), Some("1"), "end 134215680 lowest 0"),
    ];
    runs.extend(shared(|case| match case {
        Case::Depth { number, keys, book, .. } => {
            Some(depth(*keys, *number, book.clone(), Some(number.to_string())))
        }
        _ => None,
    }));
    for book in make_repeats_large::books(&mut Rng::new(seed ^ 0xDE9B)) {
        runs.push((depth(letters, 1, book, None), None));
    }
    for forms in compare_repeats::forms(seed ^ 0xDE9C, FORMS).skip(10) {
        let asked = Some(forms.number.to_string());
        runs.extend(forms.books().map(|book| (depth(forms.keys, 2, book, asked.clone()), None)));
    }
    for number in 0..SEEDED {
        let rng = &mut Rng::for_case(seed ^ 0xDE9D, number);
        let keys = make_depth::some_pair(rng);
        let macros = for_depths(rng, keys);
        let mut book = write(&macros);
        if rng.chance(12) {
            damage(rng, &mut book);
        }
        let asked = asked::seeded(rng, macros.len());
        runs.push((depth(keys, number as usize, book, asked), None));
    }
    in_turn(runs)
}
