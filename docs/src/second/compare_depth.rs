//! Runs of the command's `depth` (document 02, S-6).

use crate::asked;
use crate::command::{self, Run, Start, Way};
use crate::command_form::Sought;
use crate::command_key::{key, word};
use crate::compare_depth_words;
use crate::depth::{asked_depths, depth_line, Keys};
use crate::expected::Expected;
use crate::fixed_depth::macros;
use crate::fixed_depth_long::chain;
use crate::make_book::{call, write};
use crate::make_damage::damage_book;
use crate::make_depth;
use crate::make_large::largest_books;
use crate::make_long::long_books;
use crate::rng::Rng;
use crate::tally::Tally;

const SEEDED: u64 = 40;

pub fn compare(program: &str, seed: u64) -> Result<Tally, String> {
    command::compare(program, &runs(seed), own_answer)
}

pub fn runs(seed: u64) -> Vec<Run> {
    let mut runs = stated_runs();
    runs.extend(refused_runs());
    runs.extend(long_runs());
    runs.extend(compare_depth_words::runs());
    runs.extend(large_runs(&largest_books(&mut Rng::new(seed ^ 0xDE97))));
    for number in 0..SEEDED {
        runs.push(seeded_run(&mut Rng::for_case(seed ^ 0xDE98, number), number as usize));
    }
    for (place, (start, _)) in runs.iter_mut().enumerate() {
        start.way = Way::in_turn(place);
    }
    runs
}

/// Without a key in each place there is no answer, whatever else is asked.
pub fn own_answer(start: &Start) -> Expected {
    let asked = start.asked.as_deref().map(asked::number);
    let words = start.keys.as_ref().map(|words| (key(&words[0]), key(&words[1])));
    match (words, asked) {
        (_, Some(None)) => Expected::Nothing,
        (Some((Some(opening), Some(closing))), asked) => {
            Expected::Line(depth_line(asked_depths(asked.flatten(), Keys { opening, closing }, &start.book)))
        }
        _ => Expected::Nothing,
    }
}

pub fn run(keys: [&[u8]; 2], book: Vec<u8>, asked: Option<&str>, stated: Option<&str>) -> Run {
    let (keys, asked) = (Some(keys.map(<[u8]>::to_vec)), asked.map(String::from));
    let start =
        Start { verb: "depth", pattern: None, keys, sought: Sought::default(), way: Way::Path, book, asked };
    (start, stated.map(String::from))
}

fn round(book: &[u8], asked: Option<&str>, stated: &str) -> Run {
    run([b"(", b")"], book.to_vec(), asked, Some(stated))
}

/// Macros named and not, and a lowest depth inside a call.
fn stated_runs() -> Vec<Run> {
    let book = write(&macros(&["( a )", ") ) ( (", "( 1 0", "2 ) )", "x"]));
    let returns = write(&macros(&["CR", "LF", "0 1 0 1 0"]));
    let of = |asked, stated| round(&book, asked, stated);
    vec![
        of(None, "end 0 lowest 0"),
        of(Some("0"), "end 0 lowest 0"),
        of(Some("1"), "end 0 lowest -2"),
        of(Some("2"), "end 1 lowest -1"),
        of(Some("3"), "end -1 lowest -1"),
        of(Some("4"), "end 0 lowest 0"),
        of(Some("00000000000000000000000000003"), "end -1 lowest -1"),
        run([b")", b"("], book.clone(), Some("3"), Some("end 1 lowest -2")),
        run([b"[", b"]"], book.clone(), Some("3"), Some("end 0 lowest 0")),
        run([b"\r", b"x"], returns.clone(), None, Some("end 3 lowest 0")),
        run([b"x", b"13"], returns.clone(), None, Some("end -3 lowest -3")),
        run([b"013", b"12"], returns, Some("1"), Some("end 0 lowest 0")),
    ]
}

/// 18, then 1 to 6, then 10; a refusal of the book comes before that of a macro.
fn refused_runs() -> Vec<Run> {
    let sound = write(&macros(&["(", "0 )"]));
    let mut runs = vec![
        round(&sound, Some("2"), "refused 10"),
        round(&sound, Some("65537"), "refused 10"),
        round(&sound, Some("18446744073709551616"), "refused 10"),
        run([b"(", b"("], sound, Some("99"), Some("refused 18")),
    ];
    let damaged: [(Vec<u8>, &str); 6] = [
        (b"MBK\x03\0\0".to_vec(), "refused 1"),
        (b"MBK\x03\0\0\0".to_vec(), "refused 2"),
        (b"MBK\x01\0\0\0".to_vec(), "refused 3"),
        (write(&[vec![40; 65]]), "refused 4"),
        (write(&[vec![0]]), "refused 5"),
        (write(&[vec![call(0)]]), "refused 6"),
    ];
    for (place, (book, refused)) in damaged.iter().enumerate() {
        let asked = [None, Some("7")][place % 2];
        runs.push(round(book, asked, refused));
        runs.push(run([b"(", [&b"("[..], b"00"][place % 2]], book.clone(), asked, Some("refused 18")));
    }
    runs
}

/// 2^62 keys, and more; a macro that is too long is nothing to those that do not call it.
fn long_runs() -> Vec<Run> {
    let a = u16::from(b'a');
    let up = write(&[&chain(b"(", 64)[..], &[vec![call(62), a], vec![call(0), a]]].concat());
    let down = write(&chain(b")", 62));
    vec![
        round(&up, Some("62"), "end 4611686018427387904 lowest 0"),
        round(&up, Some("63"), "refused 19"),
        round(&up, Some("64"), "refused 19"),
        round(&up, Some("65"), "refused 19"),
        round(&up, None, "end 1 lowest 0"),
        round(&up, Some("67"), "refused 10"),
        round(&down, None, "end -4611686018427387904 lowest -4611686018427387904"),
        run([b"a", b"b"], down, None, Some("end 0 lowest 0")),
        run([b"a", b"a"], up, Some("64"), Some("refused 18")),
    ]
}

/// The three largest books, and those that are longer or damaged at their end.
fn large_runs(largest: &[Vec<u8>]) -> Vec<Run> {
    let mut runs = Vec::new();
    for book in largest {
        runs.push(run([b"a", b"b"], book.clone(), None, None));
        runs.push(run([b"010", b"b"], book.clone(), Some("500"), Some("refused 18")));
        runs.push(run([b"b", b"097"], book.clone(), Some("300"), None));
    }
    for (book, refusal) in long_books(&largest[0]) {
        runs.push(run([b"a", b"b"], book, Some("1023"), Some(&format!("refused {refusal}"))));
    }
    runs
}

fn seeded_run(rng: &mut Rng, turn: usize) -> Run {
    let (opening, closing) = rng.pick(&[(b'(', b')'), (1, 255), (13, b'x'), (b'5', 5), (200, b'-')]);
    let macros = make_depth::macros(rng, Keys { opening, closing });
    let mut book = write(&macros);
    if rng.chance(12) {
        damage_book(rng, &mut book);
    }
    let asked = asked::seeded(rng, macros.len());
    run([&word(opening, turn), &word(closing, turn / 3)], book, asked.as_deref(), None)
}
