//! Runs of the command's `line` and `lines` whose answers were told beforehand (document 02, S-3).

use crate::command::Run;
use crate::compare_line::start;
use crate::fixed_books::{example, tower};
use crate::fixed_find::book;
use crate::letters::Letters;
use crate::make_book::{call, keys, write};
use crate::question::Question;
use crate::repeats;

const TOP: &str = "18446744073709551615";
/// Macros 1, 2 and 3 stand for 2^16, 2^32 and 2^48 of macro 0.
const POWERS: [&str; 4] = ["x", "0*65535 0", "1*65535 1", "2*65535 2"];

pub fn runs() -> Vec<Run> {
    let shown = [single(), several(), ending(), texts(), lengths()].concat();
    let others = [refused(), at_the_top(), numbers()].concat();
    shown.into_iter().chain(others).enumerate().map(|(turn, stated)| stated.run(turn)).collect()
}

/// A start before its form is chosen, and what must be printed.
#[derive(Clone)]
struct Stated {
    verb: &'static str,
    question: Question,
    numbers: [Option<&'static str>; 2],
    book: Vec<u8>,
    asked: Option<&'static str>,
    stated: String,
}

impl Stated {
    fn run(self, turn: usize) -> Run {
        let numbers = self.numbers.map(|number| number.map(String::from));
        let asked = self.asked.map(String::from);
        let start = start(self.verb, &self.question, numbers, self.book, asked, turn);
        (start, Some(self.stated))
    }
}

fn line(pattern: &[u8], k: &'static str, book: Vec<u8>, asked: Option<&'static str>, stated: &str) -> Stated {
    let question = Question::new(Letters::Apart, pattern);
    Stated { verb: "line", question, numbers: [Some(k), None], book, asked, stated: String::from(stated) }
}

fn lines(
    pattern: &[u8],
    numbers: [Option<&'static str>; 2],
    book: Vec<u8>,
    asked: Option<&'static str>,
    stated: &str,
) -> Stated {
    Stated { verb: "lines", numbers, ..line(pattern, "1", book, asked, stated) }
}

fn alike(stated: Stated) -> Stated {
    let question = Question::new(Letters::Alike, &stated.question.pattern);
    Stated { question, ..stated }
}

fn single() -> Vec<Stated> {
    let top = || write(&[tower(), vec![vec![call(63), call(0)]]].concat());
    let small = [
        line(b"B", "2", write(&example()), None, "shown 2:CB"),
        alike(line(b"b", "2", write(&example()), Some("1"), "shown 2:CB")),
        alike(line(b"b", "0001", write(&example()), Some("000"), "shown 1:B")),
    ];
    let mut all = in_every_form(small, 11);
    for asked in [Some("63"), Some("64"), None] {
        all.push(line(b"a", TOP, top(), asked, &format!("shown {TOP}:a")));
        all.push(line(b"a", "1", top(), asked, "shown 1:a"));
    }
    let dashes = || write(&[keys(b"x\n-a\n--\n-e\n")]);
    all.push(line(b"-", "2", dashes(), None, "shown 3:--"));
    all.push(line(b"-e", "1", dashes(), None, "shown 4:-e"));
    all.push(line(b"--", "00000000000000000000000000001", dashes(), None, "shown 3:--"));
    all.push(line(b"^$", "1", write(&[keys(b"\n")]), None, "shown 1:"));
    all
}

/// What is printed of such lines, all of them `a`.
fn all_a(numbers: impl Iterator<Item = u64>) -> String {
    let each: Vec<String> = numbers.map(|number| format!("{number}:a")).collect();
    format!("shown {}", each.join("\n"))
}

/// Lines of `a` and of `b` in turn, twelve of each. Ten are shown without a number.
fn several() -> Vec<Stated> {
    let chase = || book(&["a LF", "b LF", "0 1", "2*12"]);
    let from = |first: u64, count: u64| all_a((first..first + count).map(|k| 2 * k - 1));
    let stated = [
        lines(b"a", [None, None], chase(), None, &from(1, 10)),
        alike(lines(b"A", [None, None], chase(), None, &from(1, 10))),
        alike(lines(b"A", [Some("2"), None], chase(), None, &from(2, 10))),
        lines(b"a", [Some("3"), Some("4")], chase(), None, &from(3, 4)),
        alike(lines(b"A", [None, Some("2")], chase(), Some("3"), &from(1, 2))),
        lines(b"a", [None, Some("012")], chase(), None, &from(1, 12)),
        lines(b"a", [Some("0009"), None], chase(), None, &from(9, 4)),
        alike(lines(b"A", [Some("12"), Some("1024")], chase(), None, &from(12, 1))),
    ];
    in_every_form(stated, 9)
}

/// Each so often that it has every form in turn.
fn in_every_form<const COUNT: usize>(stated: [Stated; COUNT], forms: usize) -> Vec<Stated> {
    stated.into_iter().flat_map(|each| vec![each; forms]).collect()
}

/// Many lines, and the last ones whose numbers can be told.
fn ending() -> Vec<Stated> {
    let many = || book(&["a LF", "0*65535"]);
    let top = || write(&[tower(), vec![vec![call(63), call(63)]]].concat());
    let last = |count: u64| all_a(u64::MAX - count + 1..=u64::MAX);
    let (two, five) = ([Some("18446744073709551613"), Some("2")], [Some("18446744073709551611"), None]);
    vec![
        lines(b"a", [None, Some("1024")], many(), None, &all_a(1..=1_024)),
        lines(b"a", [Some("64513"), Some("1023")], many(), None, &all_a(64_513..=65_535)),
        lines(b"a", [Some("64513"), Some("01024")], many(), None, &all_a(64_513..=65_535)),
        lines(b"a", [None, Some("1")], many(), None, &all_a(1..=1)),
        lines(b"a", five, top(), None, &last(5)),
        lines(b"a", [Some(TOP), Some("1024")], top(), None, &last(1)),
        lines(b"a", two, top(), Some("63"), &all_a(u64::MAX - 2..u64::MAX)),
        lines(b"^$", [None, None], book(&["LF a LF CR LF"]), None, "shown 1:\n3:"),
    ]
}

/// Keys from 32 to 126 as they are, but for the backslash; all others by their numbers.
fn texts() -> Vec<Stated> {
    let odd: Vec<u16> = (1..=255u16).filter(|&key| key != 10).collect();
    let mut all: Vec<Stated> = Vec::new();
    for part in odd.chunks(60) {
        let shown: String = part
            .iter()
            .map(|&key| match key {
                92 => String::from("\\\\"),
                32..=126 => char::from(key as u8).to_string(),
                _ => format!("\\x{key:02x}"),
            })
            .collect();
        all.push(line(b"^", "1", write(&[part.to_vec()]), None, &format!("shown 1:{shown}")));
    }
    all.extend([
        line(b"a", "1", write(&[keys(b"a\r")]), None, "shown 1:a\\x0d"),
        line(b"a", "1", write(&[keys(b"a\r\n")]), None, "shown 1:a"),
        line(b"a", "1", write(&[keys(b"a\r\r\n")]), None, "shown 1:a\\x0d"),
        line(b"a", "1", write(&[keys(b" a:\\x0d 'b' \\\\\n")]), None, "shown 1: a:\\\\x0d 'b' \\\\\\\\"),
        lines(b"\r", [None, None], book(&["CR", "LF", "0 0 1 0 1 0"]), None, "shown 1:\\x0d\n3:\\x0d"),
        lines(b".", [None, None], write(&[keys(b"1:x\n\n2 length 3")]), None, "shown 1:1:x\n3:2 length 3"),
        line(
            b"\xff$",
            "1",
            write(&[vec![255, 254, 128, 127, 255]]),
            None,
            "shown 1:\\xff\\xfe\\x80\\x7f\\xff",
        ),
        line(b"\x01", "1", write(&[vec![9, 1, 31, 32, 126]]), None, "shown 1:\\x09\\x01\\x1f ~"),
    ]);
    all
}

/// A line of over 65,536 keys is told by its length, which stops at 2^64 - 2.
fn lengths() -> Vec<Stated> {
    let of = |top: &str| book(&[&POWERS[..], &[top]].concat());
    let full = format!("shown 1:{}", "x".repeat(65_536));
    let told = |length: &str| format!("shown 1 length {length}");
    let highest = "18446744073709551614";
    let all = "3*65535 2*65535 1*65535";
    let mut stated = vec![
        line(b"x", "1", of("1"), None, &full),
        line(b"x", "1", of("1 CR LF"), None, &full),
        line(b"x", "1", of("1 0"), None, &told("65537")),
        line(b"x", "1", of("1 CR"), None, &told("65537")),
        line(b"x", "1", of("1 CR CR LF"), None, &told("65537")),
        line(b"x", "1", of("2 LF"), None, &told("4294967296")),
    ];
    for (end, length) in [
        ("0*65532 LF", "18446744073709551612"),
        ("0*65533 LF", "18446744073709551613"),
        ("0*65533", "18446744073709551613"),
        ("0*65533 CR LF", "18446744073709551613"),
        ("0*65534 LF", highest),
        ("0*65534 CR LF", highest),
        ("0*65535", highest),
        ("0*65535 LF", highest),
        ("0*65535 CR LF", highest),
        ("0*65535 CR CR LF", highest),
        ("0*65535 0", highest),
        ("0*65535 0 LF", highest),
        ("3*65535 LF", highest),
    ] {
        stated.push(line(b"x", "1", of(&format!("{all} {end}")), None, &told(length)));
    }
    let between = of("a LF 1 0 LF b LF 2 LF c");
    let shown = "shown 1:a\n2 length 65537\n3:b\n4 length 4294967296\n5:c";
    stated.push(lines(b".", [None, None], between.clone(), None, shown));
    stated.push(lines(b".", [Some("2"), Some("2")], between, None, "shown 2 length 65537\n3:b"));
    stated
}

/// 2^64 - 2 line ends are macro 4.
fn behind_ends(more: &str) -> Vec<u8> {
    let ends = ["LF", "0*65535 0", "1*65535 1", "2*65535 2", "3*65535 2*65535 1*65535 0*65534", more];
    repeats::write(&repeats::macros(&ends))
}

/// The book, the pattern, the macro, then 15 and 16; a buffer is always long enough.
fn refused() -> Vec<Stated> {
    let sound = || write(&example());
    let mut all = Vec::new();
    for (pattern, k, book, asked, refusal) in [
        (&b"B"[..], "0", sound(), None, 15),
        (b"B", "3", sound(), None, 15),
        (b"x", "1", sound(), None, 15),
        (b"B", TOP, sound(), None, 15),
        (b"B", "0000", sound(), Some("1"), 15),
        (b"b", "1", behind_ends("4 LF b"), None, 16),
        (b"b", "2", behind_ends("4 LF b"), None, 15),
        (b"b", "1", behind_ends("4 LF 2 b"), None, 16),
        (b"(", "0", sound(), Some("9"), 8),
        (b"", "0", sound(), Some("9"), 7),
        (&[b'a'; 129], "1", sound(), None, 7),
        (&[b'a'; 30], "0", sound(), Some("9"), 9),
        (b"B", "0", sound(), Some("2"), 10),
        (b"B", "1", sound(), Some("18446744073709551616"), 10),
        (b"(", "0", b"MBK".to_vec(), Some("9"), 1),
        (b"(", "0", b"MBK\x03\0\0\0".to_vec(), Some("9"), 2),
        (b"(", "0", b"MBK\x01\0\0\0".to_vec(), None, 3),
        (b"(", "0", write(&[vec![97; 65]]), None, 4),
        (b"(", "0", write(&[vec![0]]), None, 5),
        (b"(", "0", write(&[vec![call(0)]]), None, 6),
        (b"(", "0", b"MBK\x02\0\x01\0\x01\0a\0\0\0".to_vec(), None, 20),
    ] {
        let stated = format!("refused {refusal}");
        all.push(line(pattern, k, book.clone(), asked, &stated));
        all.push(lines(pattern, [Some(k), Some("1024")], book.clone(), asked, &stated));
        all.push(alike(lines(pattern, [Some(k), None], book, asked, &stated)));
    }
    all
}

/// `lines` ends where a number is too high; the first one must not be.
fn at_the_top() -> Vec<Stated> {
    let (last, both) = ("shown 18446744073709551615:b", "shown 1:b\n18446744073709551615:b");
    let four = || behind_ends("b 4 b LF b LF b");
    vec![
        line(b"b", "1", behind_ends("4 b"), None, last),
        lines(b"b", [None, None], behind_ends("b 4 b"), None, both),
        lines(b"b", [None, None], four(), None, both),
        lines(b"b", [Some("2"), None], four(), None, last),
        lines(b"b", [Some("3"), None], four(), None, "refused 16"),
        lines(b"b", [Some("4"), Some("1")], four(), None, "refused 16"),
        lines(b"b", [Some("5"), None], four(), None, "refused 15"),
    ]
}

/// Numbers that have no answer, whatever the pattern, the book and the macro are.
fn numbers() -> Vec<Stated> {
    let mut all = Vec::new();
    for k in [
        "18446744073709551616",
        "018446744073709551616",
        "99999999999999999999999999",
        "x",
        "1x",
        "0x1",
        "1.0",
        "1e3",
    ] {
        all.push(line(b"B", k, write(&example()), None, "nothing"));
        all.push(lines(b"(", [Some(k), None], write(&example()), Some("9"), "nothing"));
    }
    for most in ["0", "00", "1025", "65536", "65537", "4294967297", "18446744073709551617", "x", "1 "] {
        all.push(lines(b"B", [None, Some(most)], write(&example()), None, "nothing"));
        all.push(lines(b"(", [Some("1"), Some(most)], b"MBK".to_vec(), Some("9"), "nothing"));
    }
    for asked in ["x", "0x1", "1 "] {
        all.push(line(b"B", "1", write(&example()), Some(asked), "nothing"));
        all.push(lines(b"B", [Some("1"), Some("2")], write(&example()), Some(asked), "nothing"));
    }
    all
}
