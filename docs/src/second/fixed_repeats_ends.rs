//! Fixed counts in which CR and LF meet where one pass ends and the next begins (document 02, S-4 and S-8).

use crate::fixed::Fixed;
use crate::fixed_repeats::{asked, count, told};
use crate::hash::hash;
use crate::letters::Letters;
use crate::question::Question;
use crate::repeats::macros;

const TIMES: [u64; 4] = [1, 2, 3, 65_535];

pub fn ends() -> Vec<Fixed> {
    let mut fixed: Vec<Fixed> = TIMES.iter().flat_map(|&times| by_times(times)).collect();
    fixed.extend(nested());
    fixed.extend(TIMES.iter().flat_map(|&times| in_words(times)));
    fixed
}

/// The texts of a book with N for the repeat count, and under each pattern the lines of its last macro.
type Told<'a> = (&'a [&'a str], &'a [(&'a str, u64)]);

/// By the number of passes; `more` is 1 if there are several, `two` and `three` are 1 with as many.
fn by_times(times: u64) -> Vec<Fixed> {
    let more = u64::from(times > 1);
    let [one, two, three] = [1, 2, 3].map(|wanted| u64::from(times == wanted));
    let books: [Told; 10] = [
        // Each CR belongs to the LF of the next pass, but for the last one.
        (&["LF a CR", "0*N"], &[("a$", times - 1), ("^$", 1), ("\r", 1), ("a", times)]),
        (&["LF a CR", "0*N LF"], &[("a$", times), ("\r", 0)]),
        (&["CR*N"], &[("^$", 0), ("^\r$", one), ("^\r\r$", two), ("^\r+$", 1)]),
        (&["LF CR", "0*N"], &[("^$", times), ("^.$", 1)]),
        (&["CR LF", "0*N"], &[("^$", times), (".", 0)]),
        // Of several CR before an LF only the last belongs to it.
        (&["CR*N LF"], &[("^$", one), ("^.$", two), ("^..$", three), (".", more)]),
        (&["CR", "0*N LF"], &[("^$", one), ("^\r$", two), ("\r", more)]),
        (&["a CR", "0*N LF"], &[("a$", 1), ("\r", more), ("^a$", one)]),
        (&["CR LF CR", "0*N"], &[("^$", 1), ("^\r$", times)]),
        (&["LF*3 CR*2", "0*N"], &[("^$", 2 * times + 1), ("^\r$", times - 1), ("^\r\r$", 1)]),
    ];
    let mut fixed = Vec::new();
    for (texts, patterns) in books {
        let texts: Vec<String> = texts.iter().map(|text| text.replace('N', &times.to_string())).collect();
        let texts: Vec<&str> = texts.iter().map(String::as_str).collect();
        for (pattern, lines) in patterns {
            fixed.push(count(pattern, &macros(&texts), &told(*lines)));
        }
    }
    fixed
}

/// Passes of passes, and what stands before and behind them.
fn nested() -> Vec<Fixed> {
    let of = |pattern: &str, texts: &[&str], lines: u64| count(pattern, &macros(texts), &told(lines));
    vec![
        of("a$", &["LF a CR", "0*300", "1*200"], 59_999),
        of("a$", &["LF a CR", "0*300", "1*200 LF"], 60_000),
        of("a$", &["LF a CR", "0*300", "1*200 CR LF"], 59_999),
        of("a$", &["LF a CR", "0*300", "a CR 1*200 LF"], 60_001),
        of("a$", &["LF a CR", "0*300", "a CR*2 1*200 LF"], 60_000),
        of("a$", &["LF a", "CR", "0 1", "2*500 LF"], 500),
        of("a$", &["LF a", "CR", "0 1*2", "2*500 LF"], 0),
        of("a.$", &["LF a", "CR", "0 1*2", "2*500 LF"], 500),
        of("^$", &["CR", "LF", "0 1", "2*500"], 500),
        of("^$", &["CR", "LF", "1 0", "2*500"], 500),
        of("^$", &["CR", "LF", "0*2 1", "2*500"], 0),
        of("^\r$", &["CR", "LF", "0*2 1", "2*500"], 500),
        of("^$", &["CR", "LF", "0 1*2", "2*500"], 1_000),
        of("^$", &["CR*2", "LF*2", "0*2 1*2", "2*2"], 6),
        of("^\r\r\r$", &["CR*2", "LF*2", "0*2 1*2", "2*2"], 2),
        of("\r", &["a CR LF", "0*65535"], 0),
        of("a$", &["a CR LF", "0*65535"], 65_535),
        of("a$", &["a", "CR", "LF", "0 1", "3 2", "4*65535"], 65_535),
        of("^$", &["LF CR", "0*2", "1*2", "2*2", "3*2 LF"], 17),
    ]
}

/// The work words under `a$`, worked out by hand: line-start, mid-line, found and the atom are 1, 2, 4 and 8. From
/// found and the atom no key at all is accepted, which makes 12, so that is what the first line, an empty one, has.
/// Behind the last LF stand `a` and a CR: they lead to mid-line, and without the CR they are accepted.
fn in_words(times: u64) -> Vec<Fixed> {
    let over = macros(&["LF a CR", &format!("0*{times}")]);
    let worked = [0, 0, 0, 0, 1, 12, 0, 2, 1, 3, 0, 0, 0, 0, 1, 12, times - 1, 2, 1, 3];
    // From line-start and mid-line to mid-line, from found to found; with one CR nothing is before it.
    let returns = macros(&[&format!("CR*{times}")]);
    let before = if times == 1 { 12 } else { 4 };
    let rows = [2, 2, 4, 0, 0, 0, 0, 0, before, 2];
    let question = || Question::new(Letters::Apart, b"a$");
    let shown = |lines: u64, work: &[u64]| format!("{} work {}", told(lines), hash(work.iter().copied()));
    vec![
        asked(question(), &over, 1, 20, &shown(times - 1, &worked)),
        asked(question(), &returns, 0, 10, &shown(0, &rows)),
    ]
}
