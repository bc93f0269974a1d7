//! Wrong programs that are easily taken for the right one (document 02, S-3). The fixed cases must tell each of them from
//! it, and so must some seeded ones.

use crate::letters::Letters;
use crate::line_ends::{lines, CR, LF};
use crate::meaning::line_matches;
use crate::measures::Measures;
use crate::question::Question;
use crate::refusal::*;
use crate::selftest_find_parts::{Parts, Told};
use crate::states::States;

/// So long a run is written out for those that are wrong about its lines.
const MOST_KEYS: u64 = 3_000;
const TOP: u64 = u64::MAX;

/// What it is called, and what it answers where the right one is refused with none of 1 to 11.
pub type Wrong = (&'static str, fn(&Parts) -> String);

pub const WRONG: [&[Wrong]; 4] = [&NUMBERS, &REFUSALS, &WORDS, &LINES];

/// About k, the line's number, and the buffer.
const NUMBERS: [Wrong; 10] = [
    ("k from 0", |parts| parts.with_line(parts.line(parts.k.wrapping_add(1)))),
    ("k = 0 taken for 1", |parts| parts.with_line(parts.line(parts.k.max(1)))),
    ("k cut to 32 bits", |parts| parts.with_line(parts.line(parts.k % (1 << 32)))),
    ("k cut to 63 bits", |parts| parts.with_line(parts.line(parts.k % (1 << 63)))),
    ("the last line, if there are fewer", |parts| match parts.right.clone() {
        Err(NO_SUCH_LINE) if parts.k > 1 => parts.with_line(parts.line(parts.k - 1)),
        line => parts.with_line(line),
    }),
    ("numbers from 0", |parts| numbered(parts, |number, _| number - 1)),
    ("numbers among the lines that match", |parts| numbered(parts, |_, k| k)),
    ("the rest of the buffer emptied", |parts| spoilt(parts, |buffer, end| buffer[end..].fill(0))),
    ("a line end in the buffer", |parts| {
        spoilt(parts, |buffer, end| buffer[end..].iter_mut().take(1).for_each(|byte| *byte = LF))
    }),
    ("the keys one further on", |parts| spoilt(parts, |buffer, _| buffer.rotate_right(1.min(buffer.len())))),
];

/// About 12, 15, 16 and 17.
const REFUSALS: [Wrong; 9] = [
    ("2^64 - 1 refused with 16", |parts| refused_if(parts, LINE_NUMBER, |number, _| number == TOP)),
    ("16 not told", |parts| match parts.right.clone() {
        Err(LINE_NUMBER) => parts.with_line(Ok((TOP, Vec::new()))),
        line => parts.with_line(line),
    }),
    ("16 told as 15", |parts| match parts.right.clone() {
        Err(LINE_NUMBER) => parts.with_line(Err(NO_SUCH_LINE)),
        line => parts.with_line(line),
    }),
    ("a full buffer refused", |parts| refused_if(parts, SHORT_BUFFER, |_, room| room == 0)),
    ("no buffer refused", |parts| match parts.buffer {
        0 => parts.with_line(parts.right.clone().and(Err(SHORT_BUFFER))),
        _ => parts.with_line(parts.right.clone()),
    }),
    ("as much of a long line as fits", |parts| match (parts.right.clone(), parts.found()) {
        (Err(SHORT_BUFFER), Some(line)) => {
            parts.with_line(Ok((line.number, parts.keys(&line, parts.buffer))))
        }
        (line, _) => parts.with_line(line),
    }),
    ("17 before 15", |parts| match parts.right.clone() {
        Err(NO_SUCH_LINE) if parts.buffer == 0 => parts.with_line(Err(SHORT_BUFFER)),
        line => parts.with_line(line),
    }),
    ("17 before 16", |parts| match parts.right.clone() {
        Err(LINE_NUMBER) if parts.buffer == 0 => parts.with_line(Err(SHORT_BUFFER)),
        line => parts.with_line(line),
    }),
    ("12 where a count is refused so", |parts| {
        let counted = parts.reports[parts.number].lines(&States::of(&parts.tree));
        parts.with_line(counted.ok_or(COUNT_TOO_HIGH).and_then(|_| parts.right.clone()))
    }),
];

/// About the work words.
const WORDS: [Wrong; 13] = [
    ("words left after 15", |parts| left_after(parts, NO_SUCH_LINE)),
    ("words left after 16", |parts| left_after(parts, LINE_NUMBER)),
    ("words left after 17", |parts| left_after(parts, SHORT_BUFFER)),
    ("words left", |parts| parts.told(parts.right.clone(), &[], |_, _| ())),
    ("the reports alone", |parts| parts.told(parts.right.clone(), &parts.report_words().concat(), |_, _| ())),
    ("measures behind each report", |parts| {
        let own = parts.measured.macros.iter().map(|own| own.words().to_vec());
        let pairs = parts.report_words().into_iter().zip(own);
        let words: Vec<u64> = pairs.flat_map(|(report, own)| [report, own].concat()).collect();
        parts.told(parts.right.clone(), &words, |_, _| ())
    }),
    ("measures before the reports", |parts| {
        let own: Vec<u64> = parts.measured.macros.iter().flat_map(|own| own.words()).collect();
        parts.told(parts.right.clone(), &[own, parts.report_words().concat()].concat(), |_, _| ())
    }),
    ("measures with a lower top", |parts| measured(parts, |own| own.words().map(|word| word.min(TOP - 1)))),
    ("measures beyond the top as 0", |parts| {
        measured(parts, |own| own.words().map(|word| if word == TOP { 0 } else { word }))
    }),
    ("nothing before or behind without a line end", |parts| {
        measured(parts, |own| match own.words() {
            [0, _, _, keys] => [0, 0, 0, keys],
            words => words,
        })
    }),
    ("keys without line ends", |parts| {
        measured(parts, |own| {
            let [ends, front, back, keys] = own.words();
            [ends, front, back, keys - ends]
        })
    }),
    ("front and back exchanged", |parts| {
        measured(parts, |own| {
            let [ends, front, back, keys] = own.words();
            [ends, back, front, keys]
        })
    }),
    ("the last report's words alone", |parts| {
        let mut words = parts.work.clone();
        words[..parts.report_words()[0].len() * parts.number].fill(0);
        parts.told(parts.right.clone(), &words, |_, _| ())
    }),
];

/// About what a line is, and which lines match.
const LINES: [Wrong; 9] = [
    ("letters of one case only", |parts| asked_as(parts, Letters::Apart)),
    ("letters of both cases always", |parts| asked_as(parts, Letters::Alike)),
    ("every CR a key", |parts| in_lines(parts, every_cr)),
    ("a final CR no key", |parts| in_lines(parts, |run| lines(run.strip_suffix(&[CR]).unwrap_or(run)))),
    ("all CRs before an LF taken", |parts| in_lines(parts, no_crs)),
    ("no line behind the last line end", |parts| in_lines(parts, closed_alone)),
    ("an empty line behind the last line end", |parts| in_lines(parts, one_more)),
    ("empty lines not counted", |parts| {
        in_lines(parts, |run| lines(run).into_iter().filter(|line| !line.is_empty()).collect())
    }),
    ("a line end after each CR", |parts| {
        in_lines(parts, |run| run.split(|key| [CR, LF].contains(key)).collect())
    }),
];

fn numbered(parts: &Parts, other: fn(u64, u64) -> u64) -> String {
    parts.with_line(parts.right.clone().map(|(number, keys)| (other(number, parts.k), keys)))
}

fn spoilt(parts: &Parts, spoil: fn(&mut [u8], usize)) -> String {
    parts.told(parts.right.clone(), &parts.work, spoil)
}

/// Refused also where this holds of the line's number and of the bytes that are left over.
fn refused_if(parts: &Parts, refusal: Refusal, holds: fn(u64, usize) -> bool) -> String {
    parts.with_line(parts.right.clone().and_then(|(number, keys)| {
        let refused = holds(number, parts.buffer - keys.len());
        if refused {
            Err(refusal)
        } else {
            Ok((number, keys))
        }
    }))
}

fn left_after(parts: &Parts, refusal: Refusal) -> String {
    let line = parts.right.clone();
    let words = if line == Err(refusal) { Vec::new() } else { parts.work.clone() };
    parts.told(line, &words, |_, _| ())
}

/// With other words behind the reports.
fn measured(parts: &Parts, other: fn(&Measures) -> [u64; 4]) -> String {
    let own = parts.measured.macros.iter().flat_map(other);
    let words: Vec<u64> = parts.report_words().concat().into_iter().chain(own).collect();
    parts.told(parts.right.clone(), &words, |_, _| ())
}

/// The line under the other choice of case.
fn asked_as(parts: &Parts, letters: Letters) -> String {
    let question = Question::new(letters, &parts.question.pattern);
    let tree = question.read().unwrap_or_else(|_| parts.tree.clone());
    parts.with_line(parts.line_under(&tree))
}

/// The line by another view of what the lines of a run are, where it can be written out.
fn in_lines(parts: &Parts, split: fn(&[u8]) -> Vec<&[u8]>) -> String {
    let run = match parts.run(MOST_KEYS) {
        Some(run) => run,
        None => return parts.with_line(parts.right.clone()),
    };
    let matching = split(&run).into_iter().zip(1..).filter(|(line, _)| line_matches(&parts.tree, line));
    let line: Told = match parts.k.checked_sub(1).and_then(|before| matching.skip(before as usize).next()) {
        None => Err(NO_SUCH_LINE),
        Some((line, _)) if line.len() > parts.buffer => Err(SHORT_BUFFER),
        Some((line, number)) => Ok((number, line.to_vec())),
    };
    parts.with_line(line)
}

fn every_cr(run: &[u8]) -> Vec<&[u8]> {
    let mut all: Vec<&[u8]> = run.split(|&key| key == LF).collect();
    if run.ends_with(&[LF]) {
        all.pop();
    }
    all
}

fn no_crs(run: &[u8]) -> Vec<&[u8]> {
    let mut all = lines(run);
    let closed = all.len() - usize::from(!run.ends_with(&[LF]));
    for line in &mut all[..closed] {
        while let Some(less) = line.strip_suffix(&[CR]) {
            *line = less;
        }
    }
    all
}

fn closed_alone(run: &[u8]) -> Vec<&[u8]> {
    lines(&run[..run.iter().rposition(|&key| key == LF).map_or(0, |end| end + 1)])
}

fn one_more(run: &[u8]) -> Vec<&[u8]> {
    let mut all = lines(run);
    if run.ends_with(&[LF]) {
        all.push(b"");
    }
    all
}
