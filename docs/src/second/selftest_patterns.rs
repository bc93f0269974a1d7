//! Checks what a file of patterns is asked by: how it is read, and that each of its lines is asked.

use crate::answer::answer;
use crate::case::Case;
use crate::compare_patterns::{cases, patterns, read};
use crate::letters::{Letters, BOTH};
use crate::make_question::question;
use crate::make_share;
use crate::question::Question;
use crate::rng::Rng;
use crate::selftest::Checks;

const SEED: u64 = 0x5E1F;
/// Questions for each pattern under each choice of case.
const QUESTIONS: usize = 3;

pub fn all(checks: &mut Checks) {
    files(checks);
    let mut list: Vec<Vec<u8>> = Vec::new();
    for number in 0..300 {
        let mut rng = Rng::for_case(SEED, number);
        let asked = if number % 2 == 0 { question(&mut rng, 0) } else { make_share::question(&mut rng) };
        list.push(asked.pattern.into_iter().filter(|&byte| byte != 10).collect());
    }
    let file: Vec<u8> = list.iter().flat_map(|pattern| [&pattern[..], b"\n"].concat()).collect();
    checks.check(patterns(&file) == Ok(list.clone()), || String::from("a file of patterns, read again"));
    each(checks, &list);
}

fn files(checks: &mut Checks) {
    let list = |lines: &[&str]| Ok(lines.iter().map(|line| line.as_bytes().to_vec()).collect());
    for (file, lines) in [
        ("\n", list(&[""])),
        ("a", list(&["a"])),
        ("a\n", list(&["a"])),
        ("a\n\nb", list(&["a", "", "b"])),
        ("[]]\r\n\n", list(&["[]]\r", ""])),
    ] {
        checks.check(patterns(file.as_bytes()) == lines, || format!("patterns of {file:?}"));
    }
    checks.check(patterns(b"").is_err(), || String::from("patterns of an empty file"));
    checks.check(patterns(&vec![b'a'; 500_000]).is_err(), || String::from("a pattern longer than a stream"));
    checks.check(read("/nowhere/patterns").is_err(), || String::from("patterns of a file that is not there"));
}

/// In order, each under both choices; where a pattern is read, mostly both answers.
fn each(checks: &mut Checks, list: &[Vec<u8>]) {
    let asked = cases(SEED, list);
    checks.check(asked.len() == list.len() * 2 * QUESTIONS, || String::from("questions of the patterns"));
    let (mut accepted, mut matching, mut failing) = (0, 0, 0);
    for (pattern, asked) in list.iter().zip(asked.chunks(2 * QUESTIONS)) {
        for (letters, asked) in BOTH.into_iter().zip(asked.chunks(QUESTIONS)) {
            let question = Question::new(letters, pattern);
            let of_it = asked.iter().all(|case| is_of(case, &question));
            checks.check(of_it, || format!("not asked, {letters:?}: {}", pattern.escape_ascii()));
            let told = |words| usize::from(asked.iter().any(|case| answer(case) == words));
            accepted += usize::from(question.read().is_ok());
            matching += told("match");
            failing += told("no match");
        }
    }
    let enough = accepted > 300 && 100 * matching > 95 * accepted && 100 * failing > 80 * accepted;
    checks.check(enough, || format!("{accepted} patterns read, {matching} match, {failing} do not"));
    let both = cases(SEED, &[b"^a$".to_vec()]);
    for words in ["match", "no match"] {
        checks.check(both.iter().any(|case| answer(case) == words), || format!("^a$: no line with {words}"));
    }
}

fn is_of(case: &Case, asked: &Question) -> bool {
    let kind = if asked.letters == Letters::Alike { b'l' } else { b'L' };
    match case {
        Case::Line { question, .. } => question == asked && case.kind() == kind,
        _ => false,
    }
}
