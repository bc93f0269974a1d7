//! The patterns of a file, each asked with some lines under both choices of case.

use crate::batch::{Batch, MOST_BYTES};
use crate::case::Case;
use crate::letters::BOTH;
use crate::make_line;
use crate::operations::line_test;
use crate::question::Question;
use crate::rng::Rng;
use crate::tally::Tally;

/// So often a line with the wanted answer is tried for.
const TRIES: usize = 30;
/// A line's bytes and a case's numbers need room behind the pattern.
const MOST_PATTERN: usize = MOST_BYTES - 10_000;

/// One pattern a line, LF after each; bytes behind the last LF are one more. A CR is a byte of its pattern
/// here: the lines of S-4 are those of runs.
pub fn read(path: &str) -> Result<Vec<Vec<u8>>, String> {
    let bytes = std::fs::read(path).map_err(|error| format!("{path}: {error}"))?;
    patterns(&bytes).map_err(|message| format!("{path}: {message}"))
}

pub fn patterns(bytes: &[u8]) -> Result<Vec<Vec<u8>>, String> {
    let mut patterns: Vec<Vec<u8>> = bytes.split(|&byte| byte == 10).map(<[u8]>::to_vec).collect();
    if patterns.last().map_or(false, |last| last.is_empty()) {
        patterns.pop();
    }
    if patterns.is_empty() {
        return Err(String::from("no pattern in it"));
    }
    if patterns.iter().any(|pattern| pattern.len() > MOST_PATTERN) {
        return Err(String::from("a pattern is too long for a stream of cases"));
    }
    Ok(patterns)
}

pub fn compare(program: &str, seed: u64, patterns: &[Vec<u8>]) -> Result<Tally, String> {
    let mut batch = Batch::new(program);
    for case in cases(seed, patterns) {
        batch.ask(case)?;
    }
    batch.finish()
}

/// For each pattern and choice: a line that matches, one that does not, where such lines are met, and any.
pub fn cases(seed: u64, patterns: &[Vec<u8>]) -> Vec<Case> {
    let mut cases = Vec::new();
    for (number, pattern) in patterns.iter().enumerate() {
        let mut rng = Rng::for_case(seed ^ 0x9A77, number as u64);
        for letters in BOTH {
            let question = Question::new(letters, pattern);
            for wanted in [Some(true), Some(false), None] {
                let line = line_for(&mut rng, &question, wanted);
                cases.push(Case::Line { question: question.clone(), line });
            }
        }
    }
    cases
}

fn line_for(rng: &mut Rng, question: &Question, wanted: Option<bool>) -> Vec<u8> {
    let mut line = make_line::line(rng, question);
    for _ in 0..TRIES {
        match (wanted, line_test(question, &line)) {
            (Some(wanted), Ok(answer)) if answer != wanted => line = make_line::line(rng, question),
            _ => break,
        }
    }
    line
}
