//! Compares the programs under test with this one; the first difference ends everything.

use crate::command::{self, Run, Start};
use crate::command_repeats::{check_runs, count_runs, depth_runs, reach_runs};
use crate::expected::Expected;
use crate::tally::Tally;
use crate::{
    compare_cases, compare_check, compare_count, compare_cuecount, compare_find, compare_line,
    compare_regroup, compare_repeats,
};
use crate::{compare_depth, compare_patterns, compare_reach, compare_triples, compare_usage};
use std::process::exit;

/// Paths of the three programs, the seed, how many seeded cases go through the first, and patterns that are
/// asked of it besides.
pub fn compare(programs: [&str; 3], seed: u64, count: u64, patterns: &[Vec<u8>]) {
    match compare_all(programs, seed, count, patterns) {
        Ok(passed) => println!("{passed} passed, 0 failed"),
        Err(difference) => {
            println!("difference\n{difference}");
            exit(1);
        }
    }
}

fn compare_all(
    [cases, cuecount, command]: [&str; 3],
    seed: u64,
    count: u64,
    patterns: &[Vec<u8>],
) -> Result<usize, String> {
    let mut passed = 0;
    let mut done = |group: &str, tally: Tally| {
        tally.print(group);
        passed += tally.total;
    };
    compare_streams(cases, seed, count, &mut done)?;
    if !patterns.is_empty() {
        done("patterns of the file", compare_patterns::compare(cases, seed, patterns)?);
    }
    done("runs of cuecount", compare_cuecount::compare(cuecount, seed)?);
    compare_command(command, seed, &mut done)?;
    Ok(passed)
}

/// The program that answers cases; `done` is told of each group.
fn compare_streams(
    cases: &str,
    seed: u64,
    count: u64,
    done: &mut impl FnMut(&str, Tally),
) -> Result<(), String> {
    done("streams of cases", compare_cases::compare(cases, seed, count)?);
    done("triples of reports", compare_triples::compare(cases, seed, count)?);
    done("regroupings of books", compare_regroup::compare(cases, seed, count)?);
    done("regroupings of version 2 books", compare_regroup::compare_repeated(cases, seed, count)?);
    done("regroupings that are refused", compare_regroup::compare_refused(cases, seed, count)?);
    done("version 2 books", compare_repeats::compare(cases, seed, count)?);
    done("largest version 2 books", compare_repeats::compare_largest(cases, seed)?);
    done("forms of books", compare_repeats::compare_forms(cases, seed, count)?);
    done("lines of books", compare_find::compare(cases, seed, count)?);
    done("lines of the largest books", compare_find::compare_largest(cases, seed)?);
    Ok(())
}

fn compare_command(command: &str, seed: u64, done: &mut impl FnMut(&str, Tally)) -> Result<(), String> {
    let repeated = |group: &str, runs: &[Run], own: fn(&Start) -> Expected| {
        command::compare(command, runs, own).map(|tally| (format!("runs of {group}, version 2"), tally))
    };
    done("runs of count", compare_count::compare(command, seed)?);
    done("runs of check", compare_check::compare(command, seed)?);
    done("runs of reach", compare_reach::compare(command, seed)?);
    done("runs of depth", compare_depth::compare(command, seed)?);
    for (group, tally) in [
        repeated("count", &count_runs(seed), compare_count::own_answer)?,
        repeated("check", &check_runs(seed), compare_check::own_answer)?,
        repeated("reach", &reach_runs(seed), compare_reach::own_answer)?,
        repeated("depth", &depth_runs(seed), compare_depth::own_answer)?,
    ] {
        done(&group, tally);
    }
    done("runs of line and lines", compare_line::compare(command, seed)?);
    done("runs with no answer", compare_usage::compare(command)?);
    Ok(())
}
