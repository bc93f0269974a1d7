//! A second program for document 01, and S-1 to S-8 of document 02, written apart from the first, to test it with.
//! It works everything out by the definitions and prefers plainness to speed.

mod answer;
mod asked;
mod batch;
mod book;
mod book_file;
mod bracket;
mod case;
mod child;
mod classes;
mod command;
mod command_form;
mod command_form_lines;
mod command_key;
mod command_repeats;
mod compare;
mod compare_cases;
mod compare_check;
mod compare_count;
mod compare_cuecount;
mod compare_depth;
mod compare_depth_words;
mod compare_find;
mod compare_line;
mod compare_line_stated;
mod compare_patterns;
mod compare_reach;
mod compare_regroup;
mod compare_repeats;
mod compare_triples;
mod compare_usage;
mod count;
mod count_edges;
mod count_letters;
mod cuecount_repeats;
mod depth;
mod depth_figures;
mod depth_paired;
mod describe;
mod enumerate;
mod expected;
mod find;
mod fixed;
mod fixed_again;
mod fixed_books;
mod fixed_depth;
mod fixed_depth_deep;
mod fixed_depth_long;
mod fixed_depth_refused;
mod fixed_depth_sums;
mod fixed_ends;
mod fixed_find;
mod fixed_find_deep;
mod fixed_find_huge;
mod fixed_find_long;
mod fixed_find_refused;
mod fixed_find_seeded;
mod fixed_find_words;
mod fixed_forms;
mod fixed_fronts;
mod fixed_letters;
mod fixed_letters_books;
mod fixed_lines;
mod fixed_parts;
mod fixed_reach;
mod fixed_reach_large;
mod fixed_reach_refused;
mod fixed_reach_wide;
mod fixed_regroup;
mod fixed_regroup_large;
mod fixed_regroup_refused;
mod fixed_regroup_repeated;
mod fixed_repeats;
mod fixed_repeats_depth;
mod fixed_repeats_ends;
mod fixed_repeats_huge;
mod fixed_repeats_large;
mod fixed_repeats_reach;
mod fixed_repeats_refused;
mod fixed_returns;
mod fixed_returns_books;
mod fixed_returns_cuts;
mod fixed_returns_huge;
mod fixed_returns_joins;
mod fixed_rows;
mod fixed_runs;
mod fixed_sets;
mod fixed_triple;
mod fixed_triple_rows;
mod fixed_triple_runs;
mod fixed_whole;
mod form;
mod forms;
mod group;
mod hash;
mod join;
mod join_by_states;
mod kinds;
mod letters;
mod line_ends;
mod make;
mod make_book;
mod make_bracket;
mod make_damage;
mod make_deep;
mod make_depth;
mod make_depth_long;
mod make_ends;
mod make_find;
mod make_forms;
mod make_large;
mod make_letters;
mod make_line;
mod make_long;
mod make_pattern;
mod make_question;
mod make_reach;
mod make_regroup;
mod make_repeats;
mod make_repeats_book;
mod make_repeats_damage;
mod make_repeats_deep;
mod make_repeats_large;
mod make_report;
mod make_returns;
mod make_rows;
mod make_share;
mod make_tree;
mod make_triple;
mod make_triple_long;
mod make_triple_report;
mod meaning;
mod measures;
mod natural;
mod operations;
mod parser;
mod passage;
mod place;
mod question;
mod reach;
mod refusal;
mod regroup;
mod repeats;
mod report;
mod rng;
mod scan;
mod seek;
mod selftest;
mod selftest_brackets;
mod selftest_command;
mod selftest_depth;
mod selftest_depth_made;
mod selftest_depth_told;
mod selftest_depth_wrong;
mod selftest_find;
mod selftest_find_laws;
mod selftest_find_made;
mod selftest_find_parts;
mod selftest_find_wrong;
mod selftest_forms;
mod selftest_letters;
mod selftest_line;
mod selftest_patterns;
mod selftest_reach;
mod selftest_reach_made;
mod selftest_reach_wrong;
mod selftest_regroup;
mod selftest_regroup_made;
mod selftest_regroup_wrong;
mod selftest_repeats;
mod selftest_repeats_edges;
mod selftest_repeats_joined;
mod selftest_repeats_made;
mod selftest_repeats_read;
mod selftest_repeats_wrong;
mod selftest_returns;
mod selftest_returns_made;
mod selftest_triple;
mod selftest_triple_made;
mod selftest_triple_wrong;
mod selftest_triple_wrong_sums;
mod show;
mod states;
mod summary;
mod tally;
mod tree;
mod triple;
mod triple_runs;
mod written;

use group::Group;
use std::io::{self, Read, Write};
use std::process::exit;

const USAGE: &str = "second answer < cases > answers
second make SEED COUNT > cases
second depths SEED COUNT > cases
second triples SEED COUNT > cases
second repeats SEED COUNT > cases
second finds SEED COUNT > cases
second compare CASES CUECOUNT RAKVINJE SEED N [PATTERNS]
second selftest";

fn main() {
    let arguments: Vec<String> = std::env::args().skip(1).collect();
    let words: Vec<&str> = arguments.iter().map(String::as_str).collect();
    let done = match words[..] {
        ["answer"] => answer_stream(),
        ["make", seed, count] => make_stream(seed, count),
        ["depths", seed, count] => depths_stream(seed, count),
        ["triples", seed, count] => triples_stream(seed, count),
        ["repeats", seed, count] => repeats_stream(seed, count),
        ["finds", seed, count] => finds_stream(seed, count),
        ["compare", cases, cuecount, command, seed, cases_wanted] => {
            compare_programs([cases, cuecount, command], seed, cases_wanted, None)
        }
        ["compare", cases, cuecount, command, seed, cases_wanted, patterns] => {
            compare_programs([cases, cuecount, command], seed, cases_wanted, Some(patterns))
        }
        ["selftest"] => test_itself(),
        _ => Err(String::from(USAGE)),
    };
    if let Err(message) = done {
        eprintln!("{message}");
        exit(2);
    }
}

fn number(text: &str) -> Result<u64, String> {
    text.parse().map_err(|_| format!("not a number: {text}"))
}

fn answer_stream() -> Result<(), String> {
    let mut bytes = Vec::new();
    io::stdin().read_to_end(&mut bytes).map_err(|error| error.to_string())?;
    let mut stream = case::Stream { left: &bytes };
    let mut lines = String::new();
    while !stream.left.is_empty() {
        let case = stream.case().ok_or("the stream ends inside a case, or a kind is unknown")?;
        lines.push_str(&answer::answer(&case));
        lines.push('\n');
    }
    io::stdout().write_all(lines.as_bytes()).map_err(|error| error.to_string())
}

fn make_stream(seed: &str, count: &str) -> Result<(), String> {
    print_cases(make::cases(number(seed)?, number(count)?))
}

/// The fixed ones, and behind them the seeded ones.
fn depths_stream(seed: &str, count: &str) -> Result<(), String> {
    let seeded = make_depth::cases(number(seed)?, number(count)?);
    print_cases(fixed::of_depths().into_iter().map(|fixed| fixed.case).chain(seeded))
}

/// Six cases each; the fixed ones, and behind them the seeded ones.
fn triples_stream(seed: &str, count: &str) -> Result<(), String> {
    let triples = compare_triples::triples(number(seed)?, number(count)?);
    print_cases(triples.flat_map(|triple| triple.cases()).map(|(_, case)| case))
}

/// The fixed ones but the largest, and behind them the seeded ones.
fn repeats_stream(seed: &str, count: &str) -> Result<(), String> {
    let seeded = make_repeats::cases(number(seed)?, number(count)?);
    print_cases(fixed::of_repeats().into_iter().map(|fixed| fixed.case).chain(seeded))
}

/// The fixed ones, and behind them the seeded ones.
fn finds_stream(seed: &str, count: &str) -> Result<(), String> {
    let seeded = make_find::cases(number(seed)?, number(count)?);
    print_cases(fixed::of_finds().into_iter().map(|fixed| fixed.case).chain(seeded))
}

fn print_cases(cases: impl Iterator<Item = case::Case>) -> Result<(), String> {
    let mut stream = Vec::new();
    for case in cases {
        case.write(&mut stream);
    }
    io::stdout().write_all(&stream).map_err(|error| error.to_string())
}

/// A file of patterns that is named must have some.
fn compare_programs(
    programs: [&str; 3],
    seed: &str,
    count: &str,
    patterns: Option<&str>,
) -> Result<(), String> {
    let patterns = patterns.map_or(Ok(Vec::new()), compare_patterns::read)?;
    compare::compare(programs, number(seed)?, number(count)?, &patterns);
    Ok(())
}

fn test_itself() -> Result<(), String> {
    if !selftest::selftest() {
        exit(1);
    }
    Ok(())
}
