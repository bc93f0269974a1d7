//! Checks what the command's `line` and `lines` are compared by (document 02, S-3).

use crate::asked;
use crate::command_form_lines::{LINES_FORMS, LINE_FORMS};
use crate::compare_line::{own_answer, runs};
use crate::expected::Expected;
use crate::selftest::Checks;
use crate::selftest_command::stated;
use std::collections::BTreeSet;

const SEED: u64 = 0x5E1F;

pub fn all(checks: &mut Checks) {
    let runs = runs(SEED);
    stated(checks, &runs, own_answer);
    judged(checks);
    numbers(checks);
    let used: BTreeSet<(&str, &str)> =
        runs.iter().filter_map(|(start, _)| Some((start.pattern.as_ref()?.0, start.sought.behind))).collect();
    for form in LINES_FORMS.into_iter().chain(LINE_FORMS.map(|form| (form, ""))) {
        checks.check(used.contains(&form), || format!("no run has the form {form:?}"));
    }
}

/// Every byte printed and the status count.
fn judged(checks: &mut Checks) {
    let lines = Expected::Shown(vec![String::from("1:a"), String::from("3:")]);
    for (output, status, met) in [
        ("1:a\n3:\n", Some(0), true),
        ("1:a\n3:\n", Some(1), false),
        ("1:a\n3:", Some(0), false),
        ("1:a\n", Some(0), false),
        ("1:a\n3:\n\n", Some(0), false),
        ("1:a\n3: \n", Some(0), false),
        ("3:\n1:a\n", Some(0), false),
        ("1: a\n3:\n", Some(0), false),
        ("1:a\r\n3:\r\n", Some(0), false),
        ("01:a\n3:\n", Some(0), false),
        ("", Some(0), false),
    ] {
        let holds = lines.is_met(output.as_bytes(), status) == met;
        checks.check(holds, || format!("judged wrongly: {output:?}, {status:?}"));
    }
}

fn numbers(checks: &mut Checks) {
    for (text, read) in [
        ("0", Some(0)),
        ("000", Some(0)),
        ("0007", Some(7)),
        ("18446744073709551615", Some(u64::MAX)),
        ("00018446744073709551615", Some(u64::MAX)),
        ("18446744073709551616", None),
        ("340282366920938463463374607431768211457", None),
        ("", None),
        ("-1", None),
        ("+1", None),
        (" 1", None),
        ("1 ", None),
        ("0x1", None),
    ] {
        checks.check(asked::decimal(text) == read, || format!("a number of lines: {text:?}"));
    }
}
