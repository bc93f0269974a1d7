//! Checks what the command is compared by: how outputs are judged, macro numbers, the forms of a start, the
//! stated answers, and what `check` and `reach` tell by a second method.

use crate::asked;
use crate::book;
use crate::command::{expected, Run, Start};
use crate::command_form::{in_turn, letters, ALIKE_FORMS};
use crate::expected::Expected;
use crate::letters::BOTH;
use crate::operations::{check, reach_numbers};
use crate::selftest::Checks;
use crate::selftest_reach::reached_upwards;
use crate::{compare_check, compare_count, compare_reach, count_edges, count_letters};

const SEED: u64 = 0x5E1F;

/// None of these is the list 11, 0, 2.
const OTHER_LISTS: [&str; 16] = [
    "0\n2\n11\n",
    "2\n0\n11\n",
    "11\n2\n0\n",
    "11\n0\n2",
    "11\n0\n2\n2\n",
    "11\n0\n2\n0\n",
    "11\n0\n",
    "11\n0\n1\n2\n",
    "11\n0\n2\n\n",
    "\n11\n0\n2\n",
    "11\n0\n02\n",
    "11\n0\n+2\n",
    "11\n0\n 2\n",
    "11\r\n0\r\n2\r\n",
    "11 0 2\n",
    "",
];

pub fn all(checks: &mut Checks) {
    judged(checks);
    judged_lists(checks);
    numbers(checks);
    forms(checks);
    stated(checks, &count_edges::runs(SEED), compare_count::own_answer);
    stated(checks, &count_letters::runs(SEED), compare_count::own_answer);
    let sound_or_not = compare_check::runs(SEED);
    stated(checks, &sound_or_not, compare_check::own_answer);
    let reached = compare_reach::runs(SEED);
    stated(checks, &reached, compare_reach::own_answer);
    for (start, _) in sound_or_not.iter().chain(&reached) {
        second_method(checks, &start.book);
    }
}

/// Every byte printed and the status count.
fn judged(checks: &mut Checks) {
    let lines = Expected::Line(String::from("lines 2 steps 17"));
    let refused = Expected::refused(4);
    for (expected, output, status, met) in [
        (&lines, "lines 2 steps 17\n", Some(0), true),
        (&lines, "lines 2 steps 17\n", Some(1), false),
        (&lines, "lines 2 steps 17\n", None, false),
        (&lines, "lines 2 steps 17", Some(0), false),
        (&lines, "lines 2 steps 17\r\n", Some(0), false),
        (&lines, "lines 2 steps 17 \n", Some(0), false),
        (&lines, "lines 2 steps 17\n\n", Some(0), false),
        (&lines, "\nlines 2 steps 17\n", Some(0), false),
        (&lines, "", Some(0), false),
        (&refused, "refused 4\n", Some(1), true),
        (&refused, "refused 4\n", Some(0), false),
        (&refused, "refused 5\n", Some(1), false),
        (&Expected::Nothing, "", Some(2), true),
        (&Expected::Nothing, "", Some(1), false),
        (&Expected::Nothing, "\n", Some(2), false),
    ] {
        let holds = expected.is_met(output.as_bytes(), status) == met;
        checks.check(holds, || format!("judged wrongly: {output:?}, {status:?}"));
    }
}

/// The numbers count with their order.
fn judged_lists(checks: &mut Checks) {
    let list = Expected::Numbers(vec![11, 0, 2]);
    let printed = b"11\n0\n2\n";
    let met = list.is_met(printed, Some(0)) && !list.is_met(printed, Some(1));
    checks.check(met, || String::from("a list judged wrongly"));
    for output in OTHER_LISTS {
        let met = list.is_met(output.as_bytes(), Some(0));
        checks.check(!met, || format!("a list judged wrongly: {output:?}"));
    }
}

fn numbers(checks: &mut Checks) {
    for (text, read) in
        [("0", Some(0)), ("1023", Some(1023)), ("65536", Some(65_536)), ("00000000000007", Some(7))]
    {
        checks.check(asked::number(text) == read, || format!("macro number {text}"));
    }
    for text in ["", "-1", "+1", " 1", "1 ", "0x1", "1.", "one"] {
        checks.check(asked::number(text).is_none(), || format!("no macro number: {text:?}"));
    }
    let high = asked::number("18446744073709551617");
    checks.check(high > Some(65_536), || String::from("a macro number of many digits"));
}

/// The forms in turn keep the choice, and a pattern that begins with `-` never stands bare.
fn forms(checks: &mut Checks) {
    for asked in BOTH {
        for place in 0..5 * ALIKE_FORMS.len() {
            let form = in_turn(place, asked, b"-i");
            let guarded = form.split(' ').any(|word| ["--", "-e", "-ie"].contains(&word));
            let kept = letters(form) == asked && letters(in_turn(place, asked, b"go")) == asked;
            checks.check(guarded && kept, || format!("form {form} of {asked:?}"));
        }
    }
}

/// This program answers as stated.
pub fn stated(checks: &mut Checks, runs: &[Run], own: fn(&Start) -> Expected) {
    for run in runs {
        let answer = expected(run, own);
        checks.check(answer.is_ok(), || answer.as_ref().err().cloned().unwrap_or_default());
    }
}

/// A sound book has 7 bytes, two for each macro and two for each item, four in version 2; a macro reaches what the
/// macros it calls reach, in that order.
pub fn second_method(checks: &mut Checks, bytes: &[u8]) {
    let (book, told) = match (book::read(bytes), check(bytes)) {
        (Ok(book), Ok(told)) => (book, told),
        _ => return,
    };
    let length = 7 + 2 * told.macros + 2 * usize::from(told.version) * told.items;
    checks.check(told.bytes == length && length == bytes.len(), || String::from("what check tells"));
    let last = book.macros.len() - 1;
    let numbers = reached_upwards(&book, last).into_iter().map(usize::from).collect();
    checks.check(reach_numbers(None, bytes) == Ok(numbers), || String::from("what reach tells"));
}
