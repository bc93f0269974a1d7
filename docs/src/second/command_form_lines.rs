//! The forms in which the command is asked for lines (PROTOCOL.md, "The command").

use crate::command_form::{letters, Form, Sought};
use crate::letters::Letters;

/// Where K stands in a start of `line`.
pub const LINE_FORMS: [Form; 14] = [
    "K P",
    "-- K P",
    "-e P K",
    "-i K P",
    "-i -- K P",
    "-i -e P K",
    "-e P -i K",
    "-ie P K",
    "-i -i K P",
    "-i -i -- K P",
    "-ie P -i K",
    "-i -ie P K",
    "-i -e P -i K",
    "-e P -i -i K",
];

/// Where K and C stand in a start of `lines`: before the operands, and behind them. Behind `--` all are operands.
pub const LINES_FORMS: [(Form, Form); 44] = [
    ("P", ""),
    ("-- P", ""),
    ("-e P", ""),
    ("-i P", ""),
    ("-i -- P", ""),
    ("-ie P", ""),
    ("-e P -i", ""),
    ("P", "--first K"),
    ("P", "--first=K"),
    ("--first K P", ""),
    ("--first=K P", ""),
    ("--first K -- P", ""),
    ("-e P", "--first K"),
    ("--first=K -e P", ""),
    ("-e P --first K", ""),
    ("-i P", "--first=K"),
    ("-i --first K P", ""),
    ("--first=K -i -- P", ""),
    ("-ie P", "--first K"),
    ("--first K -ie P", ""),
    ("P", "--count C"),
    ("P", "--count=C"),
    ("--count C P", ""),
    ("--count=C -- P", ""),
    ("-e P", "--count=C"),
    ("--count C -e P", ""),
    ("-i P", "--count C"),
    ("-i --count=C -- P", ""),
    ("--count C -i P", ""),
    ("-e P --count=C -i", ""),
    ("P", "--first K --count C"),
    ("P", "--count=C --first=K"),
    ("--first K --count=C P", ""),
    ("--count C --first=K -- P", ""),
    ("--first K P", "--count C"),
    ("--count=C P", "--first K"),
    ("-e P", "--first=K --count C"),
    ("--first=K -e P", "--count=C"),
    ("-e P --count C --first K", ""),
    ("-i P", "--count C --first K"),
    ("--first K -i --count C -- P", ""),
    ("-ie P", "--first=K --count=C"),
    ("--first=K -ie P --count C", ""),
    ("-i --count=C -e P", "--first K"),
];

/// The next of those forms in turn that fit; the second is the one of the words behind the operands.
pub fn in_turn(turn: usize, verb: &str, asked: Letters, pattern: &[u8], sought: &Sought) -> (Form, Form) {
    let all = match verb {
        "line" => LINE_FORMS.map(|form| (form, "")).to_vec(),
        _ => LINES_FORMS.to_vec(),
    };
    let fitting: Vec<(Form, Form)> =
        all.into_iter().filter(|&form| fits(form, asked, pattern, sought)).collect();
    fitting[turn % fitting.len()]
}

/// Whether a form has the choice, the numbers that are given and no others, and keeps the pattern from being taken for
/// something else.
pub fn fits((form, behind): (Form, Form), asked: Letters, pattern: &[u8], sought: &Sought) -> bool {
    let has = |letter: char| form.contains(letter) || behind.contains(letter);
    let guarded = form.split(' ').any(|word| ["--", "-e", "-ie"].contains(&word));
    letters(form) == asked
        && has('K') == sought.k.is_some()
        && has('C') == sought.most.is_some()
        && (guarded || !pattern.starts_with(b"-"))
}
