//! How the command is given a pattern, the choice of case, and which lines are sought (PROTOCOL.md, "The command").

use crate::letters::Letters;
use std::ffi::{OsStr, OsString};
use std::os::unix::ffi::OsStrExt;

/// The words between the verb and the book; P stands for the pattern, K and C for the numbers of lines.
pub type Form = &'static str;

pub const BARE: Form = "P";
pub const DASHES: Form = "-- P";
pub const OPTION: Form = "-e P";

/// With `-i`: before the operands, before or after `-e PATTERN` or in one word with it, once or twice.
pub const ALIKE_FORMS: [Form; 13] = [
    "-i -- P",
    "-i P",
    "-i -e P",
    "-e P -i",
    "-ie P",
    "-i -i -- P",
    "-i -i P",
    "-i -i -e P",
    "-i -e P -i",
    "-e P -i -i",
    "-i -ie P",
    "-ie P -i",
    "-ie P -i -i",
];

/// The choice is in the form alone.
pub fn letters(form: Form) -> Letters {
    if form.split(' ').any(|word| word.starts_with("-i")) {
        Letters::Alike
    } else {
        Letters::Apart
    }
}

/// A form that takes every pattern.
pub fn safe(letters: Letters) -> Form {
    match letters {
        Letters::Apart => DASHES,
        Letters::Alike => ALIKE_FORMS[0],
    }
}

/// The next form in turn. A pattern that begins with `-` needs `--` before it, or `-e`.
pub fn in_turn(place: usize, letters: Letters, pattern: &[u8]) -> Form {
    let form = match letters {
        Letters::Apart => [DASHES, OPTION, DASHES, BARE, DASHES][place % 5],
        Letters::Alike => ALIKE_FORMS[place % ALIKE_FORMS.len()],
    };
    let bare = form.split(' ').all(|word| word == "P" || word == "-i");
    if bare && pattern.starts_with(b"-") {
        safe(letters)
    } else {
        form
    }
}

/// For `line` and `lines`: which line, how many lines, and the form of the words behind the operands.
#[derive(Clone, Default)]
pub struct Sought {
    pub k: Option<String>,
    pub most: Option<String>,
    pub behind: Form,
}

pub fn words(form: Form, pattern: &[u8], sought: &Sought) -> Vec<OsString> {
    let (k, most) = [&sought.k, &sought.most].map(|number| number.as_deref().unwrap_or("")).into();
    let word = |word: &str| match word {
        "P" => OsStr::from_bytes(pattern).to_os_string(),
        "K" => OsString::from(k),
        "C" => OsString::from(most),
        "--first=K" => OsString::from(format!("--first={k}")),
        "--count=C" => OsString::from(format!("--count={most}")),
        word => OsString::from(word),
    };
    form.split_whitespace().map(word).collect()
}
