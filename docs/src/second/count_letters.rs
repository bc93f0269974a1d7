//! Runs of the command's `count` with `-i` in all its forms, and of patterns that look like it.

use crate::command::{Run, Way};
use crate::command_form::{Form, DASHES, OPTION};
use crate::count_edges::{run, wide};
use crate::fixed_books::example;
use crate::make_book::{keys, write};
use crate::make_large::longest_book;
use crate::make_long::long_books;
use crate::rng::Rng;

/// Form, pattern, answer, over the lines `-i`, `-I`, `-ie`, `--`, `i`, `GO` and `go`.
const FORMS: &[(Form, &str, &str)] = &[
    (DASHES, "-i", "lines 2"),
    (OPTION, "-i", "lines 2"),
    (DASHES, "-ie", "lines 1"),
    (OPTION, "-ie", "lines 1"),
    ("-i -- P", "-i", "lines 3"),
    ("-i P", "gO", "lines 2"),
    ("-i -e P", "-I", "lines 3"),
    ("-e P -i", "-i", "lines 3"),
    ("-ie P", "-I", "lines 3"),
    ("-i -i -- P", "--", "lines 1"),
    ("-i -i P", "G", "lines 2"),
    ("-i -i -e P", "--", "lines 1"),
    ("-i -e P -i", "-i", "lines 3"),
    ("-e P -i -i", "go", "lines 2"),
    ("-i -ie P", "-IE", "lines 1"),
    ("-ie P -i", "--", "lines 1"),
    ("-ie P -i -i", "[^-i]", "lines 3"),
];

pub fn runs(seed: u64) -> Vec<Run> {
    let book = write(&[keys(b"-i\n-I\n-ie\n--\ni\nGO\ngo\n")]);
    let mut runs = Vec::new();
    for (place, (form, pattern, stated)) in FORMS.iter().enumerate() {
        runs.push(run(form, pattern.as_bytes(), Way::in_turn(place), &book, stated));
    }
    runs.extend(edges(&longest_book(&mut Rng::new(seed ^ 0x10E))));
    runs
}

/// The refusals do not depend on the choice, nor does their order.
fn edges(longest: &[u8]) -> Vec<Run> {
    let book = write(&example());
    let (too_long, refusal) = long_books(longest).swap_remove(0);
    let mut runs = vec![
        run("-i -e P", &wide(128), Way::Input(2), &book, "lines 2 steps 17"),
        run("-i P", b"b", Way::Path, &book, "lines 1 steps 11"),
        run("-ie P", b"", Way::Path, &too_long, &format!("refused {refusal}")),
        run("-i -- P", &wide(129), Way::Path, longest, "refused 7"),
        run("-i -e P", b"", Way::Path, &book, "refused 7"),
        run("-e P -i", b"[a-Z]", Way::Path, &book, "refused 8"),
        run("-ie P", &[b'A'; 30], Way::Path, &book, "refused 9"),
        run("-i P", b"a", Way::Path, &book, "refused 10"),
    ];
    runs[1].0.asked = Some(String::from("0"));
    runs[7].0.asked = Some(String::from("2"));
    runs
}
