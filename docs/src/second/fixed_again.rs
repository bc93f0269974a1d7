//! Document 01's fixed cases asked again with case ignored. Refusals do not depend on the choice, and hardly
//! any of these cases has letters whose case tells; the few that have are listed.

use crate::case::Case;
use crate::fixed::Fixed;
use crate::letters::Letters;
use crate::question::Question;

/// Pattern, the answer of document 01, the answer with case ignored.
const CHANGED: &[(&[u8], &str, &str)] = &[
    (b"^[[:digit:][:upper:]_]+$", "no match", "match"),
    (b"^[[:upper:]]$", "lines 26", "lines 52"),
    (b"^[[:lower:]]$", "lines 26", "lines 52"),
    (b"^[^[:upper:]]$", "lines 228", "lines 202"),
    (b"^[^[:lower:]]$", "lines 228", "lines 202"),
];

pub fn again(fixed: &[Fixed]) -> Vec<Fixed> {
    fixed.iter().filter_map(with_case_ignored).collect()
}

/// Nothing where no pattern is asked.
fn with_case_ignored(fixed: &Fixed) -> Option<Fixed> {
    let mut case = fixed.case.clone();
    let question = question_of(&mut case)?;
    question.letters = Letters::Alike;
    let same =
        |(pattern, old, _): &&(&[u8], &str, &str)| question.pattern == *pattern && fixed.stated == *old;
    let stated = CHANGED.iter().find(same).map_or(&fixed.stated[..], |(_, _, new)| new);
    Some(Fixed::new(case, stated))
}

fn question_of(case: &mut Case) -> Option<&mut Question> {
    match case {
        Case::Line { question, .. } | Case::Run { question, .. } | Case::Count { question, .. } => {
            Some(question)
        }
        _ => None,
    }
}
