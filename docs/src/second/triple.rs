//! Three reports, joined in both groupings, and with the report of the empty run (document 02, S-7).

use crate::answer::report_answer;
use crate::case::Case;
use crate::describe::numbers;
use crate::group::{Group, Law};
use crate::join;
use crate::report::Report;
use crate::states::bit;

pub const NAMES: [&str; 6] = ["A B", "B C", "AB C", "A BC", "E A", "A E"];
pub const GROUPING: &str = "AB C and A BC are one line";
pub const UNIT: &str = "E A and A E are A";

#[derive(Clone)]
pub struct Triple {
    /// Why it is asked, or where it comes from.
    pub why: String,
    pub parts: [Report; 3],
    /// The report of all three, where it is known without a join.
    pub whole: Option<Report>,
}

/// The report of the empty run: each state reaches itself.
pub fn unit(s: u64) -> Report {
    let mut report = Report::empty(s);
    for (state, row) in report.rows.iter_mut().enumerate().take(s as usize) {
        *row = bit(state);
    }
    report
}

/// Of two reports with the same s, from 3 to 32.
pub fn joined(left: &Report, right: &Report) -> Report {
    join::join(left, right).expect("a join of like reports was refused: the second program is wrong")
}

impl Triple {
    /// The pairs that are joined, in the order of the protocol; AB and BC by the join given.
    pub fn pairs(&self, join: impl Fn(&Report, &Report) -> Report) -> [(Report, Report); 6] {
        let [a, b, c] = &self.parts;
        let (ab, bc, e) = (join(a, b), join(b, c), unit(a.s));
        [(a, b), (b, c), (&ab, c), (a, &bc), (&e, a), (a, &e)]
            .map(|(left, right)| (left.clone(), right.clone()))
    }
}

impl Group for Triple {
    fn about(&self) -> String {
        let [a, b, c] = self.parts.each_ref().map(numbers);
        format!("triple: {}\nA {a}\nB {b}\nC {c}", self.why)
    }

    fn cases(&self) -> Vec<(&'static str, Case)> {
        let cases = self.pairs(joined).map(|(left, right)| Case::Join { left, right });
        NAMES.into_iter().zip(cases).collect()
    }

    /// A's line is written from its own fields, and no join takes part in it.
    fn laws(&self, lines: &[String]) -> Vec<Law> {
        let first = report_answer(&self.parts[0]);
        vec![
            Law { name: GROUPING, holds: lines[2] == lines[3], line: lines[2].clone() },
            Law { name: UNIT, holds: lines[4..6].iter().all(|line| *line == first), line: first },
        ]
    }

    fn as_stated(&self, lines: &[String]) -> bool {
        self.whole.as_ref().map_or(true, |whole| lines[2] == report_answer(whole))
    }
}
