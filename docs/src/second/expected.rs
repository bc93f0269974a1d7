//! What the command must print, and the status it must end with. Nothing else may stand on standard output.

use crate::refusal::Refusal;

pub enum Expected {
    /// This line and its LF.
    Line(String),
    /// These numbers in this order, each on a line of its own.
    Numbers(Vec<usize>),
    /// These lines of a run, each with its LF.
    Shown(Vec<String>),
    /// No answer.
    Nothing,
}

impl Expected {
    pub fn refused(refusal: Refusal) -> Expected {
        Expected::Line(format!("refused {refusal}"))
    }

    pub fn status(&self) -> i32 {
        match self {
            Expected::Line(line) if line.starts_with("refused ") => 1,
            Expected::Nothing => 2,
            _ => 0,
        }
    }

    /// In words, for statements, tallies and differences.
    pub fn shown(&self) -> String {
        match self {
            Expected::Line(line) => line.clone(),
            Expected::Numbers(numbers) => {
                let list: String = numbers.iter().map(|number| format!(" {number}")).collect();
                format!("numbers{list}")
            }
            Expected::Shown(lines) => format!("shown {}", lines.join("\n")),
            Expected::Nothing => String::from("nothing"),
        }
    }

    pub fn is_met(&self, output: &[u8], status: Option<i32>) -> bool {
        let printed = match self {
            Expected::Line(line) => output == [line.as_bytes(), b"\n"].concat(),
            Expected::Numbers(numbers) => output == lines(numbers).as_bytes(),
            Expected::Shown(lines) => output == [lines.join("\n").as_bytes(), b"\n"].concat(),
            Expected::Nothing => output.is_empty(),
        };
        printed && status == Some(self.status())
    }
}

/// One number a line, the last LF too, with no blank, sign or leading zero.
fn lines(numbers: &[usize]) -> String {
    numbers.iter().map(|number| format!("{number}\n")).collect()
}
