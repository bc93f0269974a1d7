//! Cases gathered to streams for the program that answers them, with this program's answers.

use crate::answer::answer;
use crate::case::Case;
use crate::child;
use crate::describe::describe;
use crate::tally::Tally;

/// So long is a stream at most.
pub const MOST_BYTES: usize = 458_752;

/// Cases waiting to be sent.
pub struct Batch<'a> {
    program: &'a str,
    stream: Vec<u8>,
    cases: Vec<(Case, String)>,
    /// The lines that came back as expected, since they were last taken.
    printed: Vec<String>,
    pub tally: Tally,
}

pub fn difference(case: &Case, own: &str, other: &str) -> String {
    format!("{}\nsecond: {own}\nother: {other}", describe(case))
}

impl Batch<'_> {
    pub fn new(program: &str) -> Batch<'_> {
        let (stream, cases, printed) = (Vec::new(), Vec::new(), Vec::new());
        Batch { program, stream, cases, printed, tally: Tally::default() }
    }

    /// Answers a case and adds it.
    pub fn ask(&mut self, case: Case) -> Result<(), String> {
        let own = answer(&case);
        self.add(case, own)
    }

    /// Sends what still waits.
    pub fn finish(mut self) -> Result<Tally, String> {
        self.send()?;
        Ok(self.tally)
    }

    pub fn add(&mut self, case: Case, own: String) -> Result<(), String> {
        let bytes = case.bytes();
        if self.stream.len() + bytes.len() > MOST_BYTES {
            self.send()?;
        }
        self.stream.extend_from_slice(&bytes);
        self.cases.push((case, own));
        Ok(())
    }

    pub fn send(&mut self) -> Result<(), String> {
        let stream = std::mem::take(&mut self.stream);
        let cases = std::mem::take(&mut self.cases);
        if cases.is_empty() {
            return Ok(());
        }
        let failed = |message| self.blame(&cases, message);
        let outcome = child::run(self.program, &[], vec![stream]).map_err(failed)?;
        let text = String::from_utf8_lossy(&outcome.output).into_owned();
        let lines: Vec<&str> = text.split_terminator('\n').collect();
        for (number, (case, own)) in cases.iter().enumerate() {
            match lines.get(number) {
                Some(line) if line == own => {}
                Some(line) => return Err(difference(case, own, line)),
                None => return Err(self.blame(&cases[number..], String::from("(no answer line)"))),
            }
        }
        if lines.len() > cases.len() || !outcome.status.success() {
            let extra = lines.len() - cases.len();
            let status = outcome.status;
            return Err(self.blame(&cases, format!("({extra} lines too many; {status})")));
        }
        for (case, own) in &cases {
            self.tally.add(&char::from(case.kind()).to_string(), own);
        }
        self.printed.extend(lines.into_iter().map(String::from));
        Ok(())
    }

    /// The next lines, if so many have come back.
    pub fn take_printed(&mut self, count: usize) -> Option<Vec<String>> {
        (self.printed.len() >= count).then(|| self.printed.drain(..count).collect())
    }

    /// A stream failed as a whole: asks the cases one by one, to show the first that fails alone.
    fn blame(&self, cases: &[(Case, String)], message: String) -> String {
        for (case, own) in cases {
            let other = alone(self.program, case);
            if &other != own {
                return difference(case, own, &other);
            }
        }
        let (case, own) = &cases[0];
        difference(case, own, &format!("{message}, only in a stream of many cases"))
    }
}

/// What the program prints for one case in a stream of its own.
pub fn alone(program: &str, case: &Case) -> String {
    match child::run(program, &[], vec![case.bytes()]) {
        Err(message) => message,
        Ok(outcome) if outcome.status.success() => outcome.only_line(),
        Ok(outcome) => format!("{} ({})", outcome.only_line(), outcome.status),
    }
}
