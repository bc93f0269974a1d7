//! A case, and how it stands in a stream: a byte for its kind, then numbers of three bytes (reports, and which line
//! is sought: of eight), low byte first, then the texts.

use crate::depth::Keys;
use crate::letters::Letters;
use crate::question::Question;
use crate::report::{Report, MOST_STATES};

#[derive(Clone)]
pub enum Case {
    Line {
        question: Question,
        line: Vec<u8>,
    },
    Run {
        question: Question,
        run: Vec<u8>,
    },
    Count {
        number: usize,
        words: usize,
        question: Question,
        book: Vec<u8>,
    },
    Sound {
        book: Vec<u8>,
    },
    Body {
        number: usize,
        book: Vec<u8>,
    },
    Reach {
        number: usize,
        entries: usize,
        book: Vec<u8>,
    },
    Depth {
        number: usize,
        words: usize,
        keys: Keys,
        book: Vec<u8>,
    },
    /// The k-th matching line, into a buffer of so many bytes.
    Find {
        number: usize,
        words: usize,
        buffer: usize,
        k: u64,
        question: Question,
        book: Vec<u8>,
    },
    Join {
        left: Report,
        right: Report,
    },
}

impl Case {
    pub fn kind(&self) -> u8 {
        match self {
            Case::Line { question, .. } => kind_of(question, b'L', b'l'),
            Case::Run { question, .. } => kind_of(question, b'R', b'r'),
            Case::Count { question, .. } => kind_of(question, b'C', b'c'),
            Case::Sound { .. } => b'K',
            Case::Body { .. } => b'B',
            Case::Reach { .. } => b'H',
            Case::Depth { .. } => b'D',
            Case::Find { question, .. } => kind_of(question, b'F', b'f'),
            Case::Join { .. } => b'J',
        }
    }

    pub fn write(&self, stream: &mut Vec<u8>) {
        stream.push(self.kind());
        match self {
            Case::Line { question, line } => write_parts(stream, &[], &[&question.pattern, line]),
            Case::Run { question, run } => write_parts(stream, &[], &[&question.pattern, run]),
            Case::Count { number, words, question, book } => {
                write_parts(stream, &[*number, *words], &[&question.pattern, book])
            }
            Case::Sound { book } => write_parts(stream, &[], &[book]),
            Case::Body { number, book } => write_parts(stream, &[*number], &[book]),
            Case::Reach { number, entries, book } => write_parts(stream, &[*number, *entries], &[book]),
            Case::Depth { number, words, keys, book } => {
                let [opening, closing] = [keys.opening, keys.closing].map(usize::from);
                write_parts(stream, &[*number, *words, opening, closing], &[book])
            }
            Case::Find { number, words, buffer, k, question, book } => {
                write_numbers(stream, [*number, *words, *buffer].into_iter());
                stream.extend_from_slice(&k.to_le_bytes());
                write_parts(stream, &[], &[&question.pattern, book]);
            }
            Case::Join { left, right } => {
                write_report(stream, left);
                write_report(stream, right);
            }
        }
    }

    pub fn bytes(&self) -> Vec<u8> {
        let mut stream = Vec::new();
        self.write(&mut stream);
        stream
    }
}

/// The choice of case stands in the kind alone.
fn kind_of(question: &Question, apart: u8, alike: u8) -> u8 {
    match question.letters {
        Letters::Apart => apart,
        Letters::Alike => alike,
    }
}

/// The numbers, the lengths of the texts, the texts.
fn write_parts(stream: &mut Vec<u8>, numbers: &[usize], texts: &[&Vec<u8>]) {
    let lengths = texts.iter().map(|text| text.len());
    write_numbers(stream, numbers.iter().copied().chain(lengths));
    for text in texts {
        stream.extend_from_slice(text);
    }
}

fn write_numbers(stream: &mut Vec<u8>, numbers: impl Iterator<Item = usize>) {
    for number in numbers {
        stream.extend_from_slice(&(number as u64).to_le_bytes()[..3]);
    }
}

fn write_report(stream: &mut Vec<u8>, report: &Report) {
    stream.extend_from_slice(&report.s.to_le_bytes());
    for word in report.rows.iter().chain(&report.fields()) {
        stream.extend_from_slice(&word.to_le_bytes());
    }
}

/// Takes cases from the front of a stream.
pub struct Stream<'a> {
    pub left: &'a [u8],
}

impl Stream<'_> {
    /// The next case; nothing if the stream ends inside it or the kind is unknown.
    pub fn case(&mut self) -> Option<Case> {
        match self.take(1)?[0] {
            b'L' => self.line(Letters::Apart),
            b'l' => self.line(Letters::Alike),
            b'R' => self.run(Letters::Apart),
            b'r' => self.run(Letters::Alike),
            b'C' => self.count(Letters::Apart),
            b'c' => self.count(Letters::Alike),
            b'K' => self.one_text().map(|book| Case::Sound { book }),
            b'B' => {
                let number = self.number()?;
                self.one_text().map(|book| Case::Body { number, book })
            }
            b'H' => {
                let (number, entries) = (self.number()?, self.number()?);
                self.one_text().map(|book| Case::Reach { number, entries, book })
            }
            b'D' => self.depth(),
            b'F' => self.find(Letters::Apart),
            b'f' => self.find(Letters::Alike),
            b'J' => {
                let left = self.report()?;
                self.report().map(|right| Case::Join { left, right })
            }
            _ => None,
        }
    }

    fn line(&mut self, letters: Letters) -> Option<Case> {
        self.question(letters).map(|(question, line)| Case::Line { question, line })
    }

    fn run(&mut self, letters: Letters) -> Option<Case> {
        self.question(letters).map(|(question, run)| Case::Run { question, run })
    }

    fn count(&mut self, letters: Letters) -> Option<Case> {
        let (number, words) = (self.number()?, self.number()?);
        let (question, book) = self.question(letters)?;
        Some(Case::Count { number, words, question, book })
    }

    /// A key is a number below 256; with another the stream holds no case.
    fn depth(&mut self) -> Option<Case> {
        let (number, words) = (self.number()?, self.number()?);
        let (opening, closing) = (self.key()?, self.key()?);
        self.one_text().map(|book| Case::Depth { number, words, keys: Keys { opening, closing }, book })
    }

    fn find(&mut self, letters: Letters) -> Option<Case> {
        let (number, words, buffer) = (self.number()?, self.number()?, self.number()?);
        let k = self.low_first(8)?;
        let (question, book) = self.question(letters)?;
        Some(Case::Find { number, words, buffer, k, question, book })
    }

    fn key(&mut self) -> Option<u8> {
        u8::try_from(self.number()?).ok()
    }

    /// A pattern, and the text that it is asked of.
    fn question(&mut self, letters: Letters) -> Option<(Question, Vec<u8>)> {
        let (pattern, text) = self.two_texts()?;
        Some((Question { letters, pattern }, text))
    }

    fn take(&mut self, length: usize) -> Option<Vec<u8>> {
        if self.left.len() < length {
            return None;
        }
        let (taken, left) = self.left.split_at(length);
        self.left = left;
        Some(taken.to_vec())
    }

    fn low_first(&mut self, length: usize) -> Option<u64> {
        let taken = self.take(length)?;
        Some(taken.iter().rev().fold(0, |sum, &byte| sum << 8 | u64::from(byte)))
    }

    fn number(&mut self) -> Option<usize> {
        self.low_first(3).map(|number| number as usize)
    }

    fn one_text(&mut self) -> Option<Vec<u8>> {
        let length = self.number()?;
        self.take(length)
    }

    fn two_texts(&mut self) -> Option<(Vec<u8>, Vec<u8>)> {
        let (one, other) = (self.number()?, self.number()?);
        Some((self.take(one)?, self.take(other)?))
    }

    fn report(&mut self) -> Option<Report> {
        let mut report = Report::empty(self.low_first(8)?);
        for place in 0..MOST_STATES {
            report.rows[place] = self.low_first(8)?;
        }
        report.flag = self.low_first(8)?;
        report.heads = self.low_first(8)?;
        report.closed = self.low_first(8)?;
        report.tail = self.low_first(8)?;
        report.trimmed = self.low_first(8)?;
        report.edges = self.low_first(8)?;
        Some(report)
    }
}
