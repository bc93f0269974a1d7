//! A pattern and the choice of case it is asked with.

use crate::letters::Letters;
use crate::parser;
use crate::refusal::Refusal;
use crate::tree::Pattern;

#[derive(Clone, Debug, PartialEq, Eq, PartialOrd, Ord)]
pub struct Question {
    pub letters: Letters,
    pub pattern: Vec<u8>,
}

impl Question {
    pub fn new(letters: Letters, pattern: &[u8]) -> Question {
        Question { letters, pattern: pattern.to_vec() }
    }

    /// The tree with the sets that the choice gives; 7, 8 or 9 whatever the choice is.
    pub fn read(&self) -> Result<Pattern, Refusal> {
        parser::read(&self.pattern, self.letters)
    }
}
