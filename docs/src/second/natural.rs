//! Numbers of any size, as far as places in a run need them: a run may have (64 × 65,535)^1024 keys.

use std::cmp::Ordering;

/// Words of 64 bits, the lowest first. The highest is not 0, so that more words are a greater number.
#[derive(Clone, Debug, Default, PartialEq, Eq)]
pub struct Natural {
    words: Vec<u64>,
}

impl Natural {
    pub fn one() -> Natural {
        Natural { words: vec![1] }
    }

    pub fn of(number: u64) -> Natural {
        let mut natural = Natural { words: vec![number] };
        natural.trim();
        natural
    }

    pub fn is_zero(&self) -> bool {
        self.words.is_empty()
    }

    /// The smaller of this number and 2^64 - 1.
    pub fn word(&self) -> u64 {
        match self.words[..] {
            [] => 0,
            [word] => word,
            _ => u64::MAX,
        }
    }

    pub fn add(&mut self, other: &Natural) {
        self.add_times(other, 1);
    }

    /// The other one so many times.
    pub fn add_times(&mut self, other: &Natural, times: u16) {
        if self.words.len() < other.words.len() {
            self.words.resize(other.words.len(), 0);
        }
        let mut carry = 0;
        for (place, word) in self.words.iter_mut().enumerate() {
            let more = other.words.get(place).copied().unwrap_or(0);
            let sum = u128::from(*word) + u128::from(more) * u128::from(times) + carry;
            *word = sum as u64;
            carry = sum >> 64;
        }
        if carry > 0 {
            self.words.push(carry as u64);
        }
        self.trim();
    }

    /// Takes away another one, which is not greater.
    pub fn subtract(&mut self, other: &Natural) {
        let mut borrowed = false;
        for (place, word) in self.words.iter_mut().enumerate() {
            let less = other.words.get(place).copied().unwrap_or(0);
            let (once, under) = word.overflowing_sub(less);
            let (twice, again) = once.overflowing_sub(u64::from(borrowed));
            *word = twice;
            borrowed = under || again;
        }
        assert!(!borrowed, "a greater number was taken away: the second program is wrong");
        self.trim();
    }

    fn trim(&mut self) {
        while self.words.last() == Some(&0) {
            self.words.pop();
        }
    }
}

impl Ord for Natural {
    fn cmp(&self, other: &Natural) -> Ordering {
        let by_length = self.words.len().cmp(&other.words.len());
        by_length.then_with(|| self.words.iter().rev().cmp(other.words.iter().rev()))
    }
}

impl PartialOrd for Natural {
    fn partial_cmp(&self, other: &Natural) -> Option<Ordering> {
        Some(self.cmp(other))
    }
}
