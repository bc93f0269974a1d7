//! Counts what was compared: per group, by kind, and how many of each refusal.

use std::collections::BTreeMap;

#[derive(Default)]
pub struct Tally {
    kinds: BTreeMap<String, usize>,
    refusals: BTreeMap<usize, usize>,
    matching: BTreeMap<String, usize>,
    pub total: usize,
}

impl Tally {
    pub fn add(&mut self, kind: &str, answer: &str) {
        self.total += 1;
        *self.kinds.entry(String::from(kind)).or_default() += 1;
        let mut words = answer.split(' ');
        let first = words.next().unwrap_or("");
        let number = words.next().and_then(|word| word.parse().ok());
        match (first, number) {
            ("refused", Some(number)) => *self.refusals.entry(number).or_default() += 1,
            _ => *self.matching.entry(String::from(first)).or_default() += 1,
        }
    }

    pub fn print(&self, group: &str) {
        let show = |name: &str, list: Vec<String>| println!("  {name}: {}", list.join(", "));
        println!("{group}: {} compared", self.total);
        show("kinds", self.kinds.iter().map(|(kind, count)| format!("{kind} {count}")).collect());
        show("answers", self.matching.iter().map(|(word, count)| format!("{word} {count}")).collect());
        let refused = self.refusals.iter().map(|(number, count)| format!("no {number}: {count}"));
        show("refused", refused.collect());
    }
}
