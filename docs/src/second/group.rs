//! Cases that belong together, and what must hold of the lines that the program under test prints for them:
//! besides being the lines expected, they must agree with each other.

use crate::answer::answer;
use crate::batch::{alone, Batch};
use crate::case::Case;
use crate::tally::Tally;
use std::collections::VecDeque;

pub trait Group {
    /// What it is, for a person who reads of a difference.
    fn about(&self) -> String;

    /// The cases in their order, each with a short name.
    fn cases(&self) -> Vec<(&'static str, Case)>;

    /// What must hold of the lines, as many as there are cases.
    fn laws(&self, lines: &[String]) -> Vec<Law>;

    /// Whether these are the lines known beforehand, as far as any are.
    fn as_stated(&self, lines: &[String]) -> bool;
}

/// One comparison of lines with each other.
pub struct Law {
    pub name: &'static str,
    pub holds: bool,
    /// The line that they agree in, as far as they do.
    pub line: String,
}

/// Asks all groups, in streams as long as they may be. A group may lie across streams, so it is judged when its
/// last line has come.
pub fn compare<G: Group>(program: &str, groups: impl Iterator<Item = G>) -> Result<Tally, String> {
    let mut batch = Batch::new(program);
    let mut waiting = VecDeque::new();
    for group in groups {
        let asked = own_lines(&group)?;
        waiting.push_back(group);
        let added = asked.into_iter().try_for_each(|(case, own)| batch.add(case, own));
        added
            .and_then(|_| judge(&mut batch, &mut waiting))
            .map_err(|text| retold(program, &waiting, text))?;
    }
    let rest = batch.send().and_then(|_| judge(&mut batch, &mut waiting));
    rest.map_err(|text| retold(program, &waiting, text))?;
    batch.finish()
}

/// The cases with this program's lines, which must be those stated and keep the laws before anything is asked.
fn own_lines<G: Group>(group: &G) -> Result<Vec<(Case, String)>, String> {
    let cases = group.cases();
    let own: Vec<String> = cases.iter().map(|(_, case)| answer(case)).collect();
    if !group.as_stated(&own) {
        return Err(format!("{}\nsecond: {}\nstated otherwise", group.about(), own.join("\n")));
    }
    match fault(group, &own, &own) {
        Some(broken) => Err(format!("the second program is wrong\n{broken}")),
        None => Ok(cases.into_iter().map(|(_, case)| case).zip(own).collect()),
    }
}

/// All groups whose lines have come.
fn judge<G: Group>(batch: &mut Batch, waiting: &mut VecDeque<G>) -> Result<(), String> {
    while let Some(group) = waiting.front() {
        let lines = match batch.take_printed(group.cases().len()) {
            Some(lines) => lines,
            None => return Ok(()),
        };
        if let Some(broken) = fault(group, &lines, &lines) {
            return Err(broken);
        }
        for law in group.laws(&lines) {
            batch.tally.add(law.name, &law.line);
        }
        waiting.pop_front();
    }
    Ok(())
}

/// A difference met in a stream, told as the whole group's if one shows it when it is asked alone.
fn retold<G: Group>(program: &str, waiting: &VecDeque<G>, text: String) -> String {
    let told = waiting.iter().find_map(|group| {
        let cases = group.cases();
        let own: Vec<String> = cases.iter().map(|(_, case)| answer(case)).collect();
        let printed: Vec<String> = cases.iter().map(|(_, case)| alone(program, case)).collect();
        fault(group, &own, &printed)
    });
    told.unwrap_or(text)
}

/// All lines, own and printed, and the laws that those printed break, in words; nothing if all is well.
pub fn fault<G: Group>(group: &G, own: &[String], printed: &[String]) -> Option<String> {
    let broken: Vec<&str> = group.laws(printed).iter().filter(|law| !law.holds).map(|law| law.name).collect();
    if own == printed && broken.is_empty() {
        return None;
    }
    let mut text = group.about();
    for ((name, _), (own, other)) in group.cases().iter().zip(own.iter().zip(printed)) {
        text.push_str(&match own == other {
            true => format!("\n{name}: {own}"),
            false => format!("\n{name}\n  second: {own}\n  other: {other}"),
        });
    }
    let laws = if broken.is_empty() { String::from("none") } else { broken.join(", ") };
    Some(format!("{text}\nbroken by the lines printed: {laws}"))
}
