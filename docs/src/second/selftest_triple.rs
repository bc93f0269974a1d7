//! Checks triples of reports (document 02, S-7): that the own joins keep the law, that the triples keep the rules
//! that the law names, and that they tell wrong joins from the right one.

use crate::answer::report_answer;
use crate::batch::MOST_BYTES;
use crate::compare_triples;
use crate::fixed_triple;
use crate::group::{fault, Group};
use crate::join_by_states;
use crate::make_triple;
use crate::report::Report;
use crate::selftest::Checks;
use crate::selftest_triple_made;
use crate::selftest_triple_wrong::{Wrong, WRONG};
use crate::triple::{joined, unit, Triple};

const SEED: u64 = 0x5E1F;
const SEEDED: u64 = 4000;
/// So many seeded ones must tell every wrong join from the right one.
const TELLING: usize = 500;

pub fn all(checks: &mut Checks) {
    let fixed = fixed_triple::triples();
    let seeded: Vec<Triple> = make_triple::triples(SEED, SEEDED).collect();
    for triple in fixed.iter().chain(&seeded) {
        law(checks, triple, joined);
        law(checks, triple, join_by_states::joined);
        checks.check(keeps_rules(triple), || format!("rules of S-7: {}", triple.about()));
    }
    for wrong in &WRONG {
        told(checks, wrong, &fixed, &seeded[..TELLING]);
    }
    damaged(checks, &fixed[..40]);
    let bytes = |triple: &Triple| triple.cases().iter().map(|(_, case)| case.bytes().len()).sum::<usize>();
    let stream: usize = compare_triples::triples(1, 4).map(|triple| bytes(&triple)).sum();
    checks.check(stream <= MOST_BYTES, || format!("the fixed triples and four more: {stream} bytes"));
    selftest_triple_made::all(checks, &seeded);
}

/// Both groupings make one report, the known one where there is one, and the unit changes none of the three.
fn law(checks: &mut Checks, triple: &Triple, join: fn(&Report, &Report) -> Report) {
    let [a, b, c] = &triple.parts;
    let (left, right) = (join(&join(a, b), c), join(a, &join(b, c)));
    let whole = triple.whole.as_ref().unwrap_or(&left);
    checks.check(left == right && left == *whole, || format!("law of joining: {}", triple.about()));
    for part in &triple.parts {
        let e = unit(part.s);
        let same = join(&e, part) == *part && join(part, &e) == *part;
        checks.check(same, || format!("the unit: {}", triple.about()));
    }
}

/// What S-7 asks of the three: of runs, nothing but that they are of runs.
fn keeps_rules(triple: &Triple) -> bool {
    let s = triple.parts[0].s;
    triple.parts.iter().all(|part| {
        let sets = part.rows.iter().chain([&part.heads, &part.tail, &part.trimmed]);
        let bits = sets.fold(0, |all, set| all | set);
        let emptied = match part.flag {
            0 => part.heads == 0 && part.closed == 0 && part.tail == 0,
            1 => part.rows.iter().all(|&row| row == 0),
            _ => part.flag == 2 && part.closed == 0 && part.rows.iter().all(|&row| row == 0),
        };
        let above = part.rows[s as usize..].iter().all(|&row| row == 0) && bits >> s == 0;
        part.s == s && (3..=32).contains(&s) && emptied && above && part.edges < 4
    })
}

/// What some triples show of a wrong join.
#[derive(Default)]
struct Shown {
    other_lines: usize,
    told_apart: usize,
    not_associative: usize,
    unit_changes: usize,
}

fn shown(wrong: &Wrong, triples: &[Triple]) -> Shown {
    let mut shown = Shown::default();
    for triple in triples {
        let pairs = triple.pairs(joined);
        let right = pairs.each_ref().map(|(left, right)| report_answer(&joined(left, right)));
        let lines = pairs.each_ref().map(|(left, right)| report_answer(&(wrong.join)(left, right)));
        let own = triple.pairs(wrong.join).map(|(left, right)| (wrong.join)(&left, &right));
        let first = report_answer(&triple.parts[0]);
        shown.other_lines += usize::from(lines != right);
        shown.told_apart += usize::from(lines[2] != lines[3]);
        shown.not_associative += usize::from(own[2] != own[3]);
        shown.unit_changes += usize::from(lines[4..].iter().any(|line| *line != first));
    }
    shown
}

/// The fixed ones see it, the seeded ones see it, and it breaks just the laws that are said.
fn told(checks: &mut Checks, wrong: &Wrong, fixed: &[Triple], seeded: &[Triple]) {
    let (by_fixed, by_seeded) = (shown(wrong, fixed), shown(wrong, seeded));
    let seen = [by_fixed.other_lines, by_seeded.other_lines];
    checks.check(seen[0] >= 1 && seen[1] >= 1, || format!("{}: seen {seen:?} times", wrong.name));
    let broken = |count: fn(&Shown) -> usize| count(&by_fixed) + count(&by_seeded) > 0;
    let found = [
        broken(|shown| shown.told_apart),
        broken(|shown| shown.not_associative),
        broken(|shown| shown.unit_changes),
    ];
    let said = [wrong.told_apart, wrong.not_associative, wrong.unit_changes];
    checks.check(found == said, || format!("{}: seen {seen:?}, breaks {found:?}, not {said:?}", wrong.name));
}

/// Of the six lines each that is another is seen, and with it the law that it breaks.
fn damaged(checks: &mut Checks, triples: &[Triple]) {
    for triple in triples {
        let own = triple.pairs(joined).map(|(left, right)| report_answer(&joined(&left, &right)));
        let well = triple.as_stated(&own) && fault(triple, &own, &own).is_none();
        checks.check(well, || format!("no difference: {}", triple.about()));
        for place in 0..own.len() {
            let mut printed = own.clone();
            printed[place].push('0');
            let broken = triple.laws(&printed).iter().filter(|law| !law.holds).count();
            let told = fault(triple, &own, &printed).is_some();
            checks.check(told, || format!("line {place} of {}", triple.about()));
            checks.check(broken == usize::from(place > 1), || format!("law, {place}: {}", triple.about()));
        }
    }
}
