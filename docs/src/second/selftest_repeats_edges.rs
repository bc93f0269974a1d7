//! Checks repeat counts at the edges of one byte and of two (document 02, S-8): numbers of any size, and small runs.

use crate::book;
use crate::count::count_within;
use crate::letters::Letters;
use crate::meaning::Tester;
use crate::natural::Natural;
use crate::question::Question;
use crate::repeats::write;
use crate::selftest::Checks;
use crate::selftest_repeats_joined::one_by_one;
use crate::states::States;
use crate::written;

pub fn all(checks: &mut Checks) {
    naturals(checks);
    edges(checks);
}

/// Sums of a number so many times, at once and one by one.
fn naturals(checks: &mut Checks) {
    let mut number = Natural::one();
    for times in [1, 2, 3, 400, 65_535, 257, 65_534, 65_535, 65_535, 32_768] {
        let (mut at_once, mut one_by_one) = (number.clone(), number.clone());
        at_once.add_times(&number, times);
        (0..times).for_each(|_| one_by_one.add(&number));
        checks.check(at_once == one_by_one, || format!("a number {times} times"));
        number = at_once;
    }
}

/// Small runs as often as at the edges of the repeat count: written out, joined one by one, and by doubling.
fn edges(checks: &mut Checks) {
    for run in [&b"a\n"[..], b"\na\r", b"ab", b"\r", b"\n", b"a\nb", b"\r\n\r", b"b\n\na"] {
        for repeat in [1, 2, 3, 4, 255, 256, 257, 32_767, 32_768, 65_534, 65_535] {
            for pattern in [&b"a$"[..], b"^(ba|\r)*$|^$"] {
                let below = run.iter().map(|&key| (u16::from(key), 1)).collect();
                at_edge(checks, &write(&[below, vec![(256, repeat)]]), run, repeat, pattern);
            }
        }
    }
}

fn at_edge(checks: &mut Checks, bytes: &[u8], run: &[u8], repeat: u16, pattern: &[u8]) {
    let question = Question::new(Letters::Apart, pattern);
    let (book, tree) = match (book::read(bytes), question.read()) {
        (Ok(book), Ok(tree)) => (book, tree),
        _ => return checks.check(false, || String::from("a sound book or pattern was refused")),
    };
    let (states, mut tester) = (States::of(&tree), Tester::new(&tree));
    let whole = written::report(&states, &mut tester, &run.repeat(usize::from(repeat)));
    let joined = one_by_one(&written::report(&states, &mut tester, run), repeat);
    let doubled = count_within(&book, &tree, 1, 0).reports.swap_remove(1);
    checks.check(whole == joined && whole == doubled, || format!("{run:?} {repeat} times under {pattern:?}"));
}
