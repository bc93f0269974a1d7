//! Fixed refusals of books of version 2 (document 02, S-8): 4 for an item with fewer than its four bytes left, then
//! 5, 6 and 20 for the same item, all in reading order, whatever is asked of the book.

use crate::book::MARK;
use crate::case::Case;
use crate::depth::Keys;
use crate::fixed::Fixed;
use crate::fixed_depth::{self, ROUND};
use crate::fixed_reach;
use crate::fixed_repeats::{asked, told};
use crate::hash::hash;
use crate::letters::Letters;
use crate::make_book;
use crate::operations::COUNT_WORDS;
use crate::question::Question;
use crate::repeats::{macros, write};

/// The version, the macro count and what stands behind them, in numbers of two bytes.
pub fn numbers(list: &[u16]) -> Vec<u8> {
    let bytes = list.iter().flat_map(|number| number.to_le_bytes());
    MARK.iter().copied().chain(bytes).collect()
}

/// The same, without so many bytes at the end.
fn cut(list: &[u16], bytes: usize) -> Vec<u8> {
    let whole = numbers(list);
    whole[..whole.len() - bytes].to_vec()
}

pub fn refused() -> Vec<Fixed> {
    let mut fixed = Vec::new();
    for (place, (book, refusal)) in damaged().into_iter().enumerate() {
        let mut kinds = whoever_asks(&book, refusal);
        // Each as `K`, every second one as another kind in turn as well, and those of 20 as all kinds.
        if refusal != 20 {
            let other = kinds.swap_remove(1 + place / 2 % 4);
            kinds.truncate(1);
            kinds.extend((place % 2 == 0).then_some(other));
        }
        fixed.extend(kinds);
    }
    fixed.extend(sound());
    fixed.extend(orders());
    fixed
}

fn damaged() -> Vec<(Vec<u8>, usize)> {
    [items(), cuts(), heads(), mistaken()].concat()
}

/// A call of macro 0 and of macro 1 are 256 and 257.
fn items() -> Vec<(Vec<u8>, usize)> {
    vec![
        (numbers(&[2, 1, 1, 97, 0]), 20),
        (numbers(&[2, 1, 1, 0, 0]), 5),
        (numbers(&[2, 1, 1, 256, 0]), 6),
        (numbers(&[2, 1, 1, 65_535, 0]), 6),
        (numbers(&[2, 1, 1, 0, 1]), 5),
        (numbers(&[2, 1, 1, 256, 1]), 6),
        (numbers(&[2, 1, 1, 255, 0]), 20),
        (numbers(&[2, 1, 1, 10, 0]), 20),
        // Item by item: the first one with a fault.
        (numbers(&[2, 1, 2, 97, 0, 0, 1]), 20),
        (numbers(&[2, 1, 2, 97, 0, 256, 1]), 20),
        (numbers(&[2, 1, 2, 0, 1, 97, 0]), 5),
        (numbers(&[2, 1, 2, 256, 1, 97, 0]), 6),
        (numbers(&[2, 1, 2, 97, 1, 97, 0]), 20),
        (numbers(&[2, 1, 2, 97, 65_535, 0, 0]), 5),
        (numbers(&[2, 1, 2, 97, 65_535, 256, 0]), 6),
        (numbers(&[2, 1, 3, 97, 0, 0, 0, 256, 0]), 20),
        // A call of a lower macro, of the macro itself, and of a higher one.
        (numbers(&[2, 2, 1, 97, 400, 1, 256, 0]), 20),
        (numbers(&[2, 2, 1, 97, 400, 1, 257, 0]), 6),
        (numbers(&[2, 2, 1, 97, 400, 1, 258, 400]), 6),
        (numbers(&[2, 2, 1, 97, 0, 1, 257, 1]), 20),
        (numbers(&[2, 2, 1, 97, 0, 0]), 20),
        (numbers(&[2, 2, 1, 97, 0, 65, 97, 1]), 20),
        (numbers(&[2, 2, 1, 97, 1, 0, 97, 0]), 4),
        // A fault behind the last item of a macro with a repeat count of 0 is not told.
        ([numbers(&[2, 1, 1, 97, 0]), vec![0]].concat(), 20),
        ([numbers(&[2, 1, 1, 0, 0]), vec![0]].concat(), 5),
        ([numbers(&[2, 1, 1, 97, 256]), vec![0]].concat(), 4),
    ]
}

/// Fewer bytes than an item has, whatever those that are left say.
fn cuts() -> Vec<(Vec<u8>, usize)> {
    let mut all = Vec::new();
    for item in [97, 0, 256] {
        for repeat in [1, 0] {
            let list = [2, 1, 1, item, repeat];
            all.extend((1..=4).map(|bytes| (cut(&list, bytes), 4)));
        }
    }
    for list in [[2, 1, 2, 97, 3, 0, 0], [2, 1, 2, 97, 3, 256, 0], [2, 1, 2, 97, 3, 97, 5]] {
        all.extend((1..=3).map(|bytes| (cut(&list, bytes), 4)));
    }
    all.extend([
        // The item before says more.
        (cut(&[2, 1, 2, 97, 0, 97, 1], 1), 20),
        (cut(&[2, 1, 2, 0, 1, 97, 1], 2), 5),
        (cut(&[2, 1, 2, 256, 1, 97, 1], 3), 6),
        (cut(&[2, 1, 2, 97, 0, 97, 1], 4), 20),
        // The item count, or the next macro, is missing.
        (cut(&[2, 1, 1], 1), 4),
        (cut(&[2, 1, 1], 2), 4),
        (cut(&[2, 2, 1, 97, 5, 1], 1), 4),
        (cut(&[2, 2, 1, 97, 5, 1], 2), 4),
        (numbers(&[2, 2, 1, 97, 5, 1]), 4),
        (numbers(&[2, 2, 2, 97, 5]), 4),
        // Bytes left over: one, two, as many as an item has, and one macro more.
        ([numbers(&[2, 1, 1, 97, 5]), vec![1]].concat(), 4),
        (numbers(&[2, 1, 1, 97, 5, 1]), 4),
        (numbers(&[2, 1, 1, 97, 5, 98, 1]), 4),
        (numbers(&[2, 1, 1, 97, 5, 1, 97, 1]), 4),
    ]);
    all
}

/// Versions, macro counts and item counts, and headers cut short.
fn heads() -> Vec<(Vec<u8>, usize)> {
    let mut all = Vec::new();
    for version in [0, 3, 4, 256, 257, 258, 512, 513, 514, 65_535] {
        all.push((numbers(&[version, 1, 1, 97, 1]), 2));
    }
    all.extend([
        (numbers(&[3, 0]), 2),
        (numbers(&[3, 1, 1, 97, 0]), 2),
        (numbers(&[2, 0]), 3),
        (numbers(&[2, 0, 1, 97, 0]), 3),
        (numbers(&[2, 1_025, 1, 97, 0]), 3),
        (numbers(&[2, 65_535, 1, 97, 1]), 3),
        (numbers(&[2, 256, 1, 97, 1]), 4),
        (numbers(&[2, 1]), 4),
        (numbers(&[2, 1, 0]), 4),
        (numbers(&[2, 1, 0, 97, 0]), 4),
        (numbers(&[2, 1, 65, 0, 0]), 4),
        (numbers(&[2, 1, 256, 97, 1]), 4),
        (numbers(&[2, 1, 257, 97, 1]), 4),
        (write(&[vec![(97, 9); 65]]), 4),
        (write(&[vec![]]), 4),
        (write(&vec![vec![(97, 9)]; 1_025]), 3),
        (b"MBL\x02\0\x01\0\x01\0a\0\x01\0".to_vec(), 1),
        (b"mbk\x02\0\x01\0\x01\0a\0\x01\0".to_vec(), 1),
    ]);
    let whole = numbers(&[2, 1]);
    all.extend((3..7).map(|bytes| (whole[..bytes].to_vec(), 1)));
    all
}

/// Books of one version with the other one's number. Read as version 1, a repeat count is an item.
fn mistaken() -> Vec<(Vec<u8>, usize)> {
    vec![
        (numbers(&[1, 1, 1, 97, 1]), 4),
        (numbers(&[1, 1, 2, 97, 1, 97, 1]), 4),
        (numbers(&[1, 1, 2, 97, 0]), 5),
        (numbers(&[1, 1, 2, 97, 400]), 6),
        (numbers(&[2, 1, 2, 97, 98]), 4),
        (numbers(&[2, 1, 1, 97]), 4),
        (numbers(&[2, 2, 1, 97, 1, 256]), 4),
        (numbers(&[2, 2, 1, 97, 1, 98]), 4),
    ]
}

/// What is left once such a fault is none.
fn sound() -> Vec<Fixed> {
    let is = |book: Vec<u8>, count: usize| Fixed::new(Case::Sound { book }, &format!("sound {count}"));
    vec![
        is(numbers(&[2, 1, 1, 97, 1]), 1),
        is(numbers(&[2, 1, 1, 97, 256]), 1),
        is(numbers(&[2, 1, 1, 97, 65_535]), 1),
        is(numbers(&[2, 1, 1, 255, 512]), 1),
        is(numbers(&[2, 2, 1, 97, 1, 1, 256, 65_535]), 2),
        // Both versions read this, the one as two items, the other as one.
        is(numbers(&[1, 1, 2, 97, 98]), 1),
        is(numbers(&[2, 1, 1, 97, 98]), 1),
        is(numbers(&[1, 2, 2, 97, 1, 2, 256, 255]), 2),
        is(write(&[vec![(97, 65_535); 64]]), 1),
        is(write(&[vec![(97, 65_535); 63]]), 1),
        is(write(&vec![vec![(10, 65_535)]; 1_024]), 1_024),
        is(write(&macros(&["a*2", "0*3", "1*4 0*5 x*6"])), 3),
    ]
}

/// Each operation meets the book's fault first; only 18 comes before it.
fn whoever_asks(book: &[u8], refusal: usize) -> Vec<Fixed> {
    let book = || book.to_vec();
    let untouched = |words: u64| hash((1..=words).map(|place| 1_000_003 * place));
    let question = Question::new([Letters::Apart, Letters::Alike][refusal % 2], b"(");
    let count = Case::Count { number: 9, words: 3, question, book: book() };
    vec![
        Fixed::new(Case::Sound { book: book() }, &format!("refused {refusal}")),
        Fixed::new(Case::Body { number: 9, book: book() }, &format!("refused {refusal}")),
        Fixed::new(count, &format!("refused {refusal} work {}", untouched(3))),
        fixed_reach::asked(0, 2, book(), &fixed_reach::refused(refusal, 2)),
        fixed_depth::asked(0, 4, ROUND, book(), &fixed_depth::refused(refusal, 4)),
    ]
}

/// 20 comes with the book, before 7 to 12 and 19, and behind 18; document 01's empty pattern stands behind version 3.
fn orders() -> Vec<Fixed> {
    let bad = || numbers(&[2, 2, 1, 97, 3, 2, 256, 2, 98, 0]);
    let count = |pattern: &[u8], number: usize, words: usize, book: Vec<u8>, stated: &str| {
        let question = Question::new(Letters::Apart, pattern);
        Fixed::new(Case::Count { number, words, question, book }, stated)
    };
    let many = [b'a'; 30];
    let fine = || macros(&["a LF", "0*65535", "1*65535", "2*65535", "3*65535", "4*65535"]);
    let mut fixed = vec![
        count(b"", 0, 0, numbers(&[3, 1, 1, 97, 1]), "refused 2"),
        count(b"", 0, 0, numbers(&[2, 1, 1, 97, 1]), "refused 7"),
        count(b"", 0, 0, numbers(&[1, 1, 1, 97]), "refused 7"),
        count(b"", 0, 0, numbers(&[2, 1, 1, 97, 0]), "refused 20"),
        count(b"", 9, 0, bad(), "refused 20"),
        count(&[b'a'; 129], 9, 0, bad(), "refused 20"),
        count(b"a**", 9, 0, bad(), "refused 20"),
        count(&many, 9, 0, bad(), "refused 20"),
        count(b"a", 2, 0, bad(), "refused 20"),
        count(b"a", 0, 0, bad(), "refused 20"),
        count(b"a", 0, 10, bad(), "refused 20"),
        count(b"a", 0, COUNT_WORDS, bad(), "refused 20"),
        Fixed::new(Case::Body { number: 0, book: bad() }, "refused 20"),
        Fixed::new(Case::Body { number: 2, book: bad() }, "refused 20"),
        fixed_reach::asked(0, 0, bad(), &fixed_reach::refused(20, 0)),
        fixed_reach::asked(2, 9, bad(), &fixed_reach::refused(20, 9)),
        fixed_depth::asked(2, 0, ROUND, bad(), &fixed_depth::refused(20, 0)),
    ];
    for (opening, closing) in [(40, 40), (0, 41), (10, 41), (40, 10), (0, 0)] {
        let keys = Keys { opening, closing };
        fixed.push(fixed_depth::asked(0, 3, keys, bad(), &fixed_depth::refused(18, 3)));
        fixed.push(fixed_depth::asked(0, 3, keys, numbers(&[3, 1]), &fixed_depth::refused(18, 3)));
    }
    for (pattern, number, words, stated) in [
        (&b""[..], 9, 0, "refused 7"),
        (b"(", 9, 0, "refused 8"),
        (&many, 9, 0, "refused 9"),
        (b"a", 6, 0, "refused 10"),
        (b"a", 65_536, 0, "refused 10"),
        (b"a", 5, 59, "refused 11"),
        (b"a", 5, 60, "refused 12"),
        (b"a", 0, 10, "lines 1 steps 0"),
        (b"a", 0, 9, "refused 11"),
    ] {
        fixed.push(asked(Question::new(Letters::Apart, pattern), &fine(), number, words, stated));
    }
    fixed.extend(versions());
    fixed
}

/// The same keys in a book of version 1 and in one of version 2, which has no steps.
fn versions() -> Vec<Fixed> {
    let plain = make_book::write(&[make_book::keys(b"a\n"), vec![256, 256, 256]]);
    let question = || Question::new(Letters::Apart, b"a");
    let case = |book: Vec<u8>| Case::Count { number: 1, words: 20, question: question(), book };
    // Without rows; flag, heads, closed, tail and two more.
    let work = hash([0, 0, 0, 0, 1, 7, 0, 1, 0, 0, 0, 0, 0, 0, 1, 7, 2, 1, 0, 0].into_iter());
    // Macro 0 has 4 and 7 steps, macro 1 has 4, 1 and 1.
    let mut fixed = vec![Fixed::new(case(plain), &format!("lines 3 steps 17 work {work}"))];
    for texts in [["a LF", "0*3"], ["a LF", "0*2 0"], ["a*1 LF", "0 0*2"], ["a LF", "0 0 0"]] {
        let stated = format!("{} work {work}", told(3));
        fixed.push(Fixed::new(case(write(&macros(&texts))), &stated));
    }
    fixed
}
