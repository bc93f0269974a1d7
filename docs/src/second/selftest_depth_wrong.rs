//! Depths that are wrong, and easily taken for the right ones (document 02, S-6). The fixed cases must tell them
//! from those, and some seeded cases as well.

use crate::answer::{answer, work_words};
use crate::book::{self, item, Book, Item};
use crate::case::Case;
use crate::depth::{words, Keys};
use crate::depth_figures::{figures, of_run, Figures, LONGEST};
use crate::reach::reached;
use crate::refusal::LONG_RUN;
use crate::selftest_depth_told::{composed, folded, shown, told, told_with, Asked};
use crate::written::{lengths, Runs};

/// What it is called, and the answer line.
pub type Wrong = (&'static str, fn(&Asked) -> String);

pub const WRONG: [Wrong; 15] = [
    ("lowest without the start", |asked| folding(asked, 1 << 70, |_, before, next| before.min(next))),
    ("lowest at item ends", |asked| folding(asked, 0, |end, before, _| before.min(end))),
    ("lowest of the items, each from 0", |asked| told(asked, |book| each_from_0(book, asked))),
    ("end of the last item", |asked| told(asked, |book| last_item(book, asked))),
    ("closings without an opening left out", |asked| told(asked, |book| never_negative(book, asked))),
    ("a length without the cap", without_cap),
    ("19 for any macro below m", any_too_long),
    ("2^62 too long", |asked| told(asked, |book| composed(book, asked.keys, asked.number, LONGEST - 1))),
    ("2^62 + 1 not too long", |asked| {
        told(asked, |book| composed(book, asked.keys, asked.number, LONGEST + 1))
    }),
    ("18 behind the book", book_first),
    ("words as before after 19", words_kept),
    ("words of the reached macros alone", reached_alone),
    ("S-4's line ends", |asked| told(asked, |book| less_returns(book, asked))),
    ("the keys the other way round", swapped),
    ("a call's low byte as a key", |asked| told(asked, |book| low_bytes(book, asked))),
];

/// The right end, and a lowest depth from the end so far, the lowest so far and that of the item from there.
fn folding(asked: &Asked, start: i128, lowest: fn(i128, i128, i128) -> i128) -> String {
    let start = Figures { length: 0, end: 0, lowest: start };
    let key = |key| {
        let one = of_run(&[key], asked.keys);
        Figures { lowest: one.end, ..one }
    };
    let join = |sum: Figures, next: Figures| {
        let end = sum.end + next.end;
        Figures { end, lowest: lowest(end, sum.lowest, sum.end + next.lowest), ..sum }
    };
    told(asked, |book| folded(book, asked.number, LONGEST, start, key, join))
}

fn each_from_0(book: &Book, asked: &Asked) -> Vec<Option<Figures>> {
    let start = of_run(&[], asked.keys);
    folded(
        book,
        asked.number,
        LONGEST,
        start,
        |key| of_run(&[key], asked.keys),
        |sum, next| {
            let end = sum.end + next.end;
            Figures { end, lowest: sum.lowest.min(next.lowest).min(end), ..sum }
        },
    )
}

fn last_item(book: &Book, asked: &Asked) -> Vec<Option<Figures>> {
    let start = of_run(&[], asked.keys);
    let right = figures(book, asked.keys, asked.number);
    let last = folded(book, asked.number, LONGEST, start, |key| of_run(&[key], asked.keys), |_, next| next);
    let both = |(right, last): (Option<Figures>, Option<Figures>)| Some(Figures { end: last?.end, ..right? });
    right.into_iter().zip(last).map(both).collect()
}

/// A closing where nothing is open is passed over.
fn never_negative(book: &Book, asked: &Asked) -> Vec<Option<Figures>> {
    let own = figures(book, asked.keys, asked.number);
    let raised = |own: Figures| Figures { end: own.end - own.lowest, lowest: 0, ..own };
    own.into_iter().map(|own| own.map(raised)).collect()
}

/// A too long run's length cut to 64 bits.
fn without_cap(asked: &Asked) -> String {
    told_with(asked, |book| {
        let own = figures(book, asked.keys, asked.number);
        let mut cut: Vec<u64> = Vec::new();
        for number in 0..=asked.number {
            let length = |&written: &u16| match item(written) {
                Item::Key(_) => 1,
                Item::Call(called) => cut[called],
            };
            cut.push(book.items(number).iter().map(length).fold(0, u64::wrapping_add));
        }
        let three = own.iter().zip(&cut).flat_map(|(own, &length)| [length, words(own)[1], words(own)[2]]);
        (three.collect(), own[asked.number])
    })
}

fn any_too_long(asked: &Asked) -> String {
    told_with(asked, |book| {
        let own = figures(book, asked.keys, asked.number);
        let figures = if own.contains(&None) { None } else { own[asked.number] };
        (own.iter().flat_map(words).collect(), figures)
    })
}

fn book_first(asked: &Asked) -> String {
    match book::read(asked.book) {
        Err(refusal) => shown(Err(refusal), work_words(asked.words)),
        Ok(_) => asked.own.clone(),
    }
}

fn words_kept(asked: &Asked) -> String {
    if asked.own.starts_with("refused 19") {
        return shown(Err(LONG_RUN), work_words(asked.words));
    }
    asked.own.clone()
}

fn reached_alone(asked: &Asked) -> String {
    told_with(asked, |book| {
        let own = figures(book, asked.keys, asked.number);
        let list = reached(book, asked.number);
        let mut written = work_words(3 * own.len());
        for number in list.into_iter().map(usize::from) {
            written[3 * number..3 * number + 3].copy_from_slice(&words(&own[number]));
        }
        (written, own[asked.number])
    })
}

/// A CR before an LF is no key; looked for in short runs alone.
fn less_returns(book: &Book, asked: &Asked) -> Vec<Option<Figures>> {
    let lengths = lengths(book, asked.number);
    let mut own = figures(book, asked.keys, asked.number);
    for number in (0..=asked.number).filter(|&number| lengths[number] < 1000) {
        let run = Runs::of(book).keep(number).to_vec();
        let next = |place: usize| run.get(place + 1);
        let kept = |&place: &usize| run[place] != 13 || next(place) != Some(&10);
        let less: Vec<u8> = (0..run.len()).filter(kept).map(|place| run[place]).collect();
        own[number] = Some(Figures { length: run.len() as i128, ..of_run(&less, asked.keys) });
    }
    own
}

fn swapped(asked: &Asked) -> String {
    let keys = Keys { opening: asked.keys.closing, closing: asked.keys.opening };
    answer(&Case::Depth { number: asked.number, words: asked.words, keys, book: asked.book.to_vec() })
}

/// Besides what it calls, a call moves the depth as a key would.
fn low_bytes(book: &Book, asked: &Asked) -> Vec<Option<Figures>> {
    let own = figures(book, asked.keys, asked.number);
    let moved = |number: usize| {
        let low: Vec<u8> =
            book.items(number).iter().filter(|&&item| item > 255).map(|&item| item as u8).collect();
        own[number].map(|own| Figures { end: own.end + of_run(&low, asked.keys).end, ..own })
    };
    (0..=asked.number).map(moved).collect()
}
