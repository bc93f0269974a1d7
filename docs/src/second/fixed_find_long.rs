//! Fixed cases of long lines (document 02, S-3): with about as many keys as a buffer has bytes, with about 2^64, and what
//! stands behind so many keys.

use crate::find::MOST_BUFFER;
use crate::fixed::Fixed;
use crate::fixed_find::{asked, book, found, refused, ROOM};
use crate::fixed_find_huge::{is, none, powers, too_far, ALL, ONE_FEWER, TWO_FEWER};
use crate::letters::Letters;
use crate::make_book::{call, keys, write, Macros};
use crate::question::Question;
use crate::refusal::{NO_SUCH_LINE, SHORT_BUFFER};

pub fn long() -> Vec<Fixed> {
    [turning(), full_buffers(), long_lines(), far_keys()].concat()
}

/// Long lines of which those match whose length is a multiple of three.
fn turning() -> Vec<Fixed> {
    let texts = ["a*65535 LF a*65534 LF a*65533 LF a*65532 LF", "0 LF a*2 LF"];
    let mut fixed = Vec::new();
    for (k, number, length) in [(1, 1, 65_535), (2, 4, 65_532), (3, 5, 0)] {
        let question = Question::new(Letters::Apart, b"^(aaa)*$");
        let stated = found(number, &vec![b'a'; length], MOST_BUFFER);
        fixed.push(asked(question, book(&texts), 1, MOST_BUFFER, k, &stated));
    }
    fixed
}

/// Macro 4 over powers of `x`.
fn over_keys(top: &str, buffer: usize, k: u64, stated: &str) -> Fixed {
    asked(Question::new(Letters::Apart, b"x|^ab$"), book(&powers("x", top)), 4, buffer, k, stated)
}

/// 65,536 keys, and one more.
fn full_buffers() -> Vec<Fixed> {
    let mut fixed = Vec::new();
    let mut put = |top: &str, stated: &str| {
        fixed.push(over_keys(top, MOST_BUFFER, 1, stated));
        fixed.push(over_keys(top, MOST_BUFFER - 1, 1, &refused(SHORT_BUFFER, MOST_BUFFER - 1)));
    };
    for top in ["1 LF", "1 CR LF", "1", "0*65535 0 LF"] {
        put(top, &found(1, &[b'x'; MOST_BUFFER], MOST_BUFFER));
    }
    for top in ["1 0 LF", "1 CR", "1 CR CR LF"] {
        put(top, &refused(SHORT_BUFFER, MOST_BUFFER));
    }
    fixed
}

/// Two long lines, and a short one behind each.
fn long_lines() -> Vec<Fixed> {
    let mut fixed = Vec::new();
    for top in [TWO_FEWER, ONE_FEWER, ALL, "3*65535 3 0", "3*65535 3*65535"] {
        for end in ["LF", "CR LF", "CR CR LF"] {
            let text = format!("{top} {end} a b LF {top} {end} a b");
            for (k, buffer, stated) in [
                (1, MOST_BUFFER, refused(SHORT_BUFFER, MOST_BUFFER)),
                (2, MOST_BUFFER, found(2, b"ab", MOST_BUFFER)),
                (3, MOST_BUFFER, refused(SHORT_BUFFER, MOST_BUFFER)),
                (4, 2, found(4, b"ab", 2)),
                (4, 1, refused(SHORT_BUFFER, 1)),
                (5, 1, refused(NO_SUCH_LINE, 1)),
            ] {
                fixed.push(over_keys(&text, buffer, k, &stated));
            }
        }
    }
    fixed
}

/// Places of keys beyond 2^64, while the lines' numbers are lower: each macro has the one below 60 times, and two lines.
fn far_keys() -> Vec<Fixed> {
    let mut macros: Macros = vec![keys(b"xxxxxxxx")];
    for number in 0..14 {
        macros.push([vec![call(number); 60], keys(b"a\nb\n")].concat());
    }
    let ask = |pattern: &[u8], number: usize, k: u64, stated: &str| {
        asked(Question::new(Letters::Apart, pattern), write(&macros), number, ROOM, k, stated)
    };
    // Macro 1 has one line that ends in `a`, and one of `b`; macro i has 60 times those of the one below, and one more.
    let own = |levels: u32| (0..levels).map(|place| 60u64.pow(place)).sum::<u64>();
    vec![
        ask(b"^b$", 1, 1, &is(2, "b")),
        ask(b"^b$", 2, 61, &is(122, "b")),
        ask(b"^b$", 2, 62, &none()),
        ask(b"^b$", 10, own(10), &is(2 * own(10), "b")),
        ask(b"^b$", 10, own(10) + 1, &none()),
        ask(b"^b$", 11, own(11), &is(2 * own(11), "b")),
        ask(b"^b$", 14, u64::MAX, &too_far()),
        ask(b"^a$", 2, 1, &is(121, "a")),
        ask(b"^a$", 11, 1, &is(121, "a")),
        ask(b"^a$", 11, own(10), &is(2 * own(11) - 1, "a")),
        ask(b"^a$", 11, own(10) + 1, &none()),
        ask(b"x", 11, 1, &refused(SHORT_BUFFER, ROOM)),
    ]
}
