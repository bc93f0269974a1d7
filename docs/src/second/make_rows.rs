//! Seeded brackets one behind another, with `]`, `^`, `-` and `[` in all places (document 02, S-2), and lines
//! that tell where each begins and ends.

use crate::make_line;
use crate::make_pattern::damage;
use crate::make_tree::mark;
use crate::question::Question;
use crate::rng::Rng;
use crate::tree::Mark;

/// What may stand behind `[` or `[^`; not all of it is sound there.
const FIRST: [&[u8]; 12] = [b"]", b"]", b"]", b"-", b"-", b"^", b"]-a", b"--/", b"[a", b".", b":", b"=a"];
const INNER: [&[u8]; 16] = [
    b"a",
    b"a",
    b"b",
    b"x",
    b"^",
    b"[",
    b"\\",
    b"$",
    b"a-c",
    b"Z-[",
    b"+--",
    b"[:alpha:]",
    b"[:upper:]",
    b"[:digit:]",
    b"[:xdigit:]",
    b"K",
];
const LAST: [&[u8]; 5] = [b"-", b"-", b"[", b"^", b"a-"];
/// Plain parts that could be taken for a bracket's.
const BETWEEN: [&[u8]; 8] = [b"]", b"]", b"\\[", b"\\[]", b"\\[a]", b"\\^", b"-", b"\\\\"];
pub const FAULTS: &[u8] = b"[]]^-a:.";
const KEYS: &[u8] = b"]]^-[[aAbx:\\";

/// A bracket in two parts, so that more elements can be put between them.
pub struct Bracket {
    pub opening: Vec<u8>,
    pub rest: Vec<u8>,
}

/// Most are sound.
pub fn bracket(rng: &mut Rng) -> Bracket {
    let mut opening = if rng.chance(35) { b"[^".to_vec() } else { b"[".to_vec() };
    let mut wanted = rng.below(3);
    if rng.chance(50) {
        opening.extend_from_slice(rng.pick(&FIRST));
    } else {
        wanted += 1;
    }
    let mut rest = Vec::new();
    for _ in 0..wanted {
        rest.extend_from_slice(rng.pick(&INNER));
    }
    if rng.chance(30) {
        rest.extend_from_slice(rng.pick(&LAST));
    }
    rest.push(b']');
    Bracket { opening, rest }
}

/// Two to six of them, mostly between anchors, since there every byte counts.
pub fn pattern(rng: &mut Rng) -> Vec<u8> {
    let mut text = Vec::new();
    for _ in 0..rng.between(2, 6) {
        text.extend(part(rng));
        if rng.chance(15) {
            text.extend_from_slice(rng.pick(&BETWEEN));
        }
    }
    if rng.chance(30) {
        damage(rng, &mut text, FAULTS);
    }
    if rng.chance(70) {
        text.insert(0, b'^');
    }
    if rng.chance(70) {
        text.push(b'$');
    }
    text
}

/// A bracket, in a group or with a mark now and then.
fn part(rng: &mut Rng) -> Vec<u8> {
    let Bracket { opening, rest } = bracket(rng);
    let mut text = [opening, rest].concat();
    if rng.chance(12) {
        text = [b"(", &text[..], b")"].concat();
    }
    if rng.chance(25) {
        match mark(rng) {
            Mark::Once => {}
            Mark::Star => text.push(b'*'),
            Mark::Plus => text.push(b'+'),
            Mark::Maybe => text.push(b'?'),
        }
    }
    text
}

/// A line for the pattern, with a bracket's own bytes put into some.
pub fn line(rng: &mut Rng, question: &Question) -> Vec<u8> {
    let mut line = make_line::line(rng, question);
    if rng.chance(20) {
        damage(rng, &mut line, KEYS);
    }
    line.retain(|&key| key != 0 && key != 10);
    line
}
