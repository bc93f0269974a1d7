// Writes the example books: `examples FOLDER` makes document01.mbk, the book of document 01, laptop.mbk, whose lines end with CR LF,
// blocks.mbk, where ( and ) open and close cue blocks, chase.mbk, a book of version 2 with a macro that is called 400 times, and arena.mbk,
// a made-up show of 300 macros whose run no disk could hold. Standard library only; the same bytes each time.
use std::{env, fs, path::Path};

type Macro = Vec<u16>;

const LINE_END: u16 = 10;

fn keys(text: &str) -> Macro {
    text.bytes().map(u16::from).collect()
}

fn call(macro_number: usize) -> u16 {
    256 + macro_number as u16
}

// Numbers that look random and are the same each time.
struct Dice(u64);

impl Dice {
    fn below(&mut self, n: usize) -> usize {
        self.0 = self.0.wrapping_mul(6364136223846793005).wrapping_add(1442695040888963407);
        ((self.0 >> 33) % n as u64) as usize
    }
}

// Document 01, "The book": mark, version, macro count, then each macro's item count and items, two bytes each, low byte first.
fn encode(book: &[Macro]) -> Vec<u8> {
    let mut bytes = b"MBK".to_vec();
    let mut put = |n: u16| bytes.extend(n.to_le_bytes());
    put(1);
    put(book.len() as u16);
    for items in book {
        assert!((1..=64).contains(&items.len()), "a macro has 1 to 64 items");
        put(items.len() as u16);
        items.iter().for_each(|&item| put(item));
    }
    bytes
}

// Document 02, S-8: in version 2 an item's repeat count stands behind it, two bytes more.
fn encode_repeated(book: &[Vec<(u16, u16)>]) -> Vec<u8> {
    let mut bytes = b"MBK".to_vec();
    let mut put = |n: u16| bytes.extend(n.to_le_bytes());
    put(2);
    put(book.len() as u16);
    for items in book {
        put(items.len() as u16);
        items.iter().for_each(|&(item, times)| {
            put(item);
            put(times);
        });
    }
    bytes
}

// Macro 0 is one step of a chase, macro 1 plays it 400 times between two blackouts, and macro 2 plays macro 1 on thirty nights.
fn chase() -> Vec<Vec<(u16, u16)>> {
    let once = |text: &str| keys(text).into_iter().map(|key| (key, 1)).collect::<Vec<_>>();
    let night = [once("BLACKOUT\n"), vec![(call(0), 400)], once("BLACKOUT\n")].concat();
    vec![once("GO\n"), night, vec![(call(1), 30)]]
}

fn document01() -> Vec<Macro> {
    vec![keys("B\n"), vec![call(0), keys("C")[0], call(0)]]
}

// Lines that end with CR LF, one of them parted between two macros; the run's last CR has no LF behind it.
fn laptop() -> Vec<Macro> {
    vec![keys("GO\r"), keys("\n"), keys("HAZE GO\r\n"), vec![call(0), call(1), call(2), call(0)]]
}

// Macro 2 closes what it opens, macro 3 leaves a block open, and macro 4 closes one that was not opened and leaves one open.
fn blocks() -> Vec<Macro> {
    vec![keys("BLOCK(\n"), keys("END)\n"), vec![call(0), call(0), call(1), call(1)], vec![call(2), call(0)], vec![call(1), call(2), call(0)]]
}

// Macros 0 to 59: words, without line ends, so that lines are put together out of several macros.
fn words(book: &mut Vec<Macro>) {
    let effects = ["HOIST ", "HAZE ", "BLACKOUT", "FADE ", "STROBE ", "CHASE ", "SNAP ", "PAN ", "TILT ", "IRIS "];
    let targets = ["TRUSS ", "FLOOR ", "WING ", "PIT ", "FRONT ", "BACK ", "RISER ", "TOWER ", "BRIDGE ", "HOUSE "];
    let rest = ["CUE ", "GO", "AT ", "FULL", "UP ", "DOWN ", "TIME ", "HOLD", "LINK ", "OFF"];
    for text in effects.iter().chain(&targets).chain(&rest) {
        book.push(keys(text));
    }
    for n in 0..30 {
        book.push(keys(&format!("{} ", 7 * n + 3)));
    }
}

// Macros 60 to 149: one to three lines; every third one leaves its last line open, for the macro that is called next.
fn lines(book: &mut Vec<Macro>, dice: &mut Dice) {
    for i in 60..150 {
        let mut items = Macro::new();
        for _ in 0..=dice.below(3) {
            items.push(call(20));
            items.push(call(30 + dice.below(30)));
            items.push(call(dice.below(10)));
            items.push(call(10 + dice.below(10)));
            items.push(call(20 + dice.below(10)));
            items.push(LINE_END);
        }
        if i % 3 == 0 {
            items.pop();
        }
        book.push(items);
    }
}

// Macros 150 to 239: scenes of many lines, with keys between the calls here and there.
fn scenes(book: &mut Vec<Macro>, dice: &mut Dice) {
    for _ in 150..240 {
        let mut items = Macro::new();
        for _ in 0..20 + dice.below(20) {
            items.push(call(60 + dice.below(90)));
            if dice.below(4) == 0 {
                items.extend(keys("/ "));
            }
        }
        items.truncate(64);
        book.push(items);
    }
}

// Macros 240 to 299: each calls the one before it, most of them twice, and a scene: sixty calls, one inside the other.
fn loops(book: &mut Vec<Macro>, dice: &mut Dice) {
    for i in 240..300 {
        let scene = call(150 + dice.below(90));
        let before = call(i - 1);
        let items = if i % 7 == 0 { vec![scene, before] } else { vec![before, scene, before] };
        book.push(items);
    }
}

fn arena() -> Vec<Macro> {
    let mut book = Vec::new();
    let mut dice = Dice(300);
    words(&mut book);
    lines(&mut book, &mut dice);
    scenes(&mut book, &mut dice);
    loops(&mut book, &mut dice);
    book
}

// How many keys a macro's run has, written out.
fn run_length(book: &[Macro]) -> Vec<u128> {
    let mut lengths: Vec<u128> = Vec::new();
    for items in book {
        let n = items.iter().map(|&item| if item < 256 { 1 } else { lengths[item as usize - 256] }).sum();
        lengths.push(n);
    }
    lengths
}

fn main() {
    let folder = env::args().nth(1).expect("usage: examples FOLDER");
    for (name, book) in [("document01.mbk", document01()), ("laptop.mbk", laptop()), ("blocks.mbk", blocks()), ("arena.mbk", arena())] {
        fs::write(Path::new(&folder).join(name), encode(&book)).expect("the book cannot be written");
        println!("{name}: {} macros, the last one's run has {} keys", book.len(), run_length(&book).last().unwrap());
    }
    fs::write(Path::new(&folder).join("chase.mbk"), encode_repeated(&chase())).expect("the book cannot be written");
}
