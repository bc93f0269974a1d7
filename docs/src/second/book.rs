//! The book reader and the body of a macro (document 01, "The book"; document 02, S-8).

use crate::refusal::*;

pub const MARK: &[u8; 3] = b"MBK";
pub const MOST_MACROS: usize = 1024;
pub const MOST_ITEMS: usize = 64;
pub const FIRST_CALL: u16 = 256;
/// Items stand once in version 1, and with a repeat count in version 2.
pub const PLAIN_VERSION: u16 = 1;
pub const REPEATING_VERSION: u16 = 2;

/// What an item of a sound book is.
#[derive(Clone, Copy)]
pub enum Item {
    Key(u8),
    Call(usize),
}

pub struct Macro {
    /// Where the first item stands in the book's bytes.
    pub from: usize,
    pub items: Vec<u16>,
    /// How often each item stands; 1 in version 1.
    pub repeats: Vec<u16>,
}

pub struct Book<'a> {
    pub bytes: &'a [u8],
    pub macros: Vec<Macro>,
}

pub fn item(number: u16) -> Item {
    if number < FIRST_CALL {
        Item::Key(number as u8)
    } else {
        Item::Call((number - FIRST_CALL) as usize)
    }
}

fn two_bytes(bytes: &[u8], at: usize) -> Option<u16> {
    let low = *bytes.get(at)?;
    let high = *bytes.get(at + 1)?;
    Some(u16::from(low) + 256 * u16::from(high))
}

/// Reads in the order in which the bytes stand, so that the first fault met is the one refused
/// ("1 to 6 come in reading order, item by item").
pub fn read(bytes: &[u8]) -> Result<Book<'_>, Refusal> {
    let (version, count) = read_head(bytes)?;
    let mut macros = Vec::new();
    let mut at = 7;
    for number in 0..count {
        let read = read_macro(bytes, at, number, version)?;
        at = read.from + item_bytes(version) * read.items.len();
        macros.push(read);
    }
    if at != bytes.len() {
        return Err(BROKEN_BODY);
    }
    Ok(Book { bytes, macros })
}

/// Version 2 has two bytes more an item, its repeat count.
pub fn item_bytes(version: u16) -> usize {
    match version {
        REPEATING_VERSION => 4,
        _ => 2,
    }
}

/// The version and the macro count.
fn read_head(bytes: &[u8]) -> Result<(u16, usize), Refusal> {
    if bytes.len() < 7 || &bytes[..3] != MARK {
        return Err(NO_BOOK);
    }
    let version = match two_bytes(bytes, 3) {
        Some(version @ (PLAIN_VERSION | REPEATING_VERSION)) => version,
        _ => return Err(STRANGE_VERSION),
    };
    match two_bytes(bytes, 5).map(usize::from) {
        Some(count) if (1..=MOST_MACROS).contains(&count) => Ok((version, count)),
        _ => Err(MACRO_COUNT),
    }
}

fn read_macro(bytes: &[u8], at: usize, number: usize, version: u16) -> Result<Macro, Refusal> {
    let count = usize::from(two_bytes(bytes, at).ok_or(BROKEN_BODY)?);
    if count == 0 || count > MOST_ITEMS {
        return Err(BROKEN_BODY);
    }
    let from = at + 2;
    let (mut items, mut repeats) = (Vec::new(), Vec::new());
    for place in 0..count {
        let (item, repeat) = read_item(bytes, from + item_bytes(version) * place, number, version)?;
        items.push(item);
        repeats.push(repeat);
    }
    Ok(Macro { from, items, repeats })
}

/// The item and its repeat count. All its bytes must be there before anything is said of them; then 5, 6 and 20.
fn read_item(bytes: &[u8], at: usize, number: usize, version: u16) -> Result<(u16, u16), Refusal> {
    let read = two_bytes(bytes, at).ok_or(BROKEN_BODY)?;
    let repeat = match version {
        REPEATING_VERSION => two_bytes(bytes, at + 2).ok_or(BROKEN_BODY)?,
        _ => 1,
    };
    if read == 0 {
        return Err(DEAD_KEY);
    }
    if matches!(item(read), Item::Call(called) if called >= number) {
        return Err(FORWARD_CALL);
    }
    if repeat == 0 {
        return Err(NO_REPEAT);
    }
    Ok((read, repeat))
}

impl Book<'_> {
    /// The two bytes behind the mark.
    pub fn version(&self) -> u16 {
        u16::from_le_bytes([self.bytes[3], self.bytes[4]])
    }

    /// The items of a macro as they stand, each once.
    pub fn items(&self, number: usize) -> &[u16] {
        &self.macros[number].items
    }

    /// Each item of a macro with its repeat count.
    pub fn repeated(&self, number: usize) -> impl Iterator<Item = (Item, u16)> + '_ {
        let own = &self.macros[number];
        own.items.iter().map(|&written| item(written)).zip(own.repeats.iter().copied())
    }

    /// The macro's items without the count, as the part of the book's bytes in which they stand.
    pub fn body(&self, number: usize) -> &[u8] {
        let from = self.macros[number].from;
        &self.bytes[from..from + item_bytes(self.version()) * self.items(number).len()]
    }
}
