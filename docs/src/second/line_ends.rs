//! The two keys of line ends (document 01, "Lines"; document 02, S-4).

pub const LF: u8 = 10;
pub const CR: u8 = 13;

/// Some keys less a final CR; of several only the last is taken away.
pub fn less_final_cr(keys: &[u8]) -> &[u8] {
    keys.strip_suffix(&[CR]).unwrap_or(keys)
}

/// The lines of a run: every LF closes one, empty or not, and a CR directly before it belongs to the line
/// end; keys after the last LF form one more if there is at least one, and there a CR is a key.
pub fn lines(run: &[u8]) -> Vec<&[u8]> {
    let mut parts: Vec<&[u8]> = run.split(|&key| key == LF).collect();
    let last = parts.pop().unwrap_or(run);
    let mut lines: Vec<&[u8]> = parts.into_iter().map(less_final_cr).collect();
    if !last.is_empty() {
        lines.push(last);
    }
    lines
}

/// A line and an end that takes no key from it: behind a final CR the LF needs a CR of its own.
pub fn closed(line: &[u8]) -> Vec<u8> {
    let end: &[u8] = if line.ends_with(&[CR]) { &[CR, LF] } else { &[LF] };
    [line, end].concat()
}
