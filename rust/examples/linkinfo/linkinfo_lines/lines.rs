// @generated from crates/linkinfo_lines/src/lines.rt by rust/translate/run.

//! Lines and words, split off a text one after another.

/// Returns the first line of a text, and what follows its line feed. Requires a text that is not
/// empty.
///
/// # Panics
///
/// May panic where a condition of the caller that is named here does not hold. Where it does
/// not panic then, the result has no meaning.
pub fn first_line(text: &[u8]) -> (&[u8], &[u8]) {
    let (line, more) = cut(text, b'\n');
    match more {
        Some(more) => (line, more),
        None => (line, &[]),
    }
}

/// Splits a text at the first separator: returns what precedes it and what follows it, or the whole
/// text and `None` if there is no separator.
pub fn cut(text: &[u8], separator: u8) -> (&[u8], Option<&[u8]>) {
    match place_of(text, separator) {
        Some(end) => (&text[..end], Some(&text[end + 1..])),
        None => (text, None),
    }
}

/// The index of the first byte with this value.
fn place_of(text: &[u8], byte: u8) -> Option<usize> {
    memchr::memchr(byte, text)
}
