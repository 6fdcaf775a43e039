// @generated from crates/linkinfo_print/src/plain.rt by rust/translate/run.

//! Text that a terminal shows as it is.

use crate::compat::AllocError;
use crate::compat::calls::*;

/// Text of printable ASCII and line feeds alone: no byte of it controls a terminal.
pub struct PlainText {
    bytes: Vec<u8>,
}

impl PlainText {
    /// Returns a text without bytes.
    pub fn new() -> PlainText {
        PlainText { bytes: Vec::new() }
    }

    /// Appends bytes, with a question mark in place of each that is not plain.
    pub fn push(&mut self, bytes: &[u8]) -> Result<(), AllocError> {
        push_plain(&mut self.bytes, bytes)
    }

    /// Removes all bytes.
    pub fn clear(&mut self) {
        self.bytes.clear();
    }

    /// Returns the bytes of the text.
    pub fn as_bytes(&self) -> &[u8] {
        &self.bytes
    }
}

/// Appends bytes, with a question mark in place of each that is not plain.
fn push_plain(text: &mut Vec<u8>, bytes: &[u8]) -> Result<(), AllocError> {
    text.try_reserve_room(bytes.len())?;
    for byte in bytes {
        text.try_push(plain_byte(*byte))?;
    }
    Ok(())
}

/// Whether a byte is printable ASCII, or a line feed.
fn is_plain(byte: u8) -> bool {
    (b' '..=b'~').contains(&byte) || byte == b'\n'
}

/// A byte, or a question mark in place of one that is not plain.
fn plain_byte(byte: u8) -> u8 {
    if is_plain(byte) { byte } else { b'?' }
}
