// @generated from crates/linkinfo_lines/src/answers.rt by rust/translate/run.

//! The result lines for the lines of an input.

use crate::linkinfo_lines::lines::{cut, first_line};
use linkinfo::compat::AllocError;
use linkinfo::compat::TryVec;
use linkinfo::layers::link::{CanonError, Cause, DecodeError};
use std::io::Write;

/// The result lines for an input that comes in chunks. A line is processed once it has ended. Of
/// the input only the last line is kept, while it has not ended.
pub struct InputAnswers {
    answers: Answers,
    /// The last line of the input, which has not ended yet.
    line: Vec<u8>,
}

impl InputAnswers {
    /// Starts an input, before its first chunk.
    pub fn new() -> InputAnswers {
        InputAnswers {
            answers: Answers::new(),
            line: Vec::new(),
        }
    }

    /// Takes the next chunk of the input. The only error is a failed allocation.
    pub fn push(&mut self, part: &[u8]) -> Result<(), AllocError> {
        let Some(end) = memchr::memrchr(b'\n', part) else {
            return self.line.try_extend_from_slice(part);
        };
        self.line.try_extend_from_slice(&part[..end + 1])?;
        self.answers.push_lines(&self.line)?;
        self.line.clear();
        self.line.try_extend_from_slice(&part[end + 1..])
    }

    /// Returns the result lines for the whole input. The only error is a failed allocation.
    pub fn finish(mut self) -> Result<Vec<u8>, AllocError> {
        self.answers.push_lines(&self.line)?;
        Ok(self.answers.text)
    }
}

/// The result lines so far, and buffers that are reused for each line.
struct Answers {
    /// The result lines.
    text: Vec<u8>,
    /// The bytes of the first operand.
    bytes: Vec<u8>,
    /// The bytes of the second operand of `same`.
    second: Vec<u8>,
}

impl Answers {
    fn new() -> Answers {
        Answers {
            text: Vec::new(),
            bytes: Vec::new(),
            second: Vec::new(),
        }
    }

    /// Appends the result lines for all lines of a text, each with its line feed.
    fn push_lines(&mut self, text: &[u8]) -> Result<(), AllocError> {
        let mut rest = text;
        while !rest.is_empty() {
            let (line, more) = first_line(rest);
            self.push_line(line)?;
            rest = more;
        }
        Ok(())
    }

    /// Appends the result line for a line, with its line feed.
    fn push_line(&mut self, line: &[u8]) -> Result<(), AllocError> {
        self.push_answer(line)?;
        self.text.try_extend_from_slice(b"\n")
    }

    fn push_answer(&mut self, line: &[u8]) -> Result<(), AllocError> {
        let (verb, operands) = cut(line, b' ');
        let Some(operands) = operands else {
            return self.push_bad_line();
        };
        self.push_command(verb, operands)
    }

    /// Appends the result of a command, given its verb and its operands. An operand with a space in
    /// it is invalid, so the last operand is not searched for more spaces.
    fn push_command(&mut self, verb: &[u8], operands: &[u8]) -> Result<(), AllocError> {
        if verb == b"check".as_slice() {
            self.push_check(operands)
        } else if verb == b"canon".as_slice() {
            self.push_canon(operands)
        } else if verb == b"same".as_slice() {
            self.push_same(operands)
        } else {
            self.push_bad_line()
        }
    }

    /// Appends the result of `check HEX`: whether the list is accepted.
    fn push_check(&mut self, word: &[u8]) -> Result<(), AllocError> {
        if !read_hex(word, &mut self.bytes)? {
            return self.push_bad_line();
        }
        match linkinfo::layers::link::check(&self.bytes) {
            Ok(()) => self.text.try_extend_from_slice(b"ok"),
            Err(error) => self.push_error(error),
        }
    }

    /// Appends the result of `canon HEX`: the canonical encoding of the list, if it fits.
    fn push_canon(&mut self, word: &[u8]) -> Result<(), AllocError> {
        if !read_hex(word, &mut self.bytes)? {
            return self.push_bad_line();
        }
        match linkinfo::layers::link::canon(&self.bytes) {
            Ok(bytes) if bytes.is_empty() => self.text.try_extend_from_slice(b"-"),
            Ok(bytes) => push_hex(&bytes, &mut self.text),
            Err(CanonError::Unfit) => self.text.try_extend_from_slice(b"unfit"),
            Err(CanonError::Refused(error)) if error.cause == Cause::Memory => Err(AllocError),
            Err(CanonError::Refused(error)) => self.push_error(error),
        }
    }

    /// Appends the result of `same HEX HEX`: whether the two lists are equivalent.
    fn push_same(&mut self, operands: &[u8]) -> Result<(), AllocError> {
        let (first, second) = cut(operands, b' ');
        let Some(second) = second else {
            return self.push_bad_line();
        };
        self.push_comparison(first, second)
    }

    /// Appends the result of comparing the lists of two operands.
    fn push_comparison(&mut self, first: &[u8], second: &[u8]) -> Result<(), AllocError> {
        if !read_hex(first, &mut self.bytes)? || !read_hex(second, &mut self.second)? {
            return self.push_bad_line();
        }
        match linkinfo::layers::link::same(&self.bytes, &self.second) {
            Ok(true) => self.text.try_extend_from_slice(b"true"),
            Ok(false) => self.text.try_extend_from_slice(b"false"),
            Err(error) => self.push_error(error),
        }
    }

    /// Appends an error of the input. A failed allocation is not an error of the input, and is
    /// never written.
    fn push_error(&mut self, error: DecodeError) -> Result<(), AllocError> {
        write!(self.text, "err {error}").map_err(|_| AllocError)
    }

    fn push_bad_line(&mut self) -> Result<(), AllocError> {
        self.text.try_extend_from_slice(b"bad line")
    }
}

/// Decodes an operand into the buffer, and returns whether it is valid: `-` or hex digits. The only
/// error is a failed allocation.
fn read_hex(word: &[u8], bytes: &mut Vec<u8>) -> Result<bool, AllocError> {
    if word == b"-".as_slice() {
        bytes.clear();
        return Ok(true);
    }
    if word.is_empty() {
        return Ok(false);
    }
    bytes.try_resize(word.len() / 2, 0)?;
    Ok(hex::decode_to_slice(word, bytes.as_mut_slice()).is_ok())
}

/// Appends bytes in lower case hex.
fn push_hex(bytes: &[u8], text: &mut Vec<u8>) -> Result<(), AllocError> {
    let start = text.len();
    let digits = bytes.len().checked_mul(2).ok_or(AllocError)?;
    text.try_resize(start.checked_add(digits).ok_or(AllocError)?, 0)?;
    hex::encode_to_slice(bytes, &mut text[start..]).map_err(|_| AllocError)
}
