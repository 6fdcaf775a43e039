// @generated from crates/linkinfo_lines/src/streams.rt by rust/translate/run.

//! One run of the program. It reads all input, processes each line once it has ended, and writes
//! the results at the end of the input.

use crate::linkinfo_lines::answers::InputAnswers;
use linkinfo::layers::nla_frame::ExactEq;
use std::io::{Read, Write};
use thiserror::Error;

/// Why a run ended without writing all of its output.
#[derive(Clone, Debug, PartialEq, Eq, Error)]
pub enum RunError {
    /// A read failed, or the input did not end within `MOST_READS` reads. Nothing was written.
    #[error("read")]
    Read,
    /// A write failed, or wrote no byte. What was written is a prefix of the output.
    #[error("write")]
    Write,
    /// An allocation failed. Nothing was written.
    #[error("memory")]
    Memory,
}

impl ExactEq for RunError {}

/// The maximum number of reads of one run.
pub const MOST_READS: u32 = 16_777_216;

/// The maximum number of bytes of one read.
const READ_LEN: usize = 65_536;

/// Reads the whole input, and then writes the output for it. Each error of the reader or the writer
/// ends the run.
pub fn run<R: Read, W: Write>(reader: &mut R, writer: &mut W) -> Result<(), RunError> {
    let text = answer_input(reader)?;
    write_output(writer, &text)
}

/// Returns the output for the whole input, which ends within `MOST_READS` reads.
fn answer_input<R: Read>(reader: &mut R) -> Result<Vec<u8>, RunError> {
    let mut answers = InputAnswers::new();
    let mut buffer = [0u8; READ_LEN];
    for _ in 0..MOST_READS {
        let n = reader.read(&mut buffer).map_err(|_| RunError::Read)?;
        if n == 0 {
            let text = answers.finish().map_err(|_| RunError::Memory)?;
            return Ok(text);
        }
        answers.push(&buffer[..n]).map_err(|_| RunError::Memory)?;
    }
    Err(RunError::Read)
}

/// Writes all of the bytes. Each error of the writer ends it, and so does a write that writes no
/// byte.
fn write_output<W: Write>(writer: &mut W, bytes: &[u8]) -> Result<(), RunError> {
    let mut rest = bytes;
    while !rest.is_empty() {
        match writer.write(rest) {
            Ok(0) | Err(_) => return Err(RunError::Write),
            Ok(n) => rest = &rest[n..],
        }
    }
    Ok(())
}
