// @generated from crates/linkinfo_print/src/streams.rt by rust/translate/run.

//! One run of the program. It prints each line, message or packet once it has come.

use crate::compat::calls::*;
use crate::linkinfo_print::options::Options;
use crate::linkinfo_print::print::Printer;
use crate::linkinfo_print::report::Report;
use std::io::{Read, Write};
use thiserror::Error;

/// Why a run ended before its input.
#[derive(Clone, Copy, Debug, PartialEq, Eq, Error)]
pub enum RunError {
    /// A read failed, or the input did not end within the most reads that 64 bits count. The
    /// results for what was read are written.
    #[error("reading standard input failed")]
    Read,
    /// A write failed, or wrote no byte.
    #[error("writing failed")]
    Write,
    /// An allocation failed. The results for what was read are written, but for the last read.
    #[error("out of memory")]
    Memory,
}

/// The maximum number of bytes of one read.
const READ_LEN: usize = 65_536;

/// Reads an input to its end, and prints what it says: to `output` each line, message or packet, to
/// `errors` what is rejected. Both are written and flushed after each read. Returns whether all of
/// the input was accepted.
///
/// Memory is in proportion to the longest line, message or packet, which has at most `MOST_BYTES`,
/// and to what one read returns.
pub fn run<R: Read, W: Write, E: Write>(
    options: Options,
    input: &mut R,
    output: &mut W,
    errors: &mut E,
) -> Result<bool, RunError> {
    let mut printer = Printer::new(options);
    let mut pending = Vec::new();
    let mut buffer = [0u8; READ_LEN];
    for _ in 0..u64::MAX {
        let len = input.read(&mut buffer).map_err(|_| RunError::Read)?;
        let is_end = len == 0;
        take(&mut printer, &mut pending, &buffer[..len], is_end)?;
        write_report(printer.report(), output, errors)?;
        printer.clear();
        if is_end || printer.has_ended() {
            return Ok(printer.report().accepts_all());
        }
    }
    Err(RunError::Read)
}

/// Appends the bytes to those that are pending, prints what is whole of them, and removes it.
fn take(
    printer: &mut Printer,
    pending: &mut Vec<u8>,
    bytes: &[u8],
    is_end: bool,
) -> Result<(), RunError> {
    pending
        .try_extend_from_slice(bytes)
        .map_err(|_| RunError::Memory)?;
    let taken = printer
        .push(pending, is_end)
        .map_err(|_| RunError::Memory)?;
    pending.copy_within(taken.., 0);
    pending.truncate(pending.len() - taken);
    Ok(())
}

/// Writes what has been printed.
fn write_report<W: Write, E: Write>(
    report: &Report,
    output: &mut W,
    errors: &mut E,
) -> Result<(), RunError> {
    write_now(output, report.output())?;
    write_now(errors, report.errors())
}

/// Writes all of the bytes, and flushes them.
fn write_now<W: Write>(writer: &mut W, bytes: &[u8]) -> Result<(), RunError> {
    writer.write_all(bytes).map_err(|_| RunError::Write)?;
    writer.flush().map_err(|_| RunError::Write)
}
