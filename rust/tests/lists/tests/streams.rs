// @generated from crates/linkinfo_tests/src/tests/streams.rt by rust/translate/run.

//! Runs with readers and writers that transfer few bytes at a time, and that fail.

use super::assertions::{assert_equal, assert_holds};
use super::lines::{ANSWER, INPUT};
use crate::linkinfo_lines::{MOST_READS, RunError, run};
use crate::support::*;
use linkinfo::compat::AllocError;
use std::io;
use std::io::{ErrorKind, Read, Write};

/// A reader that returns its bytes in chunks, and fails at one of its reads.
struct ChunkReader<'a> {
    left: &'a [u8],
    chunk: usize,
    reads: u32,
    fails_at: u32,
}

impl ChunkReader<'static> {
    fn new(chunk: usize, fails_at: u32) -> ChunkReader<'static> {
        ChunkReader {
            left: INPUT,
            chunk,
            reads: 0,
            fails_at,
        }
    }
}

impl Read for ChunkReader<'_> {
    fn read(&mut self, buf: &mut [u8]) -> io::Result<usize> {
        self.reads = self.reads.saturating_add(1);
        if self.reads == self.fails_at {
            return Err(io::Error::from(ErrorKind::Interrupted));
        }
        let n = self.left.len().min(self.chunk).min(buf.len());
        buf[..n].copy_from_slice(&self.left[..n]);
        self.left = &self.left[n..];
        Ok(n)
    }
}

/// A reader that returns one byte at each read, without end.
struct EndlessReader {
    reads: u32,
}

impl Read for EndlessReader {
    fn read(&mut self, buf: &mut [u8]) -> io::Result<usize> {
        self.reads = self.reads.saturating_add(1);
        if buf.is_empty() {
            return Ok(0);
        }
        buf[0] = b'-';
        Ok(1)
    }
}

/// A writer that keeps what it takes in an array, at most seven bytes a write and up to a limit;
/// from then on it fails or takes nothing.
pub struct ArrayWriter {
    held: [u8; 128],
    len: usize,
    limit: usize,
    fails: bool,
}

impl ArrayWriter {
    /// A writer that takes this many bytes, and then fails or takes none.
    pub fn new(limit: usize, fails: bool) -> ArrayWriter {
        ArrayWriter {
            held: [0; 128],
            len: 0,
            limit,
            fails,
        }
    }

    /// The bytes that the writer has taken.
    pub fn as_slice(&self) -> &[u8] {
        &self.held[..self.len]
    }
}

impl Write for ArrayWriter {
    fn write(&mut self, buf: &[u8]) -> io::Result<usize> {
        let room = self.limit.min(128).saturating_sub(self.len);
        let n = buf.len().min(room).min(7);
        if n == 0 && self.fails {
            return Err(io::Error::from(ErrorKind::Interrupted));
        }
        self.held[self.len..self.len + n].copy_from_slice(&buf[..n]);
        self.len += n;
        Ok(n)
    }

    fn flush(&mut self) -> io::Result<()> {
        Ok(())
    }
}

/// Asserts the result of a run with the reader, and the bytes that the writer has taken. If they
/// differ, prints the number of the case.
fn assert_ended<R: Read>(
    case: usize,
    (reader, mut writer): (&mut R, ArrayWriter),
    (ended, written): (Result<(), RunError>, &[u8]),
) {
    assert_equal(&case, &run(reader, &mut writer), &ended);
    assert_equal(&case, &writer.as_slice(), &written);
}

#[test]
fn ends_at_a_failed_read() {
    let reads = INPUT.len() as u32 + 1;
    for k in 1..reads + 2 {
        let mut reader = ChunkReader::new(1, k);
        let writer = ArrayWriter::new(128, true);
        let wanted = if k <= reads {
            (Err(RunError::Read), b"".as_slice())
        } else {
            (Ok(()), ANSWER)
        };
        assert_ended(k as usize, (&mut reader, writer), wanted);
    }
}

/// Asserts that a writer that fails after this many bytes, or takes no more, ends the run.
fn assert_cut(limit: usize, fails: bool) {
    let mut reader = ChunkReader::new(9, 0);
    let writer = ArrayWriter::new(limit, fails);
    let wanted = (Err(RunError::Write), ANSWER.get(..limit).unwrap_or(ANSWER));
    assert_ended(limit, (&mut reader, writer), wanted);
}

#[test]
fn ends_at_a_failed_write() {
    for limit in 0..ANSWER.len() {
        assert_cut(limit, true);
        assert_cut(limit, false);
    }
}

#[test]
fn ends_after_the_most_reads() {
    let mut reader = EndlessReader { reads: 0 };
    let writer = ArrayWriter::new(128, true);
    let wanted = (Err(RunError::Read), b"".as_slice());
    assert_ended(0, (&mut reader, writer), wanted);
    assert_equal(&"reads", &reader.reads, &16_777_216);
    assert_equal(&"the most", &MOST_READS, &16_777_216);
}

/// Allocates all address space that is left, in smaller and smaller blocks that are never touched.
fn take_all_memory() -> Result<Vec<Vec<u8>>, AllocError> {
    let mut held = Vec::try_with_room(200_000)?;
    let mut size = 1usize << 40;
    for _ in 0..200_000 {
        match Vec::<u8>::try_with_room(size) {
            Ok(block) => held.try_push(block)?,
            Err(_) => {
                if size == 1 {
                    break;
                }
                size /= 2;
            }
        }
    }
    Ok(held)
}

/// A reader that returns its bytes in chunks, and allocates all memory at one of its reads.
struct MemoryTaker<'a> {
    reader: ChunkReader<'a>,
    takes_at: u32,
    held: Vec<Vec<u8>>,
}

impl Read for MemoryTaker<'_> {
    fn read(&mut self, buf: &mut [u8]) -> io::Result<usize> {
        let n = self.reader.read(buf)?;
        if self.reader.reads == self.takes_at {
            self.held = take_all_memory()?;
        }
        Ok(n)
    }
}

/// Asserts that a run that needs memory after this read, when none is left, ends with `Memory` and
/// has written nothing.
fn assert_starved(takes_at: u32) {
    let mut reader = MemoryTaker {
        reader: ChunkReader::new(9, 0),
        takes_at,
        held: Vec::new(),
    };
    let writer = ArrayWriter::new(128, true);
    let wanted = (Err(RunError::Memory), b"".as_slice());
    assert_ended(takes_at as usize, (&mut reader, writer), wanted);
}

#[test]
fn ends_where_no_memory_is_left() {
    assert_starved(1);
    assert_starved(5);
    assert_starved(10);
    assert_starved(15);
}

/// The same output is written wherever reads split the input.
#[test]
fn input_in_chunks() {
    for chunk in 1..INPUT.len() + 2 {
        let mut reader = ChunkReader::new(chunk, 0);
        let writer = ArrayWriter::new(128, true);
        assert_ended(chunk, (&mut reader, writer), (Ok(()), ANSWER));
    }
}
