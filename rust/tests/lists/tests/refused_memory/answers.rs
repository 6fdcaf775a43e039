// @generated from crates/linkinfo_tests/src/tests/refused_memory/answers.rt by rust/translate/run.

//! The results that a call may return if an allocation may fail.

use linkinfo::compat::AllocError;
use linkinfo::layers::link::{
    Bytes, Cause, DecodeError, Family, Nla, Text, VecLinkInfo, emit_nlas, nlas_fit_len,
};

/// The error of a failed allocation.
pub const MEMORY: DecodeError = DecodeError {
    family: Family::Frame,
    kind: 0,
    cause: Cause::Memory,
};

/// The length of the buffer that a list is written into.
const ROOM: usize = 1024;

/// The first of two results of the same call, or the second one if the first is this error, that of
/// a failed allocation.
pub fn at_last<T, E: PartialEq>(
    memory: &E,
    first: Result<T, E>,
    second: Result<T, E>,
) -> Result<T, E> {
    if first.as_ref().err() == Some(memory) {
        second
    } else {
        first
    }
}

/// A copy of the bytes, at the second try if an allocation failed.
pub fn copied_at_last(bytes: &[u8]) -> Bytes {
    let (first, second) = (Bytes::copy_of(bytes), Bytes::copy_of(bytes));
    at_last(&AllocError, first, second).expect("memory")
}

/// A copy of the text, at the second try if an allocation failed.
pub fn text_at_last(text: &str) -> Text {
    let (first, second) = (Text::copy_of(text), Text::copy_of(text));
    at_last(&AllocError, first, second).expect("memory")
}

/// Parses the bytes, at the second try if an allocation failed.
pub fn read_at_last(bytes: &[u8]) -> Result<VecLinkInfo, DecodeError> {
    let first = VecLinkInfo::parse(bytes);
    let second = VecLinkInfo::parse(bytes);
    at_last(&MEMORY, first, second)
}

/// Returns whether the list is written as the encoding, without allocating and without changing the
/// bytes after it. No other list that is parsed has this encoding.
pub fn is_emitted<T: Nla>(items: &[T], string: &[u8]) -> bool {
    let mut buffer = [255; ROOM];
    match nlas_fit_len(items) {
        Some(len) if len <= ROOM => {
            emit_nlas(items, &mut buffer);
            let (written, after) = buffer.split_at(len);
            written == string && after.iter().all(|byte| *byte == 255)
        }
        _ => false,
    }
}

/// Returns whether the bytes parse as the list of this canonical encoding, at the second try if an
/// allocation failed.
pub fn reads(bytes: &[u8], canonical: &[u8]) -> bool {
    read_at_last(bytes).is_ok_and(|list| is_emitted(list.as_slice(), canonical))
}

/// Returns whether the bytes are rejected with the error, at the second try if an allocation
/// failed.
pub fn is_refused_at_last(bytes: &[u8], error: DecodeError) -> bool {
    read_at_last(bytes).err() == Some(error)
}

/// Returns whether the bytes are rejected with the error, whichever allocation fails.
pub fn is_refused(bytes: &[u8], error: DecodeError) -> bool {
    VecLinkInfo::parse(bytes).err() == Some(error)
}
