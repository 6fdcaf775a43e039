// @generated from crates/linkinfo_c/src/check.rt by rust/c/translate.

//! Lists validated, compared, and their headers counted.

use crate::calls::error::{LinkinfoError, NO_ERROR, error_or_none, error_record};
use linkinfo::layers::link::families::DataLayer;
use linkinfo::layers::link::typed::{self, Typed};
use linkinfo::layers::link::{
    Bytes, DecodeError, ErrorIn, HeaderCount, check_at_of, check_counted_of, same_at_of,
};

/// `struct linkinfo_same_result`: whether two lists are equivalent.
#[repr(C)]
#[derive(Clone, Copy, Debug, PartialEq, Eq, Hash, PartialOrd, Ord)]
pub struct LinkinfoSame {
    /// The error of the first list, otherwise that of the second.
    pub error: LinkinfoError,
    /// Which list has the error: 1 the first, 2 the second, and 0 if neither has one.
    pub rejected: u32,
    /// Whether the lists are equivalent; false with an error.
    pub same: bool,
}

/// `struct linkinfo_count_result`: the number of headers examined.
#[repr(C)]
#[derive(Clone, Copy, Debug, PartialEq, Eq, Hash, PartialOrd, Ord)]
pub struct LinkinfoCount {
    /// The error of the list.
    pub error: LinkinfoError,
    /// The number of headers examined, at all levels, up to the error.
    pub count: usize,
}

/// `struct linkinfo_error_at`: an error and its offset.
#[repr(C)]
#[derive(Clone, Copy, Debug, PartialEq, Eq, Hash, PartialOrd, Ord)]
pub struct LinkinfoErrorAt {
    /// The error of the list.
    pub error: LinkinfoError,
    /// The offset, in bytes, of the attribute of the list that has the error, itself or in its
    /// contents, or the offset at which no header is accepted; 0 without an error.
    pub place: usize,
}

/// `struct linkinfo_inner_error`: an error, its offset, and that of the innermost attribute that
/// has it.
#[repr(C)]
#[derive(Clone, Copy, Debug, PartialEq, Eq, Hash, PartialOrd, Ord)]
pub struct LinkinfoInnerError {
    /// The error of the list.
    pub error: LinkinfoError,
    /// The offset, in bytes, of the attribute of the list that has the error, itself or in its
    /// contents, or the offset at which no header is accepted; 0 without an error.
    pub place: usize,
    /// The offset in the list, in bytes, of the innermost attribute that has the error, in data or
    /// in a list in data. It is `place` if the attribute of the list has the error itself, and 0
    /// without an error.
    pub inner: usize,
}

/// Validates a list: returns its first error in byte order, or none.
#[must_use]
pub fn linkinfo_check(bytes: &[u8]) -> LinkinfoError {
    error_or_none(typed::check(bytes))
}

/// Validates a list, and returns the offset of its error too.
#[must_use]
pub fn linkinfo_check_at(bytes: &[u8]) -> LinkinfoErrorAt {
    match typed::check_at(bytes) {
        Ok(()) => LinkinfoErrorAt {
            error: NO_ERROR,
            place: 0,
        },
        Err(at) => LinkinfoErrorAt {
            error: error_record(at.error),
            place: at.place,
        },
    }
}

/// Validates a list over a layer, and returns the offsets of its error too.
fn inner_error<P: DataLayer>(bytes: &[u8]) -> LinkinfoInnerError {
    match check_at_of::<P>(bytes) {
        Ok(()) => LinkinfoInnerError {
            error: NO_ERROR,
            place: 0,
            inner: 0,
        },
        Err(at) => LinkinfoInnerError {
            error: error_record(at.error),
            place: at.place,
            inner: at.inner,
        },
    }
}

/// Validates a list, and returns the offset of the innermost attribute with the error too.
#[must_use]
pub fn linkinfo_check_inner(bytes: &[u8]) -> LinkinfoInnerError {
    inner_error::<Typed<Bytes>>(bytes)
}

/// Validates a list as `linkinfo_check_inner` does, over the layer that keeps attributes of bonds,
/// bridges and their like verbatim.
#[must_use]
pub fn linkinfo_check_inner_opaque(bytes: &[u8]) -> LinkinfoInnerError {
    inner_error::<Bytes>(bytes)
}

/// The record of an error of one of two lists.
fn rejected(list: u32, error: DecodeError) -> LinkinfoSame {
    LinkinfoSame {
        error: error_record(error),
        rejected: list,
        same: false,
    }
}

/// The record of a result of `same_at`.
fn same_record(answer: Result<bool, ErrorIn>) -> LinkinfoSame {
    match answer {
        Ok(same) => LinkinfoSame {
            error: NO_ERROR,
            rejected: 0,
            same,
        },
        Err(ErrorIn::First(error)) => rejected(1, error),
        Err(ErrorIn::Second(error)) => rejected(2, error),
    }
}

/// Returns whether two lists are equivalent. The error is that of the first list, otherwise that of
/// the second.
#[must_use]
pub fn linkinfo_same(a: &[u8], b: &[u8]) -> LinkinfoSame {
    same_record(same_at_of::<Typed<Bytes>>(a, b))
}

/// Returns what `linkinfo_same` does, over the layer that keeps attributes of bonds, bridges and
/// their like verbatim.
#[must_use]
pub fn linkinfo_same_opaque(a: &[u8], b: &[u8]) -> LinkinfoSame {
    same_record(same_at_of::<Bytes>(a, b))
}

/// Validates a list over a layer, and counts the headers examined up to its error.
fn counted<P: DataLayer>(bytes: &[u8]) -> LinkinfoCount {
    let mut count = HeaderCount::new();
    let error = error_or_none(check_counted_of::<P>(bytes, &mut count));
    LinkinfoCount {
        error,
        count: count.get(),
    }
}

/// Validates a list, and counts the headers examined up to its error: at most a quarter of its
/// bytes.
#[must_use]
pub fn linkinfo_count(bytes: &[u8]) -> LinkinfoCount {
    counted::<Typed<Bytes>>(bytes)
}

/// Validates a list and counts headers as `linkinfo_count` does, over the layer that keeps
/// attributes of bonds, bridges and their like verbatim.
#[must_use]
pub fn linkinfo_count_opaque(bytes: &[u8]) -> LinkinfoCount {
    counted::<Bytes>(bytes)
}
