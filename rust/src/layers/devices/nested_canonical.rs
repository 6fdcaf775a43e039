// @generated from crates/linkinfo_devices/src/nested_canonical.rt by rust/translate/run.

//! Re-encodes accepted attributes of a family with nested lists canonically, without building a
//! value. The calls that measure and write are mutually recursive, and visit each attribute once,
//! at any depth.

use crate::compat::NextMultiple;
use crate::layers::devices::nested_family::{LIST_TYPE, MOST_LISTS, NestedFamily};
use crate::layers::nla_frame::{HeaderCount, NlaBuffer, fitting, next_attribute, write_frame};
use crate::layers::table::{row_canonical_len, row_write_canonical};

/// Returns the length of the canonical payload of the value that an attribute inside `lists` lists
/// means, or `None` if it does not fit. Requires that the attribute is accepted. Does not allocate.
///
/// # Panics
///
/// May panic where a condition of the caller that is named here does not hold. Where it does
/// not panic then, the result has no meaning.
#[must_use]
pub fn nested_canonical_len<F: NestedFamily>(nla: &NlaBuffer<'_>, lists: u8) -> Option<usize> {
    if nla.kind() == LIST_TYPE && lists < MOST_LISTS {
        nested_list_canonical_len::<F>(nla.value(), lists + 1)
    } else {
        row_canonical_len::<F>(nla, lists)
    }
}

/// Returns the length of the canonical byte string of the list that the bytes mean, or `None` above
/// 65531.
fn nested_list_canonical_len<F: NestedFamily>(bytes: &[u8], lists: u8) -> Option<usize> {
    let mut count = HeaderCount::new();
    let mut rest = bytes;
    let mut total: usize = 0;
    while let Some(next) = next_attribute(rest, &mut count) {
        let (nla, after) = next.unwrap();
        let len = nested_canonical_len::<F>(&nla, lists)?;
        total = fitting(total + 4 + len.next_multiple_of_four())?;
        rest = after;
    }
    Some(total)
}

/// Writes the canonical attribute of the value that an attribute inside `lists` lists means at the
/// front of the buffer, and returns its length.
///
/// The bytes after it stay unchanged. Requires that the attribute is accepted, that the value fits,
/// and that the buffer has at least that length. Does not allocate.
///
/// # Panics
///
/// May panic where a condition of the caller that is named here does not hold. Where it does
/// not panic then, the result has no meaning.
pub fn nested_write_canonical<F: NestedFamily>(
    nla: &NlaBuffer<'_>,
    lists: u8,
    buffer: &mut [u8],
) -> usize {
    if nla.kind() == LIST_TYPE && lists < MOST_LISTS {
        nested_write_list::<F>(nla.value(), lists + 1, buffer)
    } else {
        row_write_canonical::<F>(nla, lists, buffer)
    }
}

/// Writes the canonical attribute of the list that the bytes mean at the front of the buffer, and
/// returns its length: first the list at offset 4, then header and padding. Requires that the list
/// is accepted and fits, and that the buffer has at least that length.
fn nested_write_list<F: NestedFamily>(bytes: &[u8], lists: u8, buffer: &mut [u8]) -> usize {
    let len = nested_list_write_canonical::<F>(bytes, lists, &mut buffer[4..]);
    write_frame(buffer, LIST_TYPE, len);
    4 + len.next_multiple_of_four()
}

/// Writes the canonical byte string of the list that the bytes mean at the front of the buffer, and
/// returns its length. Requires that the list is accepted and fits, and that the buffer has at
/// least that length.
fn nested_list_write_canonical<F: NestedFamily>(
    bytes: &[u8],
    lists: u8,
    buffer: &mut [u8],
) -> usize {
    let mut count = HeaderCount::new();
    let mut rest = bytes;
    let mut place: usize = 0;
    while let Some(next) = next_attribute(rest, &mut count) {
        let (nla, after) = next.unwrap();
        place += nested_write_canonical::<F>(&nla, lists, &mut buffer[place..]);
        rest = after;
    }
    place
}
