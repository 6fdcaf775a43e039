// @generated from crates/linkinfo_c/src/difference.rt by rust/c/translate.

//! Where two lists differ.

use crate::calls::codes::family_code;
use crate::calls::error::{LinkinfoError, NO_ERROR, error_record};
use linkinfo::layers::link::{DecodeError, Difference, ErrorIn, first_difference, typed};

/// `struct linkinfo_difference`: whether two lists are equivalent, and the first pair of attributes
/// in which they differ.
#[repr(C)]
#[derive(Clone, Copy, Debug, PartialEq, Eq, Hash, PartialOrd, Ord)]
pub struct LinkinfoDifference {
    /// The error of the first list, otherwise that of the second.
    pub error: LinkinfoError,
    /// Which list has the error: 1 the first, 2 the second, and 0 if neither has one.
    pub rejected: u32,
    /// The family of the attributes that differ, `enum linkinfo_family`; 0 if there are none.
    pub family: u16,
    /// The type, without flag bits, of the first list's attribute, or of the second's if the first
    /// list has ended; 0 if none differ.
    pub kind: u16,
    /// The offset of the first list's attribute, in bytes; 0 if that list has ended, and if none
    /// differ.
    pub first: usize,
    /// The offset of the second list's attribute, in bytes; 0 if that list has ended, and if none
    /// differ.
    pub second: usize,
    /// Whether the lists are equivalent; false with an error.
    pub same: bool,
    /// Whether the first list has such an attribute, at `first`.
    pub is_in_first: bool,
    /// Whether the second list has such an attribute, at `second`.
    pub is_in_second: bool,
}

/// The record without an error and without attributes.
const NO_DIFFERENCE: LinkinfoDifference = LinkinfoDifference {
    error: NO_ERROR,
    rejected: 0,
    family: 0,
    kind: 0,
    first: 0,
    second: 0,
    same: false,
    is_in_first: false,
    is_in_second: false,
};

/// The record of an error of one of the lists.
fn rejected(list: u32, error: DecodeError) -> LinkinfoDifference {
    LinkinfoDifference {
        error: error_record(error),
        rejected: list,
        ..NO_DIFFERENCE
    }
}

/// The record of a pair of attributes that differ.
fn differing(difference: Difference) -> LinkinfoDifference {
    LinkinfoDifference {
        family: family_code(difference.family),
        kind: difference.kind,
        first: difference.first.unwrap_or(0),
        second: difference.second.unwrap_or(0),
        is_in_first: difference.first.is_some(),
        is_in_second: difference.second.is_some(),
        ..NO_DIFFERENCE
    }
}

/// The record of a result of `first_difference`.
fn difference_record(answer: Result<Option<Difference>, ErrorIn>) -> LinkinfoDifference {
    match answer {
        Ok(None) => LinkinfoDifference {
            same: true,
            ..NO_DIFFERENCE
        },
        Ok(Some(difference)) => differing(difference),
        Err(ErrorIn::First(error)) => rejected(1, error),
        Err(ErrorIn::Second(error)) => rejected(2, error),
    }
}

/// Returns whether two lists are equivalent, or the first pair of attributes in which they differ.
#[must_use]
pub fn linkinfo_first_difference(a: &[u8], b: &[u8]) -> LinkinfoDifference {
    difference_record(typed::first_difference(a, b))
}

/// Returns what `linkinfo_first_difference` does, over the layer that keeps attributes of bonds,
/// bridges and their like verbatim.
#[must_use]
pub fn linkinfo_first_difference_opaque(a: &[u8], b: &[u8]) -> LinkinfoDifference {
    difference_record(first_difference(a, b))
}
