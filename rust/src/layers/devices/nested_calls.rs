// @generated from crates/linkinfo_devices/src/nested_calls.rt by rust/translate/run.

//! Reads, checks and compares attributes of a family with nested lists, and such lists, by mutually
//! recursive calls.

use crate::compat::TryVec;
use crate::layers::devices::nested_family::{LIST_TYPE, MOST_LISTS, NestedFamily};
use crate::layers::nla_frame::{DecodeError, HeaderCount, NlaBuffer, Nlas, next_attribute};
use crate::layers::table::{row_check, row_read, row_same, row_store};
use alloc::vec::Vec;

/// Reads an attribute inside `lists` lists.
///
/// # Panics
///
/// May panic where a condition of the caller that is named here does not hold. Where it does
/// not panic then, the result has no meaning.
pub fn nested_read<F: NestedFamily>(
    nla: &NlaBuffer<'_>,
    lists: u8,
    count: &mut HeaderCount,
) -> Result<F, DecodeError> {
    if nla.kind() == LIST_TYPE && lists < MOST_LISTS {
        value_of_list(nested_list_read(nla.value(), lists + 1, count))
    } else {
        row_read(nla, lists)
    }
}

/// Reads an attribute inside `lists` lists, and pushes its value to the end of a list, which an
/// error leaves unchanged.
///
/// # Panics
///
/// May panic where a condition of the caller that is named here does not hold. Where it does
/// not panic then, the result has no meaning.
pub fn nested_push<F: NestedFamily>(
    items: &mut Vec<F>,
    nla: &NlaBuffer<'_>,
    lists: u8,
    count: &mut HeaderCount,
) -> Result<(), DecodeError> {
    if nla.kind() == LIST_TYPE && lists < MOST_LISTS {
        items.try_push(nested_read(nla, lists, count)?)?;
        Ok(())
    } else {
        row_store::<F, Vec<F>>(items, nla, lists)
    }
}

/// Reads a list whose attributes are inside `lists` lists.
fn nested_list_read<F: NestedFamily>(
    bytes: &[u8],
    lists: u8,
    count: &mut HeaderCount,
) -> Result<Vec<F>, DecodeError> {
    let mut items = Vec::new();
    let mut rest = bytes;
    while let Some(next) = next_attribute(rest, count) {
        let (nla, after) = next?;
        nested_push(&mut items, &nla, lists, count)?;
        rest = after;
    }
    Ok(items)
}

/// The value that contains a decoded list.
fn value_of_list<F: NestedFamily>(items: Result<Vec<F>, DecodeError>) -> Result<F, DecodeError> {
    Ok(F::from_list(Nlas::new(items?)))
}

/// Reads an attribute that is in no list.
pub fn nested_parse<F: NestedFamily>(nla: &NlaBuffer<'_>) -> Result<F, DecodeError> {
    nested_read(nla, 0, &mut HeaderCount::new())
}

/// Checks whether `nested_read` would succeed, and returns the error if not. Does not allocate.
///
/// # Panics
///
/// May panic where a condition of the caller that is named here does not hold. Where it does
/// not panic then, the result has no meaning.
#[inline(always)]
pub fn nested_check<F: NestedFamily>(
    nla: &NlaBuffer<'_>,
    lists: u8,
    count: &mut HeaderCount,
) -> Result<(), DecodeError> {
    if nla.kind() == LIST_TYPE && lists < MOST_LISTS {
        nested_list_check::<F>(nla.value(), lists + 1, count)
    } else {
        row_check::<F>(nla, lists)
    }
}

/// Checks whether `nested_list_read` would succeed, and returns the error if not.
fn nested_list_check<F: NestedFamily>(
    bytes: &[u8],
    lists: u8,
    count: &mut HeaderCount,
) -> Result<(), DecodeError> {
    let mut rest = bytes;
    while let Some(next) = next_attribute(rest, count) {
        let (nla, after) = next?;
        nested_check::<F>(&nla, lists, count)?;
        rest = after;
    }
    Ok(())
}

/// Whether two attributes are equivalent: they mean equal values. Requires that both are accepted.
/// Does not allocate.
///
/// # Panics
///
/// May panic where a condition of the caller that is named here does not hold. Where it does
/// not panic then, the result has no meaning.
#[inline(always)]
pub fn nested_same<F: NestedFamily>(
    a: &NlaBuffer<'_>,
    b: &NlaBuffer<'_>,
    lists: u8,
    count: &mut HeaderCount,
) -> bool {
    if a.kind() == LIST_TYPE && lists < MOST_LISTS {
        b.kind() == LIST_TYPE && nested_list_same::<F>(a.value(), b.value(), lists + 1, count)
    } else {
        row_same::<F>(a, b, lists)
    }
}

/// Whether two lists are equivalent: they mean equal values.
fn nested_list_same<F: NestedFamily>(
    a: &[u8],
    b: &[u8],
    lists: u8,
    count: &mut HeaderCount,
) -> bool {
    let mut x = a;
    let mut y = b;
    while let Some(next) = next_attribute(x, count) {
        let Some(other) = next_attribute(y, count) else {
            return false;
        };
        let (p, after_p) = next.unwrap();
        let (q, after_q) = other.unwrap();
        if !nested_same::<F>(&p, &q, lists, count) {
            return false;
        }
        x = after_p;
        y = after_q;
    }
    next_attribute(y, count).is_none()
}
