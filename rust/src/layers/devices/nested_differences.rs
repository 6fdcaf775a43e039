// @generated from crates/linkinfo_devices/src/nested_differences.rt by rust/translate/run.

//! Offsets of errors, differences and unmet attributes in a family with nested lists, by mutually
//! recursive calls.

use crate::layers::devices::nested_calls::nested_same;
use crate::layers::devices::nested_family::{LIST_TYPE, MOST_LISTS, NestedFamily};
use crate::layers::nla_frame::{HeaderCount, NlaBuffer, next_attribute};
use crate::layers::table::{
    Difference, PlacedNla, Unmet, row_check, row_same, unmet_as_whole, whole_difference,
    whole_error,
};

/// The offset of the error of an attribute inside `lists` lists, in bytes from its header, or
/// `None` if the attribute is accepted. Does not allocate.
#[must_use]
pub fn nested_error<F: NestedFamily>(nla: &NlaBuffer<'_>, lists: u8) -> Option<usize> {
    if nla.kind() == LIST_TYPE && lists < MOST_LISTS {
        let inside = nested_list_error::<F>(nla.value(), lists + 1)?;
        Some(4 + inside)
    } else {
        whole_error(row_check::<F>(nla, lists))
    }
}

/// The offset of the error of a list whose attributes are inside `lists` lists, or `None` if the
/// list is accepted.
fn nested_list_error<F: NestedFamily>(bytes: &[u8], lists: u8) -> Option<usize> {
    let mut count = HeaderCount::new();
    let mut rest = bytes;
    while let Some(next) = next_attribute(rest, &mut count) {
        let offset = bytes.len() - rest.len();
        let Ok((nla, after)) = next else {
            return Some(offset);
        };
        if let Some(inside) = nested_error::<F>(&nla, lists) {
            return Some(offset + inside);
        }
        rest = after;
    }
    None
}

/// The first difference of two attributes of one type inside `lists` lists, or `None` if they are
/// equivalent. Requires that each is accepted. Does not allocate.
///
/// # Panics
///
/// May panic where a condition of the caller that is named here does not hold. Where it does
/// not panic then, the result has no meaning.
#[must_use]
pub fn nested_difference<F: NestedFamily>(
    a: &PlacedNla<'_>,
    b: &PlacedNla<'_>,
    lists: u8,
) -> Option<Difference> {
    if a.nla.kind() == LIST_TYPE && lists < MOST_LISTS {
        let inside = nested_list_difference::<F>(a.nla.value(), b.nla.value(), lists + 1)?;
        Some(inside.inside(a, b))
    } else {
        let is_same = row_same::<F>(&a.nla, &b.nla, lists);
        whole_difference(F::FAMILY, is_same, a, b)
    }
}

/// The first difference of two lists whose attributes are inside `lists` lists, or `None` if the
/// lists are equivalent. Requires that each is accepted.
fn nested_list_difference<F: NestedFamily>(a: &[u8], b: &[u8], lists: u8) -> Option<Difference> {
    let mut count = HeaderCount::new();
    let mut x = a;
    let mut y = b;
    while let Some(Ok((p, after_p))) = next_attribute(x, &mut count) {
        let first = PlacedNla {
            offset: a.len() - x.len(),
            nla: p,
        };
        let Some(Ok((q, after_q))) = next_attribute(y, &mut count) else {
            return Some(Difference::of_first(F::FAMILY, &first));
        };
        let second = PlacedNla {
            offset: b.len() - y.len(),
            nla: q,
        };
        let difference = pair_difference::<F>(&first, &second, lists);
        if difference.is_some() {
            return difference;
        }
        x = after_p;
        y = after_q;
    }
    let Some(Ok((q, _))) = next_attribute(y, &mut count) else {
        return None;
    };
    let second = PlacedNla {
        offset: b.len() - y.len(),
        nla: q,
    };
    Some(Difference::of_second(F::FAMILY, &second))
}

/// The first difference of two attributes of any types inside `lists` lists.
fn pair_difference<F: NestedFamily>(
    first: &PlacedNla<'_>,
    second: &PlacedNla<'_>,
    lists: u8,
) -> Option<Difference> {
    if second.nla.kind() == first.nla.kind() {
        nested_difference::<F>(first, second, lists)
    } else {
        Some(Difference::of_pair(F::FAMILY, first, second))
    }
}

/// What of the attribute `want` the attribute `have` of its type, both inside `lists` lists, does
/// not meet: all of it, if the payloads are neither equal nor equivalent, and it is at the offset
/// `from` or after it. Requires that each is accepted. Does not allocate.
///
/// # Panics
///
/// May panic where a condition of the caller that is named here does not hold. Where it does
/// not panic then, the result has no meaning.
#[must_use]
pub fn nested_unmet<F: NestedFamily>(
    have: &PlacedNla<'_>,
    want: &PlacedNla<'_>,
    lists: u8,
    from: usize,
) -> Option<Unmet> {
    let is_met = have.nla.value() == want.nla.value()
        || nested_same::<F>(&have.nla, &want.nla, lists, &mut HeaderCount::new());
    unmet_as_whole(F::FAMILY, is_met, have, want, from)
}
