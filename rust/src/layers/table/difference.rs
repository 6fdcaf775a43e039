// @generated from crates/linkinfo_table/src/difference.rt by rust/translate/run.

//! The first difference of two lists of attributes.

use crate::layers::nla_frame::{ExactEq, Family, HeaderCount, next_attribute};
use crate::layers::table::family::LinkFamily;
use crate::layers::table::last::PlacedNla;

/// The first pair of attributes in which two lists differ.
#[derive(Clone, Copy, Debug, PartialEq, Eq, Hash, PartialOrd, Ord)]
pub struct Difference {
    /// The family of the attributes; [`Family::LinkInfo`] for attributes of the list in
    /// `IFLA_LINKINFO`.
    ///
    /// [`Family::LinkInfo`]: crate::layers::nla_frame::Family::LinkInfo
    pub family: Family,
    /// The attribute's type without flag bits: of the attribute in the first list, or in the second
    /// one if the first list has ended.
    pub kind: u16,
    /// The offset, in bytes, of the attribute's header in the first list, or `None` if that list
    /// has ended.
    pub first: Option<usize>,
    /// The offset, in bytes, of the attribute's header in the second list, or `None` if that list
    /// has ended.
    pub second: Option<usize>,
}

impl Difference {
    /// The difference of two lists at this pair of attributes, each compared as a whole.
    #[must_use]
    pub fn of_pair(family: Family, first: &PlacedNla<'_>, second: &PlacedNla<'_>) -> Difference {
        Difference {
            family,
            kind: first.nla.kind(),
            first: Some(first.offset),
            second: Some(second.offset),
        }
    }

    /// The difference of two lists of which the second has ended before this attribute of the
    /// first.
    #[must_use]
    pub fn of_first(family: Family, first: &PlacedNla<'_>) -> Difference {
        Difference {
            family,
            kind: first.nla.kind(),
            first: Some(first.offset),
            second: None,
        }
    }

    /// The difference of two lists of which the first has ended before this attribute of the
    /// second.
    #[must_use]
    pub fn of_second(family: Family, second: &PlacedNla<'_>) -> Difference {
        Difference {
            family,
            kind: second.nla.kind(),
            first: None,
            second: Some(second.offset),
        }
    }

    /// A difference of the payloads of two attributes, as a difference of the lists that these are
    /// in: the offsets then count from the beginning of those lists. Requires that each sum is a
    /// `usize`.
    ///
    /// # Panics
    ///
    /// May panic where a condition of the caller that is named here does not hold. Where it does
    /// not panic then, the result has no meaning.
    #[must_use]
    pub fn inside(self, first: &PlacedNla<'_>, second: &PlacedNla<'_>) -> Difference {
        Difference {
            family: self.family,
            kind: self.kind,
            first: within(first.offset, self.first),
            second: within(second.offset, self.second),
        }
    }
}

/// An offset in an attribute's payload as an offset in the list that has the attribute.
fn within(attribute: usize, inside: Option<usize>) -> Option<usize> {
    match inside {
        Some(offset) => Some(attribute + 4 + offset),
        None => None,
    }
}

/// The difference of two attributes of one type as a whole, or `None` if they are equivalent.
#[must_use]
pub fn whole_difference(
    family: Family,
    is_same: bool,
    first: &PlacedNla<'_>,
    second: &PlacedNla<'_>,
) -> Option<Difference> {
    if is_same {
        None
    } else {
        Some(Difference::of_pair(family, first, second))
    }
}

/// Returns the first pair of attributes in which two lists of a family differ, or `None` if the
/// lists are equivalent. Two attributes that contain lists differ if these lists do.
///
/// Offsets are in bytes from the beginning of each list. Requires that each list is accepted. Each
/// header is examined at most twice. Does not allocate.
///
/// # Panics
///
/// May panic where a condition of the caller that is named here does not hold. Where it does
/// not panic then, the result has no meaning.
#[must_use]
pub fn list_difference<F: LinkFamily>(a: &[u8], b: &[u8], ctx: F::Context) -> Option<Difference> {
    let mut count = HeaderCount::new();
    let mut x = a;
    let mut y = b;
    while let Some(Ok((p, after_p))) = next_attribute(x, &mut count) {
        let first = PlacedNla {
            offset: a.len() - x.len(),
            nla: p,
        };
        let Some(Ok((q, after_q))) = next_attribute(y, &mut count) else {
            return Some(Difference::of_first(F::FAMILY, &first));
        };
        let second = PlacedNla {
            offset: b.len() - y.len(),
            nla: q,
        };
        let difference = pair_difference::<F>(&first, &second, ctx);
        if difference.is_some() {
            return difference;
        }
        x = after_p;
        y = after_q;
    }
    let Some(Ok((q, _))) = next_attribute(y, &mut count) else {
        return None;
    };
    let second = PlacedNla {
        offset: b.len() - y.len(),
        nla: q,
    };
    Some(Difference::of_second(F::FAMILY, &second))
}

/// The first difference of two attributes of a family, of any types.
fn pair_difference<F: LinkFamily>(
    first: &PlacedNla<'_>,
    second: &PlacedNla<'_>,
    ctx: F::Context,
) -> Option<Difference> {
    if second.nla.kind() == first.nla.kind() {
        F::difference(first, second, ctx)
    } else {
        Some(Difference::of_pair(F::FAMILY, first, second))
    }
}

impl ExactEq for Difference {}
