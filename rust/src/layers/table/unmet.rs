// @generated from crates/linkinfo_table/src/unmet.rt by rust/translate/run.

//! Whether a list of attributes meets those of another one, and which one it does not meet.

use crate::layers::nla_frame::{ExactEq, Family, HeaderCount, NlaBuffer, next_attribute};
use crate::layers::table::family::LinkFamily;
use crate::layers::table::last::{INDEXED, LastOfType, PlacedNla, types_end};

/// An attribute of a request that is not met.
#[derive(Clone, Copy, Debug, PartialEq, Eq, Hash, PartialOrd, Ord)]
pub struct Unmet {
    /// The family of the attribute.
    pub family: Family,
    /// The type of the attribute, without flags.
    pub kind: u16,
    /// The offset of the attribute in the request.
    pub want: usize,
    /// The offset of the last attribute of that type in the other bytes, or `None` where there is
    /// none. `None` in a list that is a set also where others of that type are: none of them meets
    /// it.
    pub have: Option<usize>,
}

/// What is not met of an attribute of a list, and the offset of that attribute in the list.
#[derive(Clone, Copy, Debug)]
pub struct UnmetAt {
    /// The offset of the attribute in its list.
    pub offset: usize,
    /// What of it is not met.
    pub unmet: Unmet,
}

/// The one of two attributes that is earlier in their list, or the only one.
#[must_use]
pub fn earlier(one: Option<UnmetAt>, other: Option<UnmetAt>) -> Option<UnmetAt> {
    let Some(old) = one else {
        return other;
    };
    match other {
        Some(new) if new.offset < old.offset => Some(new),
        _ => Some(old),
    }
}

impl Unmet {
    /// An attribute that is not met as a whole. `have` is the offset of the last one of its type in
    /// the other bytes, which does not meet it, or `None` where there is none.
    #[must_use]
    pub fn of_whole(family: Family, want: &PlacedNla<'_>, have: Option<usize>) -> Unmet {
        Unmet {
            family,
            kind: want.nla.kind(),
            want: want.offset,
            have,
        }
    }

    /// As [`of_whole`], or `None` if the attribute is before the offset `from`.
    ///
    /// [`of_whole`]: crate::layers::table::Unmet::of_whole
    #[must_use]
    pub fn of_whole_from(
        family: Family,
        want: &PlacedNla<'_>,
        have: Option<usize>,
        from: usize,
    ) -> Option<Unmet> {
        if want.offset < from {
            None
        } else {
            Some(Unmet::of_whole(family, want, have))
        }
    }

    /// What is not met of the payloads of two attributes, with the offsets from the beginning of
    /// the lists that these attributes are in. Requires that each sum is a `usize`.
    ///
    /// # Panics
    ///
    /// May panic where a condition of the caller that is named here does not hold. Where it does
    /// not panic then, the result has no meaning.
    #[must_use]
    pub fn inside(self, want: &PlacedNla<'_>, have: &PlacedNla<'_>) -> Unmet {
        Unmet {
            family: self.family,
            kind: self.kind,
            want: want.offset + 4 + self.want,
            have: match self.have {
                Some(offset) => Some(have.offset + 4 + offset),
                None => None,
            },
        }
    }
}

impl PlacedNla<'_> {
    /// An offset in the list that the attribute is in, as an offset in its payload: 0 if it is
    /// before the payload. Requires that the payload begins in memory.
    ///
    /// # Panics
    ///
    /// May panic where a condition of the caller that is named here does not hold. Where it does
    /// not panic then, the result has no meaning.
    #[must_use]
    pub fn from_inside(&self, from: usize) -> usize {
        from.saturating_sub(self.offset + 4)
    }
}

/// What of an attribute another one of its type does not meet, as a whole: nothing if it is met, or
/// before the offset `from`.
#[must_use]
pub fn unmet_as_whole(
    family: Family,
    is_met: bool,
    have: &PlacedNla<'_>,
    want: &PlacedNla<'_>,
    from: usize,
) -> Option<Unmet> {
    if is_met {
        None
    } else {
        Unmet::of_whole_from(family, want, Some(have.offset), from)
    }
}

/// Returns the first attribute of the list `want`, at the offset `from` or after it, that the list
/// `have` does not meet, or `None` if it meets all of them. Both are accepted lists of attributes
/// of a family. Offsets are in bytes from the beginning of each list.
///
/// Of several attributes of a type the last one counts, as in the kernel, and the last one of that
/// type in `have` must meet it: by an equal payload, or an equivalent one. An attribute that
/// contains a list is met if that list is. Flags of the type do not matter. In a family whose lists
/// are sets, each attribute of `want` must be met by one of its type in `have`, in any order.
///
/// Each list is passed over once for `want`, and for every `INDEXED` types up to the largest in
/// `want` twice over `want` and once over `have`. All types of rows are below `INDEXED`. Of sets
/// `have` is passed over once for each attribute of `want`. Does not allocate.
///
/// # Panics
///
/// May panic where a condition of the caller that is named here does not hold. Where it does
/// not panic then, the result has no meaning.
#[must_use]
pub fn list_unmet<F: LinkFamily>(
    have: &[u8],
    want: &[u8],
    ctx: F::Context,
    from: usize,
) -> Option<Unmet> {
    if F::IS_SET {
        members_unmet::<F>(have, want, ctx, from)
    } else {
        lasts_unmet::<F>(have, want, ctx, from)
    }
}

/// The first attribute of the set `want`, at the offset `from` or after it, that none of the set
/// `have` meets.
fn members_unmet<F: LinkFamily>(
    have: &[u8],
    want: &[u8],
    ctx: F::Context,
    from: usize,
) -> Option<Unmet> {
    let mut count = HeaderCount::new();
    let mut rest = want;
    while let Some(Ok((nla, after))) = next_attribute(rest, &mut count) {
        let wanted = PlacedNla {
            offset: want.len() - rest.len(),
            nla,
        };
        if let Some(unmet) = member_unmet::<F>(have, &wanted, ctx, from) {
            return Some(unmet);
        }
        rest = after;
    }
    None
}

/// This attribute of a set, if it is at the offset `from` or after it and none of the set `have`
/// meets it.
fn member_unmet<F: LinkFamily>(
    have: &[u8],
    wanted: &PlacedNla<'_>,
    ctx: F::Context,
    from: usize,
) -> Option<Unmet> {
    if wanted.offset < from || has_one_like::<F>(have, wanted, ctx) {
        None
    } else {
        Some(Unmet::of_whole(F::FAMILY, wanted, None))
    }
}

/// Whether an attribute of the list `have` meets this one, and has its type.
fn has_one_like<F: LinkFamily>(have: &[u8], wanted: &PlacedNla<'_>, ctx: F::Context) -> bool {
    let mut count = HeaderCount::new();
    let mut rest = have;
    while let Some(Ok((nla, after))) = next_attribute(rest, &mut count) {
        if is_like::<F>(&nla, &wanted.nla, ctx) {
            return true;
        }
        rest = after;
    }
    false
}

/// Whether an attribute has the type of another one, and meets it: the payloads are equal, or both
/// are equivalent.
fn is_like<F: LinkFamily>(have: &NlaBuffer<'_>, want: &NlaBuffer<'_>, ctx: F::Context) -> bool {
    have.kind() == want.kind()
        && (have.value() == want.value() || F::same_value(have, want, ctx, &mut HeaderCount::new()))
}

/// The first attribute of `want`, at the offset `from` or after it, that the last one of its type
/// in `have` does not meet.
fn lasts_unmet<F: LinkFamily>(
    have: &[u8],
    want: &[u8],
    ctx: F::Context,
    from: usize,
) -> Option<Unmet> {
    let end = types_end(want);
    let mut first = None;
    let mut block = 0;
    while block < end {
        first = earlier(first, unmet_of_types::<F>(have, want, block, ctx, from));
        block += INDEXED;
    }
    Some(first?.unmet)
}

/// The first attribute of `want`, at the offset `from` or after it, that `have` does not meet,
/// among those of `INDEXED` types from `start` on.
fn unmet_of_types<F: LinkFamily>(
    have: &[u8],
    want: &[u8],
    start: u16,
    ctx: F::Context,
    from: usize,
) -> Option<UnmetAt> {
    let found = LastOfType::new(have, start);
    let wanted = LastOfType::new(want, start);
    let mut count = HeaderCount::new();
    let mut rest = want;
    while let Some(Ok((nla, after))) = next_attribute(rest, &mut count) {
        let offset = want.len() - rest.len();
        let placed = PlacedNla { offset, nla };
        let kind = placed.nla.kind();
        if wanted.offset(kind) == Some(offset) {
            let last = found.find(kind);
            if let Some(unmet) = found_unmet::<F>(&last, &placed, ctx, from) {
                return Some(UnmetAt { offset, unmet });
            }
        }
        rest = after;
    }
    None
}

/// What of an attribute the one of its type that was found, if one was, does not meet, at the
/// offset `from` or after it. An attribute that ends before that is not looked at.
#[inline]
fn found_unmet<F: LinkFamily>(
    have: &Option<PlacedNla<'_>>,
    want: &PlacedNla<'_>,
    ctx: F::Context,
    from: usize,
) -> Option<Unmet> {
    let end = want.offset + want.nla.length() as usize;
    if end <= from {
        return None;
    }
    match have {
        Some(found) => F::unmet(found, want, ctx, from),
        None => Unmet::of_whole_from(F::FAMILY, want, None, from),
    }
}

impl ExactEq for Unmet {}
