// @generated from crates/linkinfo_names/src/standing.rt by rust/translate/run.

//! The attribute at an offset in a list.

use crate::layers::nla_frame::{Family, HeaderCount, NlaBuffer, next_attribute};
use crate::layers::shapes::{Shape, typed_shape};

/// An attribute in a list, or in a list nested in it.
#[derive(Debug, PartialEq, Eq)]
pub struct FamilyNla<'a> {
    /// The family of the attributes of the list that it is in.
    pub family: Family,
    /// The attribute, in the bytes that hold it.
    pub nla: NlaBuffer<'a>,
}

/// The family of the attributes in a payload, if attributes of this type contain a list of such.
fn family_inside(family: Family, kind: u16) -> Option<Family> {
    match typed_shape(family, kind) {
        Some(Shape::SelfList) => Some(family),
        Some(Shape::Nested(inner)) => Some(inner),
        _ => None,
    }
}

/// Returns the attribute whose header is at an offset in a list of attributes of this family, in
/// bytes from the beginning of the list: one of the list's own, or one of a list nested in it, at
/// any depth. So it is what an offset of a difference, of an unmet attribute or of the error of an
/// attribute in data points to.
///
/// `None` if no attribute begins at that offset. Types are those of the typed layer. Elements of
/// lists of addresses belong to no family, and are not found. Only headers are looked at, each at
/// most once, and of what is nested those around the offset alone. Does not allocate.
#[must_use]
pub fn list_attribute_at<'a>(
    family: Family,
    bytes: &'a [u8],
    offset: usize,
) -> Option<FamilyNla<'a>> {
    let mut family = family;
    let mut count = HeaderCount::new();
    let mut rest = bytes;
    let mut left = offset;
    while let Some(step) = next_attribute(rest, &mut count) {
        let Ok((nla, after)) = step else {
            return None;
        };
        if left == 0 {
            return Some(FamilyNla { family, nla });
        }
        let payload = nla.value();
        if left >= 4 + payload.len() {
            let size = rest.len() - after.len();
            if left < size {
                return None;
            }
            left -= size;
            rest = after;
        } else {
            if left < 4 {
                return None;
            }
            left -= 4;
            family = family_inside(family, nla.kind())?;
            rest = payload;
        }
    }
    None
}
