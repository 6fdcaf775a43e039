// @generated from crates/linkinfo/src/standing.rt by rust/translate/run.

//! The attribute at an offset in a list of link info.

use crate::layers::data::{family_of, port_family_of};
use crate::layers::link::named::{data_name, port_data_name, shape_under};
use crate::layers::link::role::{CurrentKinds, Role, kinds_after, role_of};
use crate::layers::names::{FamilyNla, list_attribute_at};
use crate::layers::nla_frame::{Family, HeaderCount, NlaBuffer, next_attribute};
use crate::layers::numbers::{
    IFLA_INFO_DATA, IFLA_INFO_KIND, IFLA_INFO_SLAVE_DATA, IFLA_INFO_SLAVE_KIND, IFLA_INFO_XSTATS,
    KindTag,
};
use crate::layers::table::Shape;

/// An attribute of a list of link info, of data, or of a list nested in data.
#[derive(Debug, PartialEq, Eq)]
pub struct AttributeAt<'a> {
    /// The family of the attribute, [`Family::LinkInfo`] of one of the list.
    ///
    /// [`Family::LinkInfo`]: crate::layers::nla_frame::Family::LinkInfo
    pub family: Family,
    /// The shape of its payload over the typed layer, or `None` if its type has none. Of names it
    /// is text, and of data and statistics bytes.
    pub shape: Option<Shape>,
    /// The attribute, in the bytes that hold it.
    pub nla: NlaBuffer<'a>,
}

/// The shape of an attribute of the list.
fn link_shape(kind: u16) -> Option<Shape> {
    match kind {
        IFLA_INFO_KIND | IFLA_INFO_SLAVE_KIND => Some(Shape::Name),
        IFLA_INFO_DATA | IFLA_INFO_XSTATS | IFLA_INFO_SLAVE_DATA => Some(Shape::Raw),
        _ => None,
    }
}

/// The family of the attributes in an attribute of this role, if it is data of a kind with one.
fn family_in(role: Role) -> Option<Family> {
    match role {
        Role::Data(tag) => data_name(family_of(tag)),
        Role::PortData(tag) => port_data_name(port_family_of(tag)),
        _ => None,
    }
}

/// The kind of the link that data of this role belongs to.
fn kind_in(role: Role) -> Option<KindTag> {
    match role {
        Role::Data(tag) => Some(tag),
        _ => None,
    }
}

/// The attribute of a family with the shape of its type, in data of this kind.
fn shaped(kind: Option<KindTag>, found: FamilyNla<'_>) -> AttributeAt<'_> {
    AttributeAt {
        family: found.family,
        shape: shape_under(kind, found.family, found.nla.kind()),
        nla: found.nla,
    }
}

/// The attribute at an offset from the header of an attribute of this role with this payload.
fn inside(role: Role, payload: &[u8], offset: usize) -> Option<AttributeAt<'_>> {
    let family = family_in(role)?;
    if offset < 4 {
        return None;
    }
    let found = list_attribute_at(family, payload, offset - 4)?;
    Some(shaped(kind_in(role), found))
}

/// Returns the attribute whose header is at an offset in a list of link info, in bytes from its
/// beginning: one of the list, of data or port data, or of a list nested there, at any depth. So it
/// is what the offsets of a difference and of an unmet attribute point to, and those of the error
/// of an attribute. If its shape is plain ([`Shape::is_plain`]), [`read_datum`] reads its value.
///
/// `None` if no attribute begins at that offset, such as at bytes without an accepted header.
/// Families, and the lists nested in their attributes, are those of the typed layer. Elements of
/// lists of addresses belong to no family, and are not found. Each header is looked at once at
/// most. Does not allocate.
///
/// [`Shape::is_plain`]: crate::layers::shapes::Shape::is_plain
/// [`read_datum`]: crate::layers::shapes::read_datum
#[must_use]
pub fn attribute_at(list: &[u8], offset: usize) -> Option<AttributeAt<'_>> {
    let mut kinds = CurrentKinds::none();
    let mut count = HeaderCount::new();
    let mut rest = list;
    let mut left = offset;
    while let Some(step) = next_attribute(rest, &mut count) {
        let Ok((nla, after)) = step else {
            return None;
        };
        let kind = nla.kind();
        if left == 0 {
            return Some(AttributeAt {
                family: Family::LinkInfo,
                shape: link_shape(kind),
                nla,
            });
        }
        let role = role_of(kinds, kind);
        let payload = nla.value();
        if left < 4 + payload.len() {
            return inside(role, payload, left);
        }
        let size = rest.len() - after.len();
        if left < size {
            return None;
        }
        left -= size;
        let next = kinds_after(role, kinds, &nla);
        kinds = next.unwrap_or(kinds);
        rest = after;
    }
    None
}
