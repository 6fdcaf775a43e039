// @generated from crates/linkinfo_devices/src/nested_family.rt by rust/translate/run.

//! Families whose attributes of one type contain a list of the family's own attributes.

use crate::layers::nla_frame::{Cause, Family, Nlas};
use crate::layers::table::{Lookup, RowFamily, table_lookup};

/// The type of an attribute that contains a list (`IFLA_MACVLAN_MACADDR_DATA`,
/// include/uapi/linux/if_link.h).
pub const LIST_TYPE: u16 = 5;

/// The maximum depth of nested lists.
pub const MOST_LISTS: u8 = 128;

/// A family in which an attribute of type 5 contains a list of the family's own attributes.
///
/// The context is the number of lists around an attribute. A list nested in 128 others is rejected
/// with the cause `Depth`, before its payload is examined.
pub trait NestedFamily: RowFamily<Context = u8> {
    /// Makes the value that contains the list.
    fn from_list(items: Nlas<Self>) -> Self;

    /// The list of a value that contains one, and `None` for other values.
    fn list(&self) -> Option<&Nlas<Self>>;
}

/// How a type without flag bits is read inside `lists` lists: by the table of all families, except
/// that a list nested in 128 others is rejected.
#[must_use]
#[inline(always)]
pub fn nested_shape(family: Family, lists: u8, kind: u16) -> Lookup {
    if kind == LIST_TYPE && lists >= MOST_LISTS {
        return Lookup::Refused(Cause::Depth);
    }
    table_lookup(family, kind)
}
