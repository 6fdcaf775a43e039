// @generated from crates/linkinfo_c/src/usage.rt by rust/c/translate.

//! How the kernel uses attributes.

use crate::calls::codes::family_of_code;
use linkinfo::layers::link::{AttributeUse, attribute_use};

/// The code of a use.
fn use_code(found: AttributeUse) -> u16 {
    match found {
        AttributeUse::ReadWrite => 1,
        AttributeUse::ReadOnly => 2,
        AttributeUse::Command => 3,
        AttributeUse::NeverReturned => 4,
    }
}

/// Returns how the kernel uses a type of attributes, without its two flag bits. 0 for a type that
/// has no name, and for a number that is no family.
#[must_use]
pub fn linkinfo_attribute_use(family: u16, kind: u16) -> u16 {
    match family_of_code(family) {
        Some(family) => match attribute_use(family, kind) {
            Some(found) => use_code(found),
            None => 0,
        },
        None => 0,
    }
}
