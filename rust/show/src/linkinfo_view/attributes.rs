// @generated from crates/linkinfo_view/src/attributes.rt by rust/translate/run.

//! One attribute of a list after another.

use linkinfo::layers::nla_frame::{HeaderCount, NlaBuffer, next_attribute};

/// The first attribute of a list, and what follows it and its padding. `None` where no header is
/// accepted.
pub fn first_attribute<'a>(bytes: &'a [u8]) -> Option<(NlaBuffer<'a>, &'a [u8])> {
    match next_attribute(bytes, &mut HeaderCount::new()) {
        Some(Ok(first)) => Some(first),
        Some(Err(_)) => None,
        None => None,
    }
}

/// Whether a list has an attribute of this type, flag bits aside.
pub fn has_type(bytes: &[u8], kind: u16) -> bool {
    let mut rest = bytes;
    while let Some((attribute, next)) = first_attribute(rest) {
        if attribute.kind() == kind {
            return true;
        }
        rest = next;
    }
    false
}
