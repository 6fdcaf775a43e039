// @generated from crates/linkinfo_table/src/located.rt by rust/translate/run.

//! The offset of the error of a list of attributes.

use crate::layers::nla_frame::{DecodeError, HeaderCount, next_attribute};
use crate::layers::table::family::LinkFamily;

/// The offset of an attribute's error from its header, if the error is the attribute's own.
#[must_use]
pub fn whole_error(verdict: Result<(), DecodeError>) -> Option<usize> {
    match verdict {
        Ok(()) => None,
        Err(_) => Some(0),
    }
}

/// Returns the offset of the error of a list of attributes of a family, in bytes from the beginning
/// of the list, or `None` if the list is accepted.
///
/// It is the offset of the innermost attribute that has the error, or of the bytes where no header
/// is accepted. Each header is examined at most twice. Does not allocate.
#[must_use]
pub fn list_error<F: LinkFamily>(bytes: &[u8], ctx: F::Context) -> Option<usize> {
    let mut count = HeaderCount::new();
    let mut rest = bytes;
    while let Some(next) = next_attribute(rest, &mut count) {
        let offset = bytes.len() - rest.len();
        let Ok((nla, after)) = next else {
            return Some(offset);
        };
        if let Some(inside) = F::error_offset(&nla, ctx) {
            return Some(offset + inside);
        }
        rest = after;
    }
    None
}
