// @generated from crates/linkinfo_numbers/src/name.rt by rust/translate/run.

//! Names in attributes: a text with one closing NUL.

use crate::layers::nla_frame::{Cause, DecodeError, Family, NlaBuffer, fitting, without_nul};

/// The name in an attribute of this type.
///
/// An attribute of another type is rejected as `(LinkInfo, type, WrongType)` with that type, and a
/// name that is not UTF-8 as `(LinkInfo, type, Utf8)`.
pub(crate) fn name_of<'a>(nla: &NlaBuffer<'a>, kind: u16) -> Result<&'a str, DecodeError> {
    let found = nla.kind();
    if found != kind {
        return Err(DecodeError {
            family: Family::LinkInfo,
            kind: found,
            cause: Cause::WrongType,
        });
    }
    match core::str::from_utf8(without_nul(nla.value())) {
        Ok(name) => Ok(name),
        Err(_) => Err(DecodeError {
            family: Family::LinkInfo,
            kind,
            cause: Cause::Utf8,
        }),
    }
}

/// The length of the payload of a name, if the name fits.
pub(crate) fn name_fit_len(name: &str) -> Option<usize> {
    fitting(name.len() + 1)
}

/// Writes a name and its NUL. Requires that the buffer has exactly that length.
pub(crate) fn emit_name(name: &str, buffer: &mut [u8]) {
    let end = name.len();
    buffer[..end].copy_from_slice(name.as_bytes());
    buffer[end] = 0;
}
