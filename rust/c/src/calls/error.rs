// @generated from crates/linkinfo_c/src/error.rt by rust/c/translate.

//! Errors, as C has them.

use crate::calls::codes::family_code;
use linkinfo::layers::link::DecodeError;

/// `struct linkinfo_error`: the error of a list. With cause 0 there is none, and family and type
/// are 0 too.
#[repr(C)]
#[derive(Clone, Copy, Debug, PartialEq, Eq, Hash, PartialOrd, Ord)]
pub struct LinkinfoError {
    /// The family of attributes, `enum linkinfo_family`.
    pub family: u16,
    /// The type of the attribute with the error, without its two flag bits.
    pub kind: u16,
    /// The cause, `enum linkinfo_cause`.
    pub cause: u32,
}

/// The record of no error.
pub(crate) const NO_ERROR: LinkinfoError = LinkinfoError {
    family: 0,
    kind: 0,
    cause: 0,
};

/// The record of an error.
pub(crate) fn error_record(error: DecodeError) -> LinkinfoError {
    LinkinfoError {
        family: family_code(error.family),
        kind: error.kind,
        cause: u32::from(error.cause.number()),
    }
}

/// The record of the error of a result, or of none.
pub(crate) fn error_or_none(answer: Result<(), DecodeError>) -> LinkinfoError {
    match answer {
        Ok(()) => NO_ERROR,
        Err(error) => error_record(error),
    }
}
