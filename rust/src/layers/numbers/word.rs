// @generated from crates/linkinfo_numbers/src/word.rt by rust/translate/run.

//! Texts that name values.

use crate::layers::nla_frame::{Cause, DecodeError, Family};

/// The error of a text that names no value of this family: `(family, 0, Word)`.
pub(crate) fn word_error(family: Family) -> DecodeError {
    DecodeError {
        family,
        kind: 0,
        cause: Cause::Word,
    }
}
