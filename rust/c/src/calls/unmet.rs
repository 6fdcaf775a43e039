// @generated from crates/linkinfo_c/src/unmet.rt by rust/c/translate.

//! Whether a link has all attributes of a request, and those that it lacks, one after another.

use crate::calls::codes::family_code;
use crate::calls::error::{LinkinfoError, NO_ERROR, error_record};
use linkinfo::layers::link::{DecodeError, ErrorIn, Unmet, first_unmet, next_unmet, typed};

/// `struct linkinfo_unmet`: whether a link has all attributes of a request, and the first one that
/// it lacks.
#[repr(C)]
#[derive(Clone, Copy, Debug, PartialEq, Eq, Hash, PartialOrd, Ord)]
pub struct LinkinfoUnmet {
    /// The error of the link's list, otherwise that of the request.
    pub error: LinkinfoError,
    /// Which list has the error: 1 the link's, 2 the request, and 0 if neither has one.
    pub rejected: u32,
    /// The family of the request's attribute that is not met, `enum linkinfo_family`; 0 if there is
    /// none.
    pub family: u16,
    /// The type, without flag bits, of the attribute that is not met; 0 if there is none.
    pub kind: u16,
    /// The offset in the request, in bytes, of the attribute that is not met; 0 if there is none.
    pub want: usize,
    /// The offset in the link's list, in bytes, of the last attribute of that type; 0 if the link
    /// has none.
    pub have: usize,
    /// Whether all attributes of the request are met, of those that are asked for; false with an
    /// error.
    pub met: bool,
    /// Whether the link has an attribute of that type, at `have`.
    pub is_present: bool,
}

/// The record without an error and without an attribute.
const NO_UNMET: LinkinfoUnmet = LinkinfoUnmet {
    error: NO_ERROR,
    rejected: 0,
    family: 0,
    kind: 0,
    want: 0,
    have: 0,
    met: false,
    is_present: false,
};

/// The record of an error of one of the lists.
fn rejected(list: u32, error: DecodeError) -> LinkinfoUnmet {
    LinkinfoUnmet {
        error: error_record(error),
        rejected: list,
        ..NO_UNMET
    }
}

/// The record of an attribute that is not met.
fn lacking(unmet: Unmet) -> LinkinfoUnmet {
    LinkinfoUnmet {
        family: family_code(unmet.family),
        kind: unmet.kind,
        want: unmet.want,
        have: unmet.have.unwrap_or(0),
        is_present: unmet.have.is_some(),
        ..NO_UNMET
    }
}

/// The record of a result of `first_unmet`.
fn unmet_record(answer: Result<Option<Unmet>, ErrorIn>) -> LinkinfoUnmet {
    match answer {
        Ok(None) => LinkinfoUnmet {
            met: true,
            ..NO_UNMET
        },
        Ok(Some(unmet)) => lacking(unmet),
        Err(ErrorIn::First(error)) => rejected(1, error),
        Err(ErrorIn::Second(error)) => rejected(2, error),
    }
}

/// Returns whether the link's list `have` has all attributes of the request `want`, or the first
/// one that it lacks.
#[must_use]
pub fn linkinfo_first_unmet(have: &[u8], want: &[u8]) -> LinkinfoUnmet {
    unmet_record(typed::first_unmet(have, want))
}

/// Returns what `linkinfo_first_unmet` does, over the layer that keeps attributes of bonds, bridges
/// and their like verbatim.
#[must_use]
pub fn linkinfo_first_unmet_opaque(have: &[u8], want: &[u8]) -> LinkinfoUnmet {
    unmet_record(first_unmet(have, want))
}

/// Returns the first attribute of the request `want`, at the offset `from` or after it, that the
/// link's list `have` lacks, or that none is left. With 0 it is what `linkinfo_first_unmet`
/// returns, and the one after an attribute at `want` is that from `want + 1` on.
#[must_use]
pub fn linkinfo_next_unmet(have: &[u8], want: &[u8], from: usize) -> LinkinfoUnmet {
    unmet_record(typed::next_unmet(have, want, from))
}

/// Returns what `linkinfo_next_unmet` does, over the layer that keeps attributes of bonds, bridges
/// and their like verbatim.
#[must_use]
pub fn linkinfo_next_unmet_opaque(have: &[u8], want: &[u8], from: usize) -> LinkinfoUnmet {
    unmet_record(next_unmet(have, want, from))
}
