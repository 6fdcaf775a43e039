// @generated from crates/linkinfo_c/src/canon.rt by rust/c/translate.

//! Canonical encodings, written into a buffer of the caller.

use crate::calls::error::{LinkinfoError, NO_ERROR, error_record};
use linkinfo::layers::link::families::DataLayer;
use linkinfo::layers::link::typed::Typed;
use linkinfo::layers::link::{Bytes, CanonIntoError, canon_into_of};

/// The values of `enum linkinfo_canon_status`, from `LINKINFO_CANON_WRITTEN` on.
const WRITTEN: u32 = 0;

const REFUSED: u32 = 1;

const UNFIT: u32 = 2;

const SHORT: u32 = 3;

/// `struct linkinfo_canon_result`: the outcome of `linkinfo_canon`.
#[repr(C)]
#[derive(Clone, Copy, Debug, PartialEq, Eq, Hash, PartialOrd, Ord)]
pub struct LinkinfoCanon {
    /// The error of the list, if it is rejected.
    pub error: LinkinfoError,
    /// `enum linkinfo_canon_status`: 0 written, 1 the list is rejected, 2 it does not fit, 3 the
    /// buffer is too short.
    pub status: u32,
    /// The length of the canonical encoding in bytes, if it is written or the buffer is too short;
    /// otherwise 0.
    pub length: usize,
}

/// Writes the canonical encoding of a list over a layer to the front of the buffer, if there is one
/// and the buffer has room for it. The bytes after it are unchanged, and without an encoding the
/// whole buffer is.
fn canonical<P: DataLayer>(bytes: &[u8], buffer: &mut [u8]) -> LinkinfoCanon {
    match canon_into_of::<P>(bytes, buffer) {
        Ok(length) => LinkinfoCanon {
            error: NO_ERROR,
            status: WRITTEN,
            length,
        },
        Err(CanonIntoError::Refused(error)) => LinkinfoCanon {
            error: error_record(error),
            status: REFUSED,
            length: 0,
        },
        Err(CanonIntoError::Unfit) => LinkinfoCanon {
            error: NO_ERROR,
            status: UNFIT,
            length: 0,
        },
        Err(CanonIntoError::Short(needed)) => LinkinfoCanon {
            error: NO_ERROR,
            status: SHORT,
            length: needed,
        },
    }
}

/// Writes the canonical encoding of a list to the front of the buffer, if there is one and the
/// buffer has room for it. The bytes after it are unchanged, and without an encoding the whole
/// buffer is.
pub fn linkinfo_canon(bytes: &[u8], buffer: &mut [u8]) -> LinkinfoCanon {
    canonical::<Typed<Bytes>>(bytes, buffer)
}

/// Does what `linkinfo_canon` does, over the layer that keeps attributes of bonds, bridges and
/// their like verbatim.
pub fn linkinfo_canon_opaque(bytes: &[u8], buffer: &mut [u8]) -> LinkinfoCanon {
    canonical::<Bytes>(bytes, buffer)
}
