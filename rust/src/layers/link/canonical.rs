// @generated from crates/linkinfo/src/canonical.rt by rust/translate/run.

//! The canonical encoding of a list, from another encoding of it.

use crate::compat::AllocError;
use crate::compat::TryVec;
use crate::layers::data::DataLayer;
use crate::layers::link::canonical_into::{canonical_len_of, write_canonical_of};
use crate::layers::nla_frame::{Bytes, DecodeError, ExactEq};
use alloc::vec::Vec;
use core::error::Error;
use core::fmt;

/// Why a byte string has no canonical encoding.
#[derive(Clone, Copy, Debug, PartialEq, Eq, Hash, PartialOrd, Ord)]
pub enum CanonError {
    /// The byte string is rejected, with the error of [`VecLinkInfoOf::parse`], or an allocation
    /// failed: `(Frame, 0, Memory)`.
    ///
    /// [`VecLinkInfoOf::parse`]: crate::layers::link::VecLinkInfoOf::parse
    Refused(DecodeError),
    /// The list does not fit: the payload of an attribute has more than 65531 bytes, or the
    /// encoding more than a `usize` can count.
    Unfit,
}

/// Writes the error, or `unfit`.
impl fmt::Display for CanonError {
    fn fmt(&self, f: &mut fmt::Formatter<'_>) -> fmt::Result {
        match self {
            CanonError::Refused(inner) => write!(f, "{inner}"),
            CanonError::Unfit => f.write_str("unfit"),
        }
    }
}

impl Error for CanonError {}

impl From<DecodeError> for CanonError {
    fn from(inner: DecodeError) -> CanonError {
        CanonError::Refused(inner)
    }
}

/// The error of a failed allocation: `(Frame, 0, Memory)`.
impl From<AllocError> for CanonError {
    fn from(refused: AllocError) -> CanonError {
        CanonError::Refused(DecodeError::from(refused))
    }
}

impl ExactEq for CanonError {}

/// Returns the canonical encoding of the list that `bytes` encodes, over the layer `P`.
///
/// It is the result of [`VecLinkInfoOf::parse`] and `to_vec`, without building values. The error is
/// that of `parse` if the bytes are rejected, `Unfit` if the list does not fit, and `(Frame, 0,
/// Memory)` if the allocation fails. An error in the bytes, `Unfit` and an empty result need no
/// memory.
///
/// [`VecLinkInfoOf::parse`]: crate::layers::link::VecLinkInfoOf::parse
pub fn canon_of<P: DataLayer>(bytes: &[u8]) -> Result<Vec<u8>, CanonError> {
    let len = canonical_len_of::<P>(bytes)?;
    let mut string = Vec::new();
    string.try_resize(len, 0)?;
    write_canonical_of::<P>(bytes, &mut string);
    Ok(string)
}

/// Returns the canonical encoding of the list that `bytes` encodes, with peers kept as bytes;
/// [`canon_of`] takes other layers.
///
/// ```
/// use linkinfo::canon;
///
/// // IFLA_INFO_KIND (1) "vrf" without the NUL that the canonical encoding has.
/// let received = [7, 0, 1, 0, b'v', b'r', b'f', 0];
/// let bytes = canon(&received)?;
/// assert_eq!(bytes, [8, 0, 1, 0, b'v', b'r', b'f', 0]);
/// # Ok::<(), linkinfo::CanonError>(())
/// ```
///
/// [`canon_of`]: crate::layers::link::canon_of
pub fn canon(bytes: &[u8]) -> Result<Vec<u8>, CanonError> {
    canon_of::<Bytes>(bytes)
}
