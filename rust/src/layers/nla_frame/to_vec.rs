// @generated from crates/nla_frame/src/to_vec.rt by rust/translate/run.

//! Writes the byte string of a list into a new `Vec`.

use crate::compat::AllocError;
use crate::compat::TryVec;
use crate::layers::nla_frame::emission::{emit_nlas, nlas_fit_len};
use crate::layers::nla_frame::exact_eq::ExactEq;
use crate::layers::nla_frame::traits::Nla;
use alloc::vec::Vec;
use core::error::Error;
use core::fmt;

/// Why a list is not written.
#[derive(Clone, Copy, Debug, PartialEq, Eq, Hash, PartialOrd, Ord)]
pub enum ToVecError {
    /// A payload has more than 65531 bytes, or the length of the byte string does not fit into a
    /// `usize`.
    Unfit,
    /// An allocation failed.
    Memory,
}

/// Writes `unfit` or `memory`.
impl fmt::Display for ToVecError {
    fn fmt(&self, f: &mut fmt::Formatter<'_>) -> fmt::Result {
        f.write_str(match self {
            ToVecError::Unfit => "unfit",
            ToVecError::Memory => "memory",
        })
    }
}

impl Error for ToVecError {}

/// A failed allocation is [`Memory`].
///
/// [`Memory`]: crate::layers::nla_frame::ToVecError::Memory
impl From<AllocError> for ToVecError {
    fn from(_refused: AllocError) -> ToVecError {
        ToVecError::Memory
    }
}

impl ExactEq for ToVecError {}

/// Writes the list's byte string into a new `Vec`, the items in order, as [`emit_nlas`] writes it.
///
/// Returns the error `Unfit` if and only if the list does not fit, before it allocates, and
/// `Memory` if an allocation failed. The empty list needs no memory.
///
/// ```
/// use linkinfo::DefaultNla;
/// use linkinfo::layers::nla_frame::nlas_to_vec;
///
/// let items = [DefaultNla::new(1, vec![7])];
/// let bytes = nlas_to_vec(&items)?;
/// // Length 5, type 1, one byte and its padding.
/// assert_eq!(bytes, [5, 0, 1, 0, 7, 0, 0, 0]);
/// # Ok::<(), linkinfo::ToVecError>(())
/// ```
///
/// [`emit_nlas`]: crate::layers::nla_frame::emit_nlas
pub fn nlas_to_vec<T: Nla>(items: &[T]) -> Result<Vec<u8>, ToVecError> {
    let len = nlas_fit_len(items).ok_or(ToVecError::Unfit)?;
    let mut bytes = Vec::new();
    bytes.try_resize(len, 0)?;
    emit_nlas(items, &mut bytes);
    Ok(bytes)
}
