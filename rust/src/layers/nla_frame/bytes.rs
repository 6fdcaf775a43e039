// @generated from crates/nla_frame/src/bytes.rt by rust/translate/run.

//! Byte strings that a value owns.

use crate::compat::AllocError;
use crate::compat::TryToVec;
use crate::layers::nla_frame::exact_eq::ExactEq;
use alloc::vec::Vec;

/// An owned payload, seen as the list of its bytes.
#[derive(Debug, Clone)]
pub struct Bytes {
    bytes: Vec<u8>,
}

impl Bytes {
    /// Wraps a `Vec` without copying it.
    #[must_use]
    pub fn new(bytes: Vec<u8>) -> Bytes {
        Bytes { bytes }
    }

    /// Copies the bytes; fails only if memory runs out.
    #[inline]
    pub fn copy_of(bytes: &[u8]) -> Result<Bytes, AllocError> {
        Ok(Bytes {
            bytes: bytes.try_to_vec()?,
        })
    }

    /// Unwraps the `Vec` that holds the bytes.
    #[must_use]
    pub fn into_vec(self) -> Vec<u8> {
        self.bytes
    }

    /// The bytes as a slice.
    #[must_use]
    pub fn as_slice(&self) -> &[u8] {
        self.bytes.as_slice()
    }

    /// The number of bytes.
    #[must_use]
    pub fn len(&self) -> usize {
        self.bytes.len()
    }

    /// Whether there are no bytes.
    #[must_use]
    pub fn is_empty(&self) -> bool {
        self.bytes.is_empty()
    }
}

impl From<Vec<u8>> for Bytes {
    fn from(bytes: Vec<u8>) -> Bytes {
        Bytes::new(bytes)
    }
}

impl PartialEq for Bytes {
    fn eq(&self, other: &Bytes) -> bool {
        self.as_slice() == other.as_slice()
    }
}

impl Eq for Bytes {}

impl ExactEq for Bytes {}
