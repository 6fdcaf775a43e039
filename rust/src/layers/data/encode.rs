// @generated from crates/linkinfo_data/src/encode.rt by rust/translate/run.

//! The encoding of data: its length, and its bytes. Data is encoded as a list of attributes, as one
//! attribute, or as bytes.

use crate::compat::NextMultiple;
use crate::layers::nla_frame::{
    Nla, Nlas, fitting, nlas_fit_len, write_attribute, write_attributes, write_bytes,
};

/// What is made of an encoding. It may be written to a buffer.
pub trait Encode: Sized {
    /// What is returned.
    type Answer;

    /// Encodes a list of attributes.
    ///
    /// # Panics
    ///
    /// May panic where a condition of the caller that is named here does not hold. Where it does
    /// not panic then, the result has no meaning.
    fn list<T: Nla>(self, list: &Nlas<T>, buffer: &mut [u8]) -> Self::Answer;

    /// Encodes one attribute.
    ///
    /// # Panics
    ///
    /// May panic where a condition of the caller that is named here does not hold. Where it does
    /// not panic then, the result has no meaning.
    fn one<T: Nla>(self, nla: &T, buffer: &mut [u8]) -> Self::Answer;

    /// Encodes bytes as they are.
    ///
    /// # Panics
    ///
    /// May panic where a condition of the caller that is named here does not hold. Where it does
    /// not panic then, the result has no meaning.
    fn bytes(self, bytes: &[u8], buffer: &mut [u8]) -> Self::Answer;
}

/// Returns the length of the encoding, or `None` if it does not fit a payload.
#[derive(Clone, Copy)]
pub struct FitLen;

impl Encode for FitLen {
    type Answer = Option<usize>;

    fn list<T: Nla>(self, list: &Nlas<T>, _buffer: &mut [u8]) -> Option<usize> {
        fitting(nlas_fit_len(list.as_slice())?)
    }

    fn one<T: Nla>(self, nla: &T, _buffer: &mut [u8]) -> Option<usize> {
        fitting(4 + nla.fit_len()?.next_multiple_of_four())
    }

    fn bytes(self, bytes: &[u8], _buffer: &mut [u8]) -> Option<usize> {
        fitting(bytes.len())
    }
}

/// Writes the encoding to the front of the buffer, and returns its length. Requires that it fits a
/// payload, and that the buffer has room for it. The rest of the buffer is unchanged.
#[derive(Clone, Copy)]
pub struct Write;

impl Encode for Write {
    type Answer = usize;

    fn list<T: Nla>(self, list: &Nlas<T>, buffer: &mut [u8]) -> usize {
        write_attributes(list.as_slice(), buffer)
    }

    fn one<T: Nla>(self, nla: &T, buffer: &mut [u8]) -> usize {
        write_attribute(nla, buffer)
    }

    fn bytes(self, bytes: &[u8], buffer: &mut [u8]) -> usize {
        write_bytes(bytes, buffer)
    }
}
