// @generated from crates/nla_frame/src/traits.rt by rust/translate/run.

//! What values can do: be written as an attribute or as plain bytes, and be read from bytes.

use crate::compat::NextMultiple;
use crate::layers::nla_frame::emission::write_frame;
use crate::layers::nla_frame::error::DecodeError;

/// A value that is written as an attribute.
///
/// A value fits if its canonical payload has at most 65531 bytes: what a 16-bit length field can
/// count, less the four header bytes. [`fit_len`] reports it; the other calls that measure or write
/// require it.
///
/// [`fit_len`]: crate::layers::nla_frame::Nla::fit_len
pub trait Nla {
    /// The length of the payload in bytes. Requires that the value fits.
    ///
    /// # Panics
    ///
    /// May panic where a condition of the caller that is named here does not hold. Where it does
    /// not panic then, the result has no meaning.
    fn value_len(&self) -> usize;

    /// The 16-bit type that the value is written with. For an opaque attribute it includes the flag
    /// bits.
    fn kind(&self) -> u16;

    /// Writes the payload. Requires that the value fits and that the buffer has exactly
    /// [`value_len`] bytes.
    ///
    /// # Panics
    ///
    /// May panic where a condition of the caller that is named here does not hold. Where it does
    /// not panic then, the result has no meaning.
    ///
    /// [`value_len`]: crate::layers::nla_frame::Nla::value_len
    fn emit_value(&self, buffer: &mut [u8]);

    /// Returns the length of the payload if the value fits, and `None` otherwise.
    fn fit_len(&self) -> Option<usize>;

    /// Writes the payload at the front of the buffer, and returns its length.
    ///
    /// Earlier contents of the buffer do not matter, and the bytes after the payload stay
    /// unchanged. So a payload that is itself a list need not be measured first. Requires that the
    /// value fits and that the buffer has at least [`value_len`] bytes.
    ///
    /// # Panics
    ///
    /// May panic where a condition of the caller that is named here does not hold. Where it does
    /// not panic then, the result has no meaning.
    ///
    /// [`value_len`]: crate::layers::nla_frame::Nla::value_len
    fn emit_payload(&self, buffer: &mut [u8]) -> usize {
        let len = self.value_len();
        self.emit_value(&mut buffer[..len]);
        len
    }

    /// The length of the attribute: header, payload and padding, a multiple of four. Requires that
    /// the value fits.
    ///
    /// # Panics
    ///
    /// May panic where a condition of the caller that is named here does not hold. Where it does
    /// not panic then, the result has no meaning.
    fn buffer_len(&self) -> usize {
        4 + self.value_len().next_multiple_of_four()
    }

    /// Writes header, payload and zero padding at the front of the buffer.
    ///
    /// Earlier contents of the buffer do not matter, and the bytes after the attribute stay
    /// unchanged. Requires that the value fits and that the buffer has at least [`buffer_len`]
    /// bytes.
    ///
    /// # Panics
    ///
    /// May panic where a condition of the caller that is named here does not hold. Where it does
    /// not panic then, the result has no meaning.
    ///
    /// [`buffer_len`]: crate::layers::nla_frame::Nla::buffer_len
    fn emit(&self, buffer: &mut [u8]) {
        let len = self.emit_payload(&mut buffer[4..]);
        write_frame(buffer, self.kind(), len);
    }
}

/// A value that is written as plain bytes, without a header.
pub trait Emitable {
    /// The number of bytes that the value is written as.
    fn buffer_len(&self) -> usize;

    /// Writes the bytes at the front of the buffer. The bytes after them stay unchanged. Requires
    /// that the buffer has at least [`buffer_len`] bytes.
    ///
    /// # Panics
    ///
    /// May panic where a condition of the caller that is named here does not hold. Where it does
    /// not panic then, the result has no meaning.
    ///
    /// [`buffer_len`]: crate::layers::nla_frame::Emitable::buffer_len
    fn emit(&self, buffer: &mut [u8]);
}

/// A value that is read from a `B`.
pub trait Parseable<B>: Sized {
    /// Reads the value. Any result but the error `(Frame, 0, Memory)` is what the buffer means.
    fn parse(buffer: &B) -> Result<Self, DecodeError>;
}

/// A value that is read from a `B` under a parameter.
pub trait ParseableParametrized<B, P>: Sized {
    /// Reads the value. Any result but the error `(Frame, 0, Memory)` is what the buffer means.
    fn parse_with_param(buffer: &B, param: P) -> Result<Self, DecodeError>;
}
