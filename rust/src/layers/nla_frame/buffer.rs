// @generated from crates/nla_frame/src/buffer.rt by rust/translate/run.

//! One attribute in borrowed bytes, and one step from an attribute to the next.

use crate::compat::NextMultiple;
use crate::layers::nla_frame::error::{Cause, DecodeError, Family};
use crate::layers::nla_frame::exact_eq::ExactEq;
use crate::layers::nla_frame::header_count::HeaderCount;

/// The length of an attribute header in bytes: a 16-bit length, then a 16-bit type, both
/// little-endian (`struct nlattr`, include/uapi/linux/netlink.h).
const HEADER_LEN: usize = 4;

/// The bits of the type without its two flags (`NLA_TYPE_MASK`).
const TYPE_MASK: u16 = 0x3fff;

/// An attribute with an accepted header, borrowed from the bytes that hold it.
#[derive(Debug, Clone)]
pub struct NlaBuffer<'a> {
    kind: u16,
    value: &'a [u8],
}

fn header_error() -> DecodeError {
    DecodeError {
        family: Family::Frame,
        kind: 0,
        cause: Cause::Header,
    }
}

#[inline(always)]
fn headers_seen(bytes: &[u8]) -> usize {
    if bytes.len() < HEADER_LEN { 0 } else { 1 }
}

/// The bytes after an attribute of this length and its padding.
#[inline(always)]
fn rest_after<'a>(bytes: &'a [u8], length: u16) -> &'a [u8] {
    let step = (length as usize).next_multiple_of_four();
    if step < bytes.len() {
        &bytes[step..]
    } else {
        &bytes[bytes.len()..]
    }
}

impl<'a> NlaBuffer<'a> {
    /// Reads the attribute at the front of the bytes.
    ///
    /// Returns the error `(Frame, 0, Header)` if there are fewer than four bytes, if the length
    /// field is below four, or if it exceeds the number of bytes.
    #[inline(always)]
    pub fn new_checked(bytes: &'a [u8]) -> Result<NlaBuffer<'a>, DecodeError> {
        if bytes.len() < HEADER_LEN {
            return Err(header_error());
        }
        let length = u16::from_le_bytes([bytes[0], bytes[1]]) as usize;
        if length < HEADER_LEN || length > bytes.len() {
            return Err(header_error());
        }
        let kind = u16::from_le_bytes([bytes[2], bytes[3]]);
        Ok(NlaBuffer {
            kind,
            value: &bytes[HEADER_LEN..length],
        })
    }

    /// Reads the attribute at the front of the bytes as [`new_checked`] does, and counts its header
    /// as examined if there are at least four bytes. Requires that the new count fits into a
    /// `usize`.
    ///
    /// # Panics
    ///
    /// May panic where a condition of the caller that is named here does not hold. Where it does
    /// not panic then, the result has no meaning.
    ///
    /// [`new_checked`]: crate::layers::nla_frame::NlaBuffer::new_checked
    #[inline(always)]
    pub fn new_counted(
        bytes: &'a [u8],
        count: &mut HeaderCount,
    ) -> Result<NlaBuffer<'a>, DecodeError> {
        count.add(headers_seen(bytes));
        NlaBuffer::new_checked(bytes)
    }

    /// The type without its flags `NLA_F_NESTED` (0x8000) and `NLA_F_NET_BYTEORDER` (0x4000).
    #[must_use]
    #[inline(always)]
    pub fn kind(&self) -> u16 {
        self.kind & TYPE_MASK
    }

    /// The whole 16-bit type, flag bits included.
    #[must_use]
    #[inline(always)]
    pub fn raw_kind(&self) -> u16 {
        self.kind
    }

    /// The length field (`nla_len`): the four header bytes and the payload, without the padding.
    #[must_use]
    #[inline(always)]
    pub fn length(&self) -> u16 {
        crate::compat::narrow_u16(HEADER_LEN + self.value.len())
    }

    /// The payload, borrowed from the source.
    #[must_use]
    #[inline(always)]
    pub fn value(&self) -> &'a [u8] {
        self.value
    }
}

/// One step over the attributes of a byte string.
///
/// Returns the attribute at the front together with the bytes after it and its padding, or the
/// error `(Frame, 0, Header)`, or `None` at the end. The header is counted as examined if there are
/// at least four bytes. Requires that the new count fits into a `usize`.
///
/// # Panics
///
/// May panic where a condition of the caller that is named here does not hold. Where it does
/// not panic then, the result has no meaning.
#[inline(always)]
pub fn next_attribute<'a>(
    bytes: &'a [u8],
    count: &mut HeaderCount,
) -> Option<Result<(NlaBuffer<'a>, &'a [u8]), DecodeError>> {
    if bytes.is_empty() {
        return None;
    }
    match NlaBuffer::new_counted(bytes, count) {
        Ok(nla) => {
            let rest = rest_after(bytes, nla.length());
            Some(Ok((nla, rest)))
        }
        Err(error) => Some(Err(error)),
    }
}

impl PartialEq for NlaBuffer<'_> {
    fn eq(&self, other: &Self) -> bool {
        self.kind == other.kind && self.value == other.value
    }
}

impl Eq for NlaBuffer<'_> {}

impl ExactEq for NlaBuffer<'_> {}
