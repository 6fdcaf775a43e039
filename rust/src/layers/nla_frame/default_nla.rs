// @generated from crates/nla_frame/src/default_nla.rt by rust/translate/run.

//! Opaque attributes: type and payload kept verbatim.

use crate::layers::nla_frame::buffer::NlaBuffer;
use crate::layers::nla_frame::bytes::Bytes;
use crate::layers::nla_frame::emission::fitting;
use crate::layers::nla_frame::error::DecodeError;
use crate::layers::nla_frame::exact_eq::ExactEq;
use crate::layers::nla_frame::traits::{Nla, Parseable};
use alloc::vec::Vec;

/// An opaque attribute, of a type that its family does not define: the whole 16-bit type, flag bits
/// included, and the payload verbatim.
#[derive(Debug, PartialEq, Eq, Hash, PartialOrd, Ord, Clone)]
pub struct DefaultNla {
    /// The whole `nla_type`, with its two flag bits.
    pub kind: u16,
    /// The payload, without padding.
    pub value: Bytes,
}

impl DefaultNla {
    /// Makes an attribute of this type and payload. It fits if the payload has at most 65531 bytes.
    #[must_use]
    pub fn new(kind: u16, value: Vec<u8>) -> DefaultNla {
        DefaultNla {
            kind,
            value: Bytes::new(value),
        }
    }
}

impl Nla for DefaultNla {
    #[inline]
    fn value_len(&self) -> usize {
        self.value.len()
    }

    #[inline]
    fn kind(&self) -> u16 {
        self.kind
    }

    #[inline]
    fn emit_value(&self, buffer: &mut [u8]) {
        buffer.copy_from_slice(self.value.as_slice());
    }

    #[inline]
    fn fit_len(&self) -> Option<usize> {
        fitting(self.value.len())
    }
}

/// Copies type and payload. Reading fails only if memory runs out.
impl<'a> Parseable<NlaBuffer<'a>> for DefaultNla {
    #[inline]
    fn parse(buffer: &NlaBuffer<'a>) -> Result<DefaultNla, DecodeError> {
        Ok(DefaultNla {
            kind: buffer.raw_kind(),
            value: Bytes::copy_of(buffer.value())?,
        })
    }
}

impl ExactEq for DefaultNla {}
