// @generated from crates/linkinfo/src/xstats.rt by rust/translate/run.

//! Statistics of links: `IFLA_INFO_XSTATS`, include/uapi/linux/if_link.h.

use crate::layers::nla_frame::{
    Bytes, DecodeError, Emitable, ExactEq, NlaBuffer, ParseableParametrized,
};
use crate::layers::numbers::InfoKind;

/// The statistics of a link (`IFLA_INFO_XSTATS`), in the layout of its driver.
#[derive(Debug, PartialEq, Eq, Hash, PartialOrd, Ord, Clone)]
pub enum LinkXstats {
    /// The bytes of the statistics, for every kind of link.
    Other(Bytes),
}

/// Written as the bytes of the statistics.
impl Emitable for LinkXstats {
    fn buffer_len(&self) -> usize {
        match self {
            LinkXstats::Other(bytes) => bytes.len(),
        }
    }

    fn emit(&self, buffer: &mut [u8]) {
        match self {
            LinkXstats::Other(bytes) => buffer[..bytes.len()].copy_from_slice(bytes.as_slice()),
        }
    }
}

/// Parsed from the attribute's payload, which is copied, whatever its type and the kind. The error
/// is `(Frame, 0, Memory)` if the allocation fails.
impl<'a, 'b> ParseableParametrized<NlaBuffer<'a>, &'b InfoKind> for LinkXstats {
    fn parse_with_param(
        buffer: &NlaBuffer<'a>,
        _kind: &'b InfoKind,
    ) -> Result<LinkXstats, DecodeError> {
        Ok(LinkXstats::Other(Bytes::copy_of(buffer.value())?))
    }
}

impl ExactEq for LinkXstats {}
