// @generated from crates/linkinfo_devices/src/macsec.rt by rust/translate/run.

// Written by tables/generate from tables/macsec.
//! MACsec interfaces.

use crate::compat::AllocError;
use crate::layers::nla_frame::{
    DecodeError, DefaultNla, ExactEq, Family, Nla, NlaBuffer, Parseable,
};
use crate::layers::numbers::{MacSecCipherId, MacSecOffload, MacSecValidate};
use crate::layers::table::{
    Decoded, Encodable, Lookup, RowFamily, Slot, TableFamily, encodable_by_rows, row_emit_payload,
    row_emit_value, row_fit_len, row_kind, row_read, row_value_len, store_by_rows, table_lookup,
};

/// An attribute in the data of a `macsec` link, an IEEE 802.1AE MACsec interface
/// (include/uapi/linux/if_link.h).
#[derive(Debug, PartialEq, Eq, Hash, PartialOrd, Ord, Clone)]
pub enum InfoMacSec {
    /// SCI, the secure channel identifier (`IFLA_MACSEC_SCI`), 64 bits, read as little-endian
    /// although the kernel writes it in network byte order.
    Sci(u64),
    /// Port component of the SCI (`IFLA_MACSEC_PORT`), big-endian.
    Port(u16),
    /// Length of the integrity check value (ICV) in bytes (`IFLA_MACSEC_ICV_LEN`), one byte.
    IcvLen(u8),
    /// Cipher suite (`IFLA_MACSEC_CIPHER_SUITE`), little-endian.
    CipherSuite(MacSecCipherId),
    /// Replay window in frames (`IFLA_MACSEC_WINDOW`), little-endian.
    Window(u32),
    /// Secure association used for transmission (`IFLA_MACSEC_ENCODING_SA`), one byte.
    EncodingSa(u8),
    /// Whether frames are encrypted (`IFLA_MACSEC_ENCRYPT`), one byte.
    Encrypt(u8),
    /// Whether frames are protected (`IFLA_MACSEC_PROTECT`), one byte.
    Protect(u8),
    /// Whether the SCI is sent in every frame (`IFLA_MACSEC_INC_SCI`), one byte.
    IncSci(u8),
    /// Whether the end station bit is set (`IFLA_MACSEC_ES`), one byte.
    Es(u8),
    /// Whether the single copy broadcast bit is set (`IFLA_MACSEC_SCB`), one byte.
    Scb(u8),
    /// Whether replay protection is enabled (`IFLA_MACSEC_REPLAY_PROTECT`), one byte.
    ReplayProtect(u8),
    /// Validation of incoming frames (`IFLA_MACSEC_VALIDATION`), one byte.
    Validation(MacSecValidate),
    /// Hardware offload (`IFLA_MACSEC_OFFLOAD`), one byte.
    Offload(MacSecOffload),
    /// An opaque attribute, of a type that has no variant here, kept verbatim.
    Other(DefaultNla),
}

macro_rules! rows {
    ($body:ident $given:tt) => {
        $body! { InfoMacSec $given;
            (1, le64, Sci),
            (2, be16, Port),
            (3, u8, IcvLen),
            (4, le64, CipherSuite as MacSecCipherId),
            (5, le32, Window),
            (6, u8, EncodingSa),
            (7, u8, Encrypt),
            (8, u8, Protect),
            (9, u8, IncSci),
            (10, u8, Es),
            (11, u8, Scb),
            (12, u8, ReplayProtect),
            (13, u8, Validation as MacSecValidate),
            (15, u8, Offload as MacSecOffload),
        }
    };
}

impl RowFamily for InfoMacSec {
    type Context = ();

    const FAMILY: Family = Family::MacSec;

    #[inline(always)]
    fn shape(_ctx: (), kind: u16) -> Lookup {
        table_lookup(Self::FAMILY, kind)
    }

    #[inline(always)]
    fn store_decoded<P: Slot<InfoMacSec>>(
        slot: &mut P,
        _ctx: (),
        decoded: Decoded<'_>,
    ) -> Result<(), AllocError> {
        rows!(store_by_rows(slot, decoded))
    }

    #[inline(always)]
    fn to_encodable(&self) -> Encodable<'_> {
        rows!(encodable_by_rows self)
    }
}

impl TableFamily for InfoMacSec {
    type Custom = ();

    const IS_SET: bool = false;
}

impl Nla for InfoMacSec {
    #[inline]
    fn value_len(&self) -> usize {
        row_value_len(self)
    }

    #[inline]
    fn kind(&self) -> u16 {
        row_kind(self)
    }

    #[inline]
    fn emit_value(&self, buffer: &mut [u8]) {
        row_emit_value(self, buffer);
    }

    #[inline]
    fn emit_payload(&self, buffer: &mut [u8]) -> usize {
        row_emit_payload(self, buffer)
    }

    #[inline]
    fn fit_len(&self) -> Option<usize> {
        row_fit_len(self)
    }
}

/// Reads the attribute. A payload of invalid length is rejected as `(MacSec, type, Length)`.
impl<'a> Parseable<NlaBuffer<'a>> for InfoMacSec {
    #[inline]
    fn parse(buffer: &NlaBuffer<'a>) -> Result<InfoMacSec, DecodeError> {
        row_read(buffer, ())
    }
}

impl ExactEq for InfoMacSec {}
