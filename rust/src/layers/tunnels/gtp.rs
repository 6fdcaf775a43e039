// @generated from crates/linkinfo_tunnels/src/gtp.rt by rust/translate/run.

// Written by tables/generate from tables/gtp.
//! GTP tunnels.

use crate::compat::AllocError;
use crate::layers::nla_frame::{
    DecodeError, DefaultNla, ExactEq, Family, Nla, NlaBuffer, Parseable,
};
use crate::layers::numbers::GtpRole;
use crate::layers::table::{
    Decoded, Encodable, Lookup, RowFamily, Slot, TableFamily, encodable_by_rows, row_emit_payload,
    row_emit_value, row_fit_len, row_kind, row_read, row_value_len, store_by_rows, table_lookup,
};
use core::net::{Ipv4Addr, Ipv6Addr};

/// An attribute in the data of a `gtp` link, a GTP device (include/uapi/linux/if_link.h).
#[derive(Debug, PartialEq, Eq, Hash, PartialOrd, Ord, Clone)]
pub enum InfoGtp {
    /// File descriptor of the GTPv0 socket (`IFLA_GTP_FD0`), little-endian.
    Fd0(u32),
    /// File descriptor of the GTPv1-U socket (`IFLA_GTP_FD1`), little-endian.
    Fd1(u32),
    /// PDP context hash size (`IFLA_GTP_PDP_HASHSIZE`), little-endian.
    PdpHashsize(u32),
    /// Role, GGSN or SGSN (`IFLA_GTP_ROLE`), little-endian.
    Role(GtpRole),
    /// Whether the kernel creates the sockets (`IFLA_GTP_CREATE_SOCKETS`), one byte.
    CreateSockets(bool),
    /// Restart counter (`IFLA_GTP_RESTART_COUNT`), one byte.
    RestartCount(u8),
    /// Local IPv4 address of the sockets (`IFLA_GTP_LOCAL`), network byte order.
    Local(Ipv4Addr),
    /// Local IPv6 address of the sockets (`IFLA_GTP_LOCAL6`), network byte order.
    Local6(Ipv6Addr),
    /// An opaque attribute, of a type that has no variant here, kept verbatim.
    Other(DefaultNla),
}

macro_rules! rows {
    ($body:ident $given:tt) => {
        $body! { InfoGtp $given;
            (1, le32, Fd0),
            (2, le32, Fd1),
            (3, le32, PdpHashsize),
            (4, le32, Role as GtpRole),
            (5, truth, CreateSockets),
            (6, u8, RestartCount),
            (7, v4, Local),
            (8, v6, Local6),
        }
    };
}

impl RowFamily for InfoGtp {
    type Context = ();

    const FAMILY: Family = Family::Gtp;

    #[inline(always)]
    fn shape(_ctx: (), kind: u16) -> Lookup {
        table_lookup(Self::FAMILY, kind)
    }

    #[inline(always)]
    fn store_decoded<P: Slot<InfoGtp>>(
        slot: &mut P,
        _ctx: (),
        decoded: Decoded<'_>,
    ) -> Result<(), AllocError> {
        rows!(store_by_rows(slot, decoded))
    }

    #[inline(always)]
    fn to_encodable(&self) -> Encodable<'_> {
        rows!(encodable_by_rows self)
    }
}

impl TableFamily for InfoGtp {
    type Custom = ();

    const IS_SET: bool = false;
}

impl Nla for InfoGtp {
    #[inline]
    fn value_len(&self) -> usize {
        row_value_len(self)
    }

    #[inline]
    fn kind(&self) -> u16 {
        row_kind(self)
    }

    #[inline]
    fn emit_value(&self, buffer: &mut [u8]) {
        row_emit_value(self, buffer);
    }

    #[inline]
    fn emit_payload(&self, buffer: &mut [u8]) -> usize {
        row_emit_payload(self, buffer)
    }

    #[inline]
    fn fit_len(&self) -> Option<usize> {
        row_fit_len(self)
    }
}

/// Reads the attribute. A payload of invalid length is rejected as `(Gtp, type, Length)`.
impl<'a> Parseable<NlaBuffer<'a>> for InfoGtp {
    #[inline]
    fn parse(buffer: &NlaBuffer<'a>) -> Result<InfoGtp, DecodeError> {
        row_read(buffer, ())
    }
}

impl ExactEq for InfoGtp {}
