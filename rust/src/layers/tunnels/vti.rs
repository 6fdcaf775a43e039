// @generated from crates/linkinfo_tunnels/src/vti.rt by rust/translate/run.

// Written by tables/generate from tables/vti.
//! VTI tunnels.

use crate::compat::AllocError;
use crate::layers::nla_frame::{
    DecodeError, DefaultNla, ExactEq, Family, Nla, NlaBuffer, Parseable,
};
use crate::layers::table::{
    Decoded, Encodable, Lookup, RowFamily, Slot, TableFamily, encodable_by_rows, row_emit_payload,
    row_emit_value, row_fit_len, row_kind, row_read, row_value_len, store_by_rows, table_lookup,
};
use core::net::IpAddr;

/// An attribute in the data of a `vti` or `vti6` link, a VTI tunnel
/// (include/uapi/linux/if_tunnel.h).
#[derive(Debug, PartialEq, Eq, Hash, PartialOrd, Ord, Clone)]
pub enum InfoVti {
    /// Interface index of the underlying device (`IFLA_VTI_LINK`), little-endian.
    Link(u32),
    /// Key of incoming packets (`IFLA_VTI_IKEY`), big-endian.
    IKey(u32),
    /// Key of outgoing packets (`IFLA_VTI_OKEY`), big-endian.
    OKey(u32),
    /// Local address (`IFLA_VTI_LOCAL`), network byte order.
    Local(IpAddr),
    /// Remote address (`IFLA_VTI_REMOTE`), network byte order.
    Remote(IpAddr),
    /// Firewall mark for route lookups (`IFLA_VTI_FWMARK`), little-endian.
    FwMark(u32),
    /// An opaque attribute, of a type that has no variant here, kept verbatim.
    Other(DefaultNla),
}

macro_rules! rows {
    ($body:ident $given:tt) => {
        $body! { InfoVti $given;
            (1, le32, Link),
            (2, be32, IKey),
            (3, be32, OKey),
            (4, ip, Local),
            (5, ip, Remote),
            (6, le32, FwMark),
        }
    };
}

impl RowFamily for InfoVti {
    type Context = ();

    const FAMILY: Family = Family::Vti;

    #[inline(always)]
    fn shape(_ctx: (), kind: u16) -> Lookup {
        table_lookup(Self::FAMILY, kind)
    }

    #[inline(always)]
    fn store_decoded<P: Slot<InfoVti>>(
        slot: &mut P,
        _ctx: (),
        decoded: Decoded<'_>,
    ) -> Result<(), AllocError> {
        rows!(store_by_rows(slot, decoded))
    }

    #[inline(always)]
    fn to_encodable(&self) -> Encodable<'_> {
        rows!(encodable_by_rows self)
    }
}

impl TableFamily for InfoVti {
    type Custom = ();

    const IS_SET: bool = false;
}

impl Nla for InfoVti {
    #[inline]
    fn value_len(&self) -> usize {
        row_value_len(self)
    }

    #[inline]
    fn kind(&self) -> u16 {
        row_kind(self)
    }

    #[inline]
    fn emit_value(&self, buffer: &mut [u8]) {
        row_emit_value(self, buffer);
    }

    #[inline]
    fn emit_payload(&self, buffer: &mut [u8]) -> usize {
        row_emit_payload(self, buffer)
    }

    #[inline]
    fn fit_len(&self) -> Option<usize> {
        row_fit_len(self)
    }
}

/// Reads the attribute. A payload of invalid length is rejected as `(Vti, type, Length)`.
impl<'a> Parseable<NlaBuffer<'a>> for InfoVti {
    #[inline]
    fn parse(buffer: &NlaBuffer<'a>) -> Result<InfoVti, DecodeError> {
        row_read(buffer, ())
    }
}

impl ExactEq for InfoVti {}
