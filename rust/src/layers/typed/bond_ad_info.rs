// @generated from crates/linkinfo_typed/src/bond_ad_info.rt by rust/translate/run.

// Written by tables/generate from tables/bondadinfo.
//! LACP's active aggregator of bonds.

use crate::compat::AllocError;
use crate::layers::nla_frame::{
    DecodeError, DefaultNla, ExactEq, Family, Nla, NlaBuffer, Parseable,
};
use crate::layers::table::{
    Decoded, Encodable, Lookup, RowFamily, Slot, TableFamily, encodable_by_rows, row_emit_payload,
    row_emit_value, row_fit_len, row_kind, row_read, row_value_len, store_by_rows, typed_lookup,
};

/// An attribute inside `IFLA_BOND_AD_INFO` of a `bond` link (include/uapi/linux/if_link.h).
#[derive(Debug, PartialEq, Eq, Hash, PartialOrd, Ord, Clone)]
pub enum BondAdInfo {
    /// Number of the active aggregator; read only (`IFLA_BOND_AD_INFO_AGGREGATOR`), little-endian.
    Aggregator(u16),
    /// Number of its ports; read only (`IFLA_BOND_AD_INFO_NUM_PORTS`), little-endian.
    NumPorts(u16),
    /// Key of its ports; read only (`IFLA_BOND_AD_INFO_ACTOR_KEY`), little-endian.
    ActorKey(u16),
    /// Key of the partner's ports; read only (`IFLA_BOND_AD_INFO_PARTNER_KEY`), little-endian.
    PartnerKey(u16),
    /// Hardware address of the partner; read only (`IFLA_BOND_AD_INFO_PARTNER_MAC`), six bytes.
    PartnerMac([u8; 6]),
    /// An opaque attribute, of a type that has no variant here, kept verbatim.
    Other(DefaultNla),
}

macro_rules! rows {
    ($body:ident $given:tt) => {
        $body! { BondAdInfo $given;
            (1, le16, Aggregator),
            (2, le16, NumPorts),
            (3, le16, ActorKey),
            (4, le16, PartnerKey),
            (5, mac, PartnerMac),
        }
    };
}

impl RowFamily for BondAdInfo {
    type Context = ();

    const FAMILY: Family = Family::BondAdInfo;

    #[inline(always)]
    fn shape(_ctx: (), kind: u16) -> Lookup {
        typed_lookup(Self::FAMILY, kind)
    }

    #[inline(always)]
    fn store_decoded<P: Slot<BondAdInfo>>(
        slot: &mut P,
        _ctx: (),
        decoded: Decoded<'_>,
    ) -> Result<(), AllocError> {
        rows!(store_by_rows(slot, decoded))
    }

    #[inline(always)]
    fn to_encodable(&self) -> Encodable<'_> {
        rows!(encodable_by_rows self)
    }
}

impl TableFamily for BondAdInfo {
    type Custom = ();

    const IS_SET: bool = false;
}

impl Nla for BondAdInfo {
    #[inline]
    fn value_len(&self) -> usize {
        row_value_len(self)
    }

    #[inline]
    fn kind(&self) -> u16 {
        row_kind(self)
    }

    #[inline]
    fn emit_value(&self, buffer: &mut [u8]) {
        row_emit_value(self, buffer);
    }

    #[inline]
    fn emit_payload(&self, buffer: &mut [u8]) -> usize {
        row_emit_payload(self, buffer)
    }

    #[inline]
    fn fit_len(&self) -> Option<usize> {
        row_fit_len(self)
    }
}

/// Reads the attribute. A payload of invalid length is rejected as `(BondAdInfo, type, Length)`.
impl<'a> Parseable<NlaBuffer<'a>> for BondAdInfo {
    #[inline]
    fn parse(buffer: &NlaBuffer<'a>) -> Result<BondAdInfo, DecodeError> {
        row_read(buffer, ())
    }
}

impl ExactEq for BondAdInfo {}
