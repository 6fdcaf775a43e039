// @generated from crates/linkinfo_typed/src/bond_port.rt by rust/translate/run.

// Written by tables/generate from tables/bondport.
//! ports of bonds.

use crate::compat::AllocError;
use crate::layers::nla_frame::{
    Bytes, DecodeError, DefaultNla, ExactEq, Family, Nla, NlaBuffer, Parseable,
};
use crate::layers::numbers::{BondPortState, ChurnState, LacpState, LacpState16, MiiStatus};
use crate::layers::table::{
    Decoded, Encodable, Lookup, RowFamily, Slot, TableFamily, encodable_by_rows, row_emit_payload,
    row_emit_value, row_fit_len, row_kind, row_read, row_value_len, store_by_rows, typed_lookup,
};
use bitflags::Flags;

/// An attribute in the data of a port of a bond (include/uapi/linux/if_link.h).
#[derive(Debug, PartialEq, Eq, Hash, PartialOrd, Ord, Clone)]
pub enum InfoBondPort {
    /// Whether the port is used; read only (`IFLA_BOND_SLAVE_STATE`), one byte.
    BondPortState(BondPortState),
    /// What the monitor says of the port's link; read only (`IFLA_BOND_SLAVE_MII_STATUS`), one
    /// byte.
    MiiStatus(MiiStatus),
    /// How often the link failed; read only (`IFLA_BOND_SLAVE_LINK_FAILURE_COUNT`), little-endian.
    LinkFailureCount(u32),
    /// Permanent hardware address, as long as addresses of the port's type are; read only
    /// (`IFLA_BOND_SLAVE_PERM_HWADDR`), opaque bytes.
    PermHwaddr(Bytes),
    /// Number of its queue (`IFLA_BOND_SLAVE_QUEUE_ID`), little-endian.
    QueueId(u16),
    /// Number of its aggregator, by LACP; read only (`IFLA_BOND_SLAVE_AD_AGGREGATOR_ID`),
    /// little-endian.
    AdAggregatorId(u16),
    /// Its state by LACP; read only (`IFLA_BOND_SLAVE_AD_ACTOR_OPER_PORT_STATE`), one byte.
    AdActorOperPortState(LacpState),
    /// The partner's state by LACP; read only (`IFLA_BOND_SLAVE_AD_PARTNER_OPER_PORT_STATE`),
    /// little-endian.
    AdPartnerOperPortState(LacpState16),
    /// Priority for the choice of the active port (`IFLA_BOND_SLAVE_PRIO`), little-endian.
    Prio(i32),
    /// Priority of the port by LACP (`IFLA_BOND_SLAVE_ACTOR_PORT_PRIO`), little-endian.
    ActorPortPrio(u16),
    /// What the churn machine says of the port; read only (`IFLA_BOND_SLAVE_AD_CHURN_ACTOR_STATE`),
    /// one byte.
    AdChurnActorState(ChurnState),
    /// What the churn machine says of the partner's port; read only
    /// (`IFLA_BOND_SLAVE_AD_CHURN_PARTNER_STATE`), one byte.
    AdChurnPartnerState(ChurnState),
    /// An opaque attribute, of a type that has no variant here, kept verbatim.
    Other(DefaultNla),
}

macro_rules! rows {
    ($body:ident $given:tt) => {
        $body! { InfoBondPort $given;
            (1, u8, BondPortState as BondPortState),
            (2, u8, MiiStatus as MiiStatus),
            (3, le32, LinkFailureCount),
            (4, raw, PermHwaddr),
            (5, le16, QueueId),
            (6, le16, AdAggregatorId),
            (7, u8, AdActorOperPortState as flags LacpState),
            (8, le16, AdPartnerOperPortState as flags LacpState16),
            (9, i32, Prio),
            (10, le16, ActorPortPrio),
            (11, u8, AdChurnActorState as ChurnState),
            (12, u8, AdChurnPartnerState as ChurnState),
        }
    };
}

impl RowFamily for InfoBondPort {
    type Context = ();

    const FAMILY: Family = Family::BondPort;

    #[inline(always)]
    fn shape(_ctx: (), kind: u16) -> Lookup {
        typed_lookup(Self::FAMILY, kind)
    }

    #[inline(always)]
    fn store_decoded<P: Slot<InfoBondPort>>(
        slot: &mut P,
        _ctx: (),
        decoded: Decoded<'_>,
    ) -> Result<(), AllocError> {
        rows!(store_by_rows(slot, decoded))
    }

    #[inline(always)]
    fn to_encodable(&self) -> Encodable<'_> {
        rows!(encodable_by_rows self)
    }
}

impl TableFamily for InfoBondPort {
    type Custom = ();

    const IS_SET: bool = false;
}

impl Nla for InfoBondPort {
    #[inline]
    fn value_len(&self) -> usize {
        row_value_len(self)
    }

    #[inline]
    fn kind(&self) -> u16 {
        row_kind(self)
    }

    #[inline]
    fn emit_value(&self, buffer: &mut [u8]) {
        row_emit_value(self, buffer);
    }

    #[inline]
    fn emit_payload(&self, buffer: &mut [u8]) -> usize {
        row_emit_payload(self, buffer)
    }

    #[inline]
    fn fit_len(&self) -> Option<usize> {
        row_fit_len(self)
    }
}

/// Reads the attribute. A payload of invalid length is rejected as `(BondPort, type, Length)`.
impl<'a> Parseable<NlaBuffer<'a>> for InfoBondPort {
    #[inline]
    fn parse(buffer: &NlaBuffer<'a>) -> Result<InfoBondPort, DecodeError> {
        row_read(buffer, ())
    }
}

impl ExactEq for InfoBondPort {}
