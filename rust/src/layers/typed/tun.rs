// @generated from crates/linkinfo_typed/src/tun.rt by rust/translate/run.

// Written by tables/generate from tables/tun.
//! Tun and tap devices.

use crate::compat::AllocError;
use crate::layers::nla_frame::{
    DecodeError, DefaultNla, ExactEq, Family, Nla, NlaBuffer, Parseable,
};
use crate::layers::numbers::TunType;
use crate::layers::table::{
    Decoded, Encodable, Lookup, RowFamily, Slot, TableFamily, encodable_by_rows, row_emit_payload,
    row_emit_value, row_fit_len, row_kind, row_read, row_value_len, store_by_rows, typed_lookup,
};

/// An attribute in the data of a `tun` link, a tun or tap device (include/uapi/linux/if_link.h).
#[derive(Debug, PartialEq, Eq, Hash, PartialOrd, Ord, Clone)]
pub enum InfoTun {
    /// Number of the user who owns the device; read only (`IFLA_TUN_OWNER`), little-endian.
    Owner(u32),
    /// Number of the group that owns the device; read only (`IFLA_TUN_GROUP`), little-endian.
    Group(u32),
    /// Whether it carries IP packets or Ethernet frames; read only (`IFLA_TUN_TYPE`), one byte.
    Type(TunType),
    /// Whether each packet has a header before it; read only (`IFLA_TUN_PI`, `struct tun_pi`), one
    /// byte.
    Pi(bool),
    /// Whether each packet has a header of virtio before it; read only (`IFLA_TUN_VNET_HDR`,
    /// `struct virtio_net_hdr`), one byte.
    VnetHdr(bool),
    /// Whether the device stays when no program has it open; read only (`IFLA_TUN_PERSIST`), one
    /// byte.
    Persist(bool),
    /// Whether the device can have several queues; read only (`IFLA_TUN_MULTI_QUEUE`), one byte.
    MultiQueue(bool),
    /// How many queues are attached; read only (`IFLA_TUN_NUM_QUEUES`), little-endian.
    NumQueues(u32),
    /// How many queues are detached; read only (`IFLA_TUN_NUM_DISABLED_QUEUES`), little-endian.
    NumDisabledQueues(u32),
    /// An opaque attribute, of a type that has no variant here, kept verbatim.
    Other(DefaultNla),
}

macro_rules! rows {
    ($body:ident $given:tt) => {
        $body! { InfoTun $given;
            (1, le32, Owner),
            (2, le32, Group),
            (3, u8, Type as TunType),
            (4, truth, Pi),
            (5, truth, VnetHdr),
            (6, truth, Persist),
            (7, truth, MultiQueue),
            (8, le32, NumQueues),
            (9, le32, NumDisabledQueues),
        }
    };
}

impl RowFamily for InfoTun {
    type Context = ();

    const FAMILY: Family = Family::Tun;

    #[inline(always)]
    fn shape(_ctx: (), kind: u16) -> Lookup {
        typed_lookup(Self::FAMILY, kind)
    }

    #[inline(always)]
    fn store_decoded<P: Slot<InfoTun>>(
        slot: &mut P,
        _ctx: (),
        decoded: Decoded<'_>,
    ) -> Result<(), AllocError> {
        rows!(store_by_rows(slot, decoded))
    }

    #[inline(always)]
    fn to_encodable(&self) -> Encodable<'_> {
        rows!(encodable_by_rows self)
    }
}

impl TableFamily for InfoTun {
    type Custom = ();

    const IS_SET: bool = false;
}

impl Nla for InfoTun {
    #[inline]
    fn value_len(&self) -> usize {
        row_value_len(self)
    }

    #[inline]
    fn kind(&self) -> u16 {
        row_kind(self)
    }

    #[inline]
    fn emit_value(&self, buffer: &mut [u8]) {
        row_emit_value(self, buffer);
    }

    #[inline]
    fn emit_payload(&self, buffer: &mut [u8]) -> usize {
        row_emit_payload(self, buffer)
    }

    #[inline]
    fn fit_len(&self) -> Option<usize> {
        row_fit_len(self)
    }
}

/// Reads the attribute. A payload of invalid length is rejected as `(Tun, type, Length)`.
impl<'a> Parseable<NlaBuffer<'a>> for InfoTun {
    #[inline]
    fn parse(buffer: &NlaBuffer<'a>) -> Result<InfoTun, DecodeError> {
        row_read(buffer, ())
    }
}

impl ExactEq for InfoTun {}
