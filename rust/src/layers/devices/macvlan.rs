// @generated from crates/linkinfo_devices/src/macvlan.rt by rust/translate/run.

//! Links of kind `macvlan`.

use crate::compat::AllocError;
use crate::layers::devices::mac_rows::mac_rows;
use crate::layers::devices::nested_calls::{
    nested_check, nested_parse, nested_push, nested_read, nested_same,
};
use crate::layers::devices::nested_canonical::{nested_canonical_len, nested_write_canonical};
use crate::layers::devices::nested_differences::{nested_difference, nested_error, nested_unmet};
use crate::layers::devices::nested_emission::{
    nested_emit_payload, nested_emit_value, nested_fit_len, nested_kind, nested_value_len,
};
use crate::layers::devices::nested_family::{NestedFamily, nested_shape};
use crate::layers::nla_frame::{
    DecodeError, DefaultNla, ExactEq, Family, HeaderCount, Nla, NlaBuffer, Nlas, Parseable,
};
use crate::layers::numbers::{MacVlanFlags, MacVlanMacAddressMode, MacVlanMode};
use crate::layers::table::{
    Decoded, Difference, Encodable, LinkFamily, Lookup, PlacedNla, RowFamily, Slot, Unmet,
    encodable_by_rows, store_by_rows,
};
use alloc::vec::Vec;
use bitflags::Flags;

/// An attribute in the data of a `macvlan` link, a virtual interface with a MAC address of its own
/// (include/uapi/linux/if_link.h).
#[derive(Debug, PartialEq, Eq, Hash, PartialOrd, Ord, Clone)]
pub enum InfoMacVlan {
    // Begin: written by tables/generate from tables/macvlan (variants).
    /// Mode (`IFLA_MACVLAN_MODE`), little-endian.
    Mode(MacVlanMode),
    /// Flags (`IFLA_MACVLAN_FLAGS`), little-endian.
    Flags(MacVlanFlags),
    /// Change to the source MAC addresses (`IFLA_MACVLAN_MACADDR_MODE`), little-endian.
    MacAddrMode(MacVlanMacAddressMode),
    /// A source MAC address (`IFLA_MACVLAN_MACADDR`), six bytes.
    MacAddr([u8; 6]),
    /// A nested list of `macvlan` attributes, usually the source MAC addresses
    /// (`IFLA_MACVLAN_MACADDR_DATA`). A list nested in 128 others is rejected.
    MacAddrData(Nlas<InfoMacVlan>),
    /// Number of source MAC addresses (`IFLA_MACVLAN_MACADDR_COUNT`), little-endian.
    MacAddrCount(u32),
    /// Requested length of the broadcast queue in packets (`IFLA_MACVLAN_BC_QUEUE_LEN`),
    /// little-endian.
    BcQueueLen(u32),
    /// Length of the broadcast queue in use, in packets (`IFLA_MACVLAN_BC_QUEUE_LEN_USED`),
    /// little-endian.
    BcQueueLenUsed(u32),
    /// Broadcast queueing threshold in devices, -1 to disable the queue (`IFLA_MACVLAN_BC_CUTOFF`),
    /// little-endian.
    BcCutoff(i32),
    // End: written by tables/generate.
    /// An opaque attribute, of a type that has no variant here, kept verbatim.
    Other(DefaultNla),
}

/// Stores the decoded value of an attribute that contains no list.
#[inline(always)]
fn store_plain<P: Slot<InfoMacVlan>>(slot: &mut P, decoded: Decoded<'_>) -> Result<(), AllocError> {
    mac_rows!(InfoMacVlan store_by_rows (slot, decoded))
}

impl RowFamily for InfoMacVlan {
    type Context = u8;

    const FAMILY: Family = Family::MacVlan;

    #[inline(always)]
    fn shape(lists: u8, kind: u16) -> Lookup {
        nested_shape(Family::MacVlan, lists, kind)
    }

    #[inline(always)]
    fn store_decoded<P: Slot<InfoMacVlan>>(
        slot: &mut P,
        _lists: u8,
        decoded: Decoded<'_>,
    ) -> Result<(), AllocError> {
        store_plain(slot, decoded)
    }

    #[inline(always)]
    fn to_encodable(&self) -> Encodable<'_> {
        mac_rows!(InfoMacVlan encodable_by_rows self)
    }
}

impl NestedFamily for InfoMacVlan {
    fn from_list(items: Nlas<InfoMacVlan>) -> InfoMacVlan {
        InfoMacVlan::MacAddrData(items)
    }

    fn list(&self) -> Option<&Nlas<InfoMacVlan>> {
        match self {
            InfoMacVlan::MacAddrData(items) => Some(items),
            _ => None,
        }
    }
}

impl Nla for InfoMacVlan {
    #[inline]
    fn value_len(&self) -> usize {
        nested_value_len(self)
    }

    #[inline]
    fn kind(&self) -> u16 {
        nested_kind(self)
    }

    #[inline]
    fn emit_value(&self, buffer: &mut [u8]) {
        nested_emit_value(self, buffer);
    }

    #[inline]
    fn emit_payload(&self, buffer: &mut [u8]) -> usize {
        nested_emit_payload(self, buffer)
    }

    #[inline]
    fn fit_len(&self) -> Option<usize> {
        nested_fit_len(self)
    }
}

/// The context is the number of lists around the attribute.
impl LinkFamily for InfoMacVlan {
    type Context = u8;

    const FAMILY: Family = Family::MacVlan;

    const IS_SET: bool = false;

    #[inline(always)]
    fn shape(lists: u8, kind: u16) -> Lookup {
        <InfoMacVlan as RowFamily>::shape(lists, kind)
    }

    fn read(
        nla: &NlaBuffer<'_>,
        lists: u8,
        count: &mut HeaderCount,
    ) -> Result<InfoMacVlan, DecodeError> {
        nested_read(nla, lists, count)
    }

    fn push(
        items: &mut Vec<InfoMacVlan>,
        nla: &NlaBuffer<'_>,
        lists: u8,
        count: &mut HeaderCount,
    ) -> Result<(), DecodeError> {
        nested_push(items, nla, lists, count)
    }

    #[inline(always)]
    fn check_value(
        nla: &NlaBuffer<'_>,
        lists: u8,
        count: &mut HeaderCount,
    ) -> Result<(), DecodeError> {
        nested_check::<InfoMacVlan>(nla, lists, count)
    }

    fn same_value(
        a: &NlaBuffer<'_>,
        b: &NlaBuffer<'_>,
        lists: u8,
        count: &mut HeaderCount,
    ) -> bool {
        nested_same::<InfoMacVlan>(a, b, lists, count)
    }

    fn canonical_len(nla: &NlaBuffer<'_>, lists: u8) -> Option<usize> {
        nested_canonical_len::<InfoMacVlan>(nla, lists)
    }

    fn write_canonical(nla: &NlaBuffer<'_>, lists: u8, buffer: &mut [u8]) -> usize {
        nested_write_canonical::<InfoMacVlan>(nla, lists, buffer)
    }

    fn error_offset(nla: &NlaBuffer<'_>, lists: u8) -> Option<usize> {
        nested_error::<InfoMacVlan>(nla, lists)
    }

    fn difference(a: &PlacedNla<'_>, b: &PlacedNla<'_>, lists: u8) -> Option<Difference> {
        nested_difference::<InfoMacVlan>(a, b, lists)
    }

    fn unmet(have: &PlacedNla<'_>, want: &PlacedNla<'_>, lists: u8, from: usize) -> Option<Unmet> {
        nested_unmet::<InfoMacVlan>(have, want, lists, from)
    }
}

/// Reads an attribute that is in no list. A payload of invalid length is rejected as `(MacVlan,
/// type, Length)`, and a list nested in 128 others as `(MacVlan, 5, Depth)`. A nested list with a
/// bad header is rejected as `(Frame, 0, Header)`.
impl<'a> Parseable<NlaBuffer<'a>> for InfoMacVlan {
    #[inline]
    fn parse(buffer: &NlaBuffer<'a>) -> Result<InfoMacVlan, DecodeError> {
        nested_parse(buffer)
    }
}

impl ExactEq for InfoMacVlan {}
