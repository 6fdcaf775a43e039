// @generated from crates/linkinfo_devices/src/ipvlan.rt by rust/translate/run.

//! Links of kinds `ipvlan` and `ipvtap`.

use crate::compat::AllocError;
use crate::layers::nla_frame::{
    DecodeError, DefaultNla, ExactEq, Family, Nla, NlaBuffer, Parseable,
};
use crate::layers::numbers::{IpVlanFlags, IpVlanMode};
use crate::layers::table::{
    Decoded, Encodable, Lookup, RowFamily, Slot, TableFamily, encodable_by_rows, row_emit_payload,
    row_emit_value, row_fit_len, row_kind, row_read, row_value_len, store_by_rows, table_lookup,
};
use bitflags::Flags;

/// An attribute in the data of an `ipvlan` or an `ipvtap` link, an IPVLAN interface or a TAP device
/// on one (include/uapi/linux/if_link.h).
///
/// `TAP` selects the family: [`Family::IpVtap`] if it is true, else [`Family::IpVlan`].
///
/// [`Family::IpVtap`]: crate::layers::nla_frame::Family::IpVtap
/// [`Family::IpVlan`]: crate::layers::nla_frame::Family::IpVlan
#[derive(Debug, PartialEq, Eq, Hash, PartialOrd, Ord, Clone)]
pub enum InfoIpVlanOf<const TAP: bool> {
    // Begin: written by tables/generate from tables/ipvlan (variants).
    /// Mode: `l2`, `l3` or `l3s` (`IFLA_IPVLAN_MODE`), little-endian.
    Mode(IpVlanMode),
    /// Flags `private` and `vepa` (`IFLA_IPVLAN_FLAGS`), little-endian.
    Flags(IpVlanFlags),
    // End: written by tables/generate.
    /// An opaque attribute, of a type that has no variant here, kept verbatim.
    Other(DefaultNla),
}

/// An attribute in the data of an `ipvlan` link, an IPVLAN interface
/// (include/uapi/linux/if_link.h).
pub type InfoIpVlan = InfoIpVlanOf<false>;

/// An attribute in the data of an `ipvtap` link, a TAP device on an IPVLAN interface
/// (include/uapi/linux/if_link.h).
pub type InfoIpVtap = InfoIpVlanOf<true>;

/// The family of `ipvtap` links, or else of `ipvlan` links.
const fn family_of(tap: bool) -> Family {
    if tap { Family::IpVtap } else { Family::IpVlan }
}

macro_rules! rows {
    ($body:ident $given:tt) => {
        $body! { InfoIpVlanOf $given;
            // Begin: written by tables/generate from tables/ipvlan (rows).
            (1, le16, Mode as IpVlanMode),
            (2, le16, Flags as flags IpVlanFlags),
            // End: written by tables/generate.
        }
    };
}

impl<const TAP: bool> RowFamily for InfoIpVlanOf<TAP> {
    type Context = ();

    const FAMILY: Family = family_of(TAP);

    #[inline(always)]
    fn shape(_ctx: (), kind: u16) -> Lookup {
        table_lookup(Self::FAMILY, kind)
    }

    #[inline(always)]
    fn store_decoded<P: Slot<InfoIpVlanOf<TAP>>>(
        slot: &mut P,
        _ctx: (),
        decoded: Decoded<'_>,
    ) -> Result<(), AllocError> {
        rows!(store_by_rows(slot, decoded))
    }

    #[inline(always)]
    fn to_encodable(&self) -> Encodable<'_> {
        rows!(encodable_by_rows self)
    }
}

impl<const TAP: bool> Nla for InfoIpVlanOf<TAP> {
    #[inline]
    fn value_len(&self) -> usize {
        row_value_len(self)
    }

    #[inline]
    fn kind(&self) -> u16 {
        row_kind(self)
    }

    #[inline]
    fn emit_value(&self, buffer: &mut [u8]) {
        row_emit_value(self, buffer);
    }

    #[inline]
    fn emit_payload(&self, buffer: &mut [u8]) -> usize {
        row_emit_payload(self, buffer)
    }

    #[inline]
    fn fit_len(&self) -> Option<usize> {
        row_fit_len(self)
    }
}

impl<const TAP: bool> TableFamily for InfoIpVlanOf<TAP> {
    type Custom = ();

    const IS_SET: bool = false;
}

/// Reads the attribute. A payload of invalid length is rejected as `(IpVlan, type, Length)` or
/// `(IpVtap, type, Length)`, by the family.
impl<'a, const TAP: bool> Parseable<NlaBuffer<'a>> for InfoIpVlanOf<TAP> {
    #[inline]
    fn parse(buffer: &NlaBuffer<'a>) -> Result<InfoIpVlanOf<TAP>, DecodeError> {
        row_read(buffer, ())
    }
}

impl<const TAP: bool> ExactEq for InfoIpVlanOf<TAP> {}
