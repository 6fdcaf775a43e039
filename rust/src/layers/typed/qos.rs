// @generated from crates/linkinfo_typed/src/qos.rt by rust/translate/run.

// Written by tables/generate from tables/vlanqosmapping.
//! Mappings of priorities of VLAN interfaces.

use crate::compat::AllocError;
use crate::layers::nla_frame::{
    DecodeError, DefaultNla, ExactEq, Family, Nla, NlaBuffer, Parseable,
};
use crate::layers::table::{
    Decoded, Encodable, Lookup, RowFamily, Slot, TableFamily, encodable_by_rows, row_emit_payload,
    row_emit_value, row_fit_len, row_kind, row_read, row_value_len, store_by_rows, typed_lookup,
};

/// An attribute inside `IFLA_VLAN_EGRESS_QOS` and `IFLA_VLAN_INGRESS_QOS` of a `vlan` link
/// (include/uapi/linux/if_link.h).
#[derive(Debug, PartialEq, Eq, Hash, PartialOrd, Ord, Clone)]
pub enum VlanQosMapping {
    /// The priority that is mapped, and the one that it is mapped to (`IFLA_VLAN_QOS_MAPPING`,
    /// `struct ifla_vlan_qos_mapping`), each little-endian.
    Mapping((u32, u32)),
    /// An opaque attribute, of a type that has no variant here, kept verbatim.
    Other(DefaultNla),
}

macro_rules! rows {
    ($body:ident $given:tt) => {
        $body! { VlanQosMapping $given;
            (1, flag_pair, Mapping),
        }
    };
}

impl RowFamily for VlanQosMapping {
    type Context = ();

    const FAMILY: Family = Family::VlanQosMapping;

    #[inline(always)]
    fn shape(_ctx: (), kind: u16) -> Lookup {
        typed_lookup(Self::FAMILY, kind)
    }

    #[inline(always)]
    fn store_decoded<P: Slot<VlanQosMapping>>(
        slot: &mut P,
        _ctx: (),
        decoded: Decoded<'_>,
    ) -> Result<(), AllocError> {
        rows!(store_by_rows(slot, decoded))
    }

    #[inline(always)]
    fn to_encodable(&self) -> Encodable<'_> {
        rows!(encodable_by_rows self)
    }
}

impl TableFamily for VlanQosMapping {
    type Custom = ();

    const IS_SET: bool = true;
}

impl Nla for VlanQosMapping {
    #[inline]
    fn value_len(&self) -> usize {
        row_value_len(self)
    }

    #[inline]
    fn kind(&self) -> u16 {
        row_kind(self)
    }

    #[inline]
    fn emit_value(&self, buffer: &mut [u8]) {
        row_emit_value(self, buffer);
    }

    #[inline]
    fn emit_payload(&self, buffer: &mut [u8]) -> usize {
        row_emit_payload(self, buffer)
    }

    #[inline]
    fn fit_len(&self) -> Option<usize> {
        row_fit_len(self)
    }
}

/// Reads the attribute. A payload of invalid length is rejected as `(VlanQosMapping, type,
/// Length)`.
impl<'a> Parseable<NlaBuffer<'a>> for VlanQosMapping {
    #[inline]
    fn parse(buffer: &NlaBuffer<'a>) -> Result<VlanQosMapping, DecodeError> {
        row_read(buffer, ())
    }
}

impl ExactEq for VlanQosMapping {}
