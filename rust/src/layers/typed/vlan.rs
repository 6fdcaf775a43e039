// @generated from crates/linkinfo_typed/src/vlan.rt by rust/translate/run.

// Written by tables/generate from tables/vlan.
//! VLAN interfaces.

use crate::compat::AllocError;
use crate::layers::nla_frame::{
    DecodeError, DefaultNla, ExactEq, Family, HeaderCount, Nla, NlaBuffer, Nlas, Parseable,
};
use crate::layers::numbers::{VlanFlags, VlanProtocol};
use crate::layers::table::{
    CustomRows, Decoded, Encodable, LinkFamily, Lookup, PayloadRow, RowFamily, Slot, TableFamily,
    encodable_by_rows, store_by_rows, typed_lookup,
};
use crate::layers::typed::qos::VlanQosMapping;
use bitflags::Flags;
use core::marker::PhantomData;

/// An attribute in the data of a `vlan` link, a VLAN interface (include/uapi/linux/if_link.h).
#[derive(Debug, PartialEq, Eq, Hash, PartialOrd, Ord, Clone)]
pub enum InfoVlan {
    /// VLAN ID, which the kernel takes from 0 to 4094 (`IFLA_VLAN_ID`), little-endian.
    Id(u16),
    /// Flags, and the mask of the flags to change (`IFLA_VLAN_FLAGS`, `struct ifla_vlan_flags`),
    /// each little-endian.
    Flags((VlanFlags, VlanFlags)),
    /// Which priority in the tag a sent frame gets, by the priority of its packet
    /// (`IFLA_VLAN_EGRESS_QOS`), a nested list.
    EgressQos(Nlas<VlanQosMapping>),
    /// Which priority a received packet gets, by the priority in the tag of its frame
    /// (`IFLA_VLAN_INGRESS_QOS`), a nested list.
    IngressQos(Nlas<VlanQosMapping>),
    /// Protocol of the tag (`IFLA_VLAN_PROTOCOL`), big-endian.
    Protocol(VlanProtocol),
    /// An opaque attribute, of a type that has no variant here, kept verbatim.
    Other(DefaultNla),
}

macro_rules! rows {
    ($body:ident $given:tt) => {
        $body! { InfoVlan $given;
            (1, le16, Id),
            (2, flag_pair, Flags by flags_of, pair_of),
            (3, custom, EgressQos),
            (4, custom, IngressQos),
            (5, be16, Protocol as VlanProtocol),
        }
    };
}

impl RowFamily for InfoVlan {
    type Context = ();

    const FAMILY: Family = Family::Vlan;

    #[inline(always)]
    fn shape(_ctx: (), kind: u16) -> Lookup {
        typed_lookup(Family::Vlan, kind)
    }

    #[inline(always)]
    fn store_decoded<P: Slot<InfoVlan>>(
        slot: &mut P,
        _ctx: (),
        decoded: Decoded<'_>,
    ) -> Result<(), AllocError> {
        rows!(store_by_rows(slot, decoded))
    }

    #[inline(always)]
    fn to_encodable(&self) -> Encodable<'_> {
        rows!(encodable_by_rows self)
    }
}

/// Makes both sets of their numbers.
fn flags_of(pair: (u32, u32)) -> (VlanFlags, VlanFlags) {
    let (first, second) = pair;
    (
        VlanFlags::from_bits_retain(first),
        VlanFlags::from_bits_retain(second),
    )
}

/// The numbers of both sets.
fn pair_of(sets: (VlanFlags, VlanFlags)) -> (u32, u32) {
    let (first, second) = sets;
    (first.bits(), second.bits())
}

/// The row of `IFLA_VLAN_EGRESS_QOS`. Wherever it is named, `T` is `()`.
pub struct EgressQosRow<T> {
    of: PhantomData<T>,
}

impl<T> PayloadRow<InfoVlan> for EgressQosRow<T> {
    type Payload = Nlas<VlanQosMapping>;

    const NUMBER: u16 = 3;

    const NESTED: bool = false;

    fn wrap(payload: Nlas<VlanQosMapping>) -> InfoVlan {
        InfoVlan::EgressQos(payload)
    }

    fn payload(value: &InfoVlan) -> Option<&Nlas<VlanQosMapping>> {
        match value {
            InfoVlan::EgressQos(payload) => Some(payload),
            _ => None,
        }
    }
}

/// The row of `IFLA_VLAN_INGRESS_QOS`. Wherever it is named, `T` is `()`.
pub struct IngressQosRow<T> {
    of: PhantomData<T>,
}

impl<T> PayloadRow<InfoVlan> for IngressQosRow<T> {
    type Payload = Nlas<VlanQosMapping>;

    const NUMBER: u16 = 4;

    const NESTED: bool = false;

    fn wrap(payload: Nlas<VlanQosMapping>) -> InfoVlan {
        InfoVlan::IngressQos(payload)
    }

    fn payload(value: &InfoVlan) -> Option<&Nlas<VlanQosMapping>> {
        match value {
            InfoVlan::IngressQos(payload) => Some(payload),
            _ => None,
        }
    }
}

impl TableFamily for InfoVlan {
    type Custom = (EgressQosRow<()>, (IngressQosRow<()>, ()));

    const IS_SET: bool = false;
}

impl Nla for InfoVlan {
    #[inline]
    fn value_len(&self) -> usize {
        <InfoVlan as TableFamily>::Custom::value_len(self)
    }

    #[inline]
    fn kind(&self) -> u16 {
        <InfoVlan as TableFamily>::Custom::kind(self)
    }

    #[inline]
    fn emit_value(&self, buffer: &mut [u8]) {
        self.emit_payload(buffer);
    }

    #[inline]
    fn emit_payload(&self, buffer: &mut [u8]) -> usize {
        <InfoVlan as TableFamily>::Custom::emit(self, buffer)
    }

    #[inline]
    fn fit_len(&self) -> Option<usize> {
        <InfoVlan as TableFamily>::Custom::fit_len(self)
    }
}

/// Reads the attribute. A payload of invalid length is rejected as `(Vlan, type, Length)`. A list
/// is rejected with the first error in it: that of an attribute inside, or `(Frame, 0, Header)`.
impl<'a> Parseable<NlaBuffer<'a>> for InfoVlan {
    #[inline]
    fn parse(buffer: &NlaBuffer<'a>) -> Result<InfoVlan, DecodeError> {
        <InfoVlan as LinkFamily>::read(buffer, (), &mut HeaderCount::new())
    }
}

impl ExactEq for InfoVlan {}
