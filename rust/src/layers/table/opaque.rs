// @generated from crates/linkinfo_table/src/opaque.rt by rust/translate/run.

//! Families without rows: each of their attributes is opaque.

use crate::compat::AllocError;
use crate::layers::nla_frame::{
    DecodeError, DefaultNla, ExactEq, Family, Nla, NlaBuffer, Parseable,
};
use crate::layers::table::decoded::Decoded;
use crate::layers::table::encodable::Encodable;
use crate::layers::table::lookup::Lookup;
use crate::layers::table::row_family::RowFamily;
use crate::layers::table::slot::Slot;
use crate::layers::table::table_family::TableFamily;

/// The number of the family `bond`.
pub const BOND: u8 = 1;

/// The number of the family of ports of a `bond`.
pub const BOND_PORT: u8 = 2;

/// The number of the family `bridge`.
pub const BRIDGE: u8 = 3;

/// The number of the family of ports of a `bridge`.
pub const BRIDGE_PORT: u8 = 4;

/// The number of the family `can`.
pub const CAN: u8 = 5;

/// The number of the family `dsa`.
pub const DSA: u8 = 6;

/// The number of the family `hsr`.
pub const HSR: u8 = 7;

/// The number of the family `pfcp`.
pub const PFCP: u8 = 8;

/// The number of the family of ports of a `team`.
pub const TEAM_PORT: u8 = 9;

/// The number of the family `tun`.
pub const TUN: u8 = 10;

/// The number of the family `vlan`.
pub const VLAN: u8 = 11;

/// The number of the family `wireguard`.
pub const WIREGUARD: u8 = 12;

/// An attribute of a family without rows. It is opaque, whatever its type: kept verbatim, flag bits
/// of its type included.
///
/// `NUMBER` selects the family, by the constants from `BOND` on. Any other number selects
/// [`Family::Frame`], and has no name.
///
/// [`Family::Frame`]: crate::layers::nla_frame::Family::Frame
#[derive(Debug, PartialEq, Eq, Hash, PartialOrd, Ord, Clone)]
pub enum Opaque<const NUMBER: u8> {
    /// An opaque attribute of any type.
    Other(DefaultNla),
}

/// The family with this number.
const fn family_of(number: u8) -> Family {
    match number {
        BOND => Family::Bond,
        BOND_PORT => Family::BondPort,
        BRIDGE => Family::Bridge,
        BRIDGE_PORT => Family::BridgePort,
        CAN => Family::Can,
        DSA => Family::Dsa,
        HSR => Family::Hsr,
        PFCP => Family::Pfcp,
        TEAM_PORT => Family::TeamPort,
        TUN => Family::Tun,
        VLAN => Family::Vlan,
        WIREGUARD => Family::Wireguard,
        _ => Family::Frame,
    }
}

impl<const NUMBER: u8> Opaque<NUMBER> {
    /// The opaque attribute of the value.
    fn kept(&self) -> &DefaultNla {
        match self {
            Opaque::Other(nla) => nla,
        }
    }
}

impl<const NUMBER: u8> RowFamily for Opaque<NUMBER> {
    type Context = ();

    const FAMILY: Family = family_of(NUMBER);

    #[inline(always)]
    fn shape(_ctx: (), _kind: u16) -> Lookup {
        Lookup::Unknown
    }

    #[inline(always)]
    fn store_decoded<P: Slot<Opaque<NUMBER>>>(
        slot: &mut P,
        _ctx: (),
        decoded: Decoded<'_>,
    ) -> Result<(), AllocError> {
        match decoded {
            Decoded::Kept(nla) => slot.store(Opaque::Other(nla)),
            Decoded::Typed(_, _) => unreachable!(),
        }
    }

    #[inline(always)]
    fn to_encodable(&self) -> Encodable<'_> {
        Encodable::Kept(self.kept())
    }
}

impl<const NUMBER: u8> Nla for Opaque<NUMBER> {
    #[inline]
    fn value_len(&self) -> usize {
        self.kept().value_len()
    }

    #[inline]
    fn kind(&self) -> u16 {
        self.kept().kind()
    }

    #[inline]
    fn emit_value(&self, buffer: &mut [u8]) {
        self.kept().emit_value(buffer);
    }

    #[inline]
    fn fit_len(&self) -> Option<usize> {
        self.kept().fit_len()
    }
}

impl<const NUMBER: u8> TableFamily for Opaque<NUMBER> {
    type Custom = ();

    const IS_SET: bool = false;
}

/// Keeps the attribute verbatim. Reading fails only if memory runs out.
impl<'a, const NUMBER: u8> Parseable<NlaBuffer<'a>> for Opaque<NUMBER> {
    #[inline]
    fn parse(buffer: &NlaBuffer<'a>) -> Result<Opaque<NUMBER>, DecodeError> {
        Ok(Opaque::Other(DefaultNla::parse(buffer)?))
    }
}

impl<const NUMBER: u8> ExactEq for Opaque<NUMBER> {}
