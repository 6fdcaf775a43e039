// @generated from crates/linkinfo_data/src/port_data.rt by rust/translate/run.

//! The data of a port: `IFLA_INFO_SLAVE_DATA`, include/uapi/linux/if_link.h.

use crate::layers::data::ask::Ask;
use crate::layers::data::encode::{FitLen, Write};
use crate::layers::data::layer::DataLayer;
use crate::layers::data::payload_family::PayloadFamily;
use crate::layers::devices::InfoVrfPort;
use crate::layers::nla_frame::{Bytes, DecodeError, ExactEq, HeaderCount, Nla, Nlas};
use crate::layers::numbers::{IFLA_INFO_SLAVE_DATA, InfoPortKind, PortTag};
use crate::layers::peers::InfoTeamPort;
use crate::layers::table::LinkLayer;

/// The family of the attributes in `IFLA_INFO_SLAVE_DATA`, which the kind of the port chooses.
#[derive(Clone, Copy, Debug, PartialEq, Eq, Hash, PartialOrd, Ord)]
pub enum PortFamily {
    /// Attributes of ports of a `bond` link (`IFLA_BOND_SLAVE_*`), which the layer supplies.
    Bond,
    /// Attributes of ports of a `bridge` link (`IFLA_BRPORT_*`), which the layer supplies.
    Bridge,
    /// Attributes of ports of a `vrf` link (`IFLA_VRF_PORT_*`).
    Vrf,
    /// Attributes of ports of a `team` link, kept verbatim.
    Team,
    /// No family: the data is kept as bytes.
    Raw,
}

impl ExactEq for PortFamily {}

/// The family of the data of ports of a kind, by the port kind's tag.
#[must_use]
pub fn port_family_of(tag: PortTag) -> PortFamily {
    match tag {
        PortTag::Bond => PortFamily::Bond,
        PortTag::Bridge => PortFamily::Bridge,
        PortTag::Vrf => PortFamily::Vrf,
        PortTag::Team => PortFamily::Team,
        _ => PortFamily::Raw,
    }
}

/// The data of a port (`IFLA_INFO_SLAVE_DATA`): the attributes of its port kind's family, or bytes
/// if the port kind has no family. `P` is the layer that supplies the families of ports of bonds
/// and of bridges: at a [`LinkPeer`] these are opaque.
///
/// [`LinkPeer`]: crate::layers::table::LinkPeer
#[derive(Debug, PartialEq, Eq, Hash, PartialOrd, Ord, Clone)]
pub enum InfoPortDataOf<P: LinkLayer> {
    /// Attributes of a port of a `bond` link (`IFLA_BOND_SLAVE_*`), which the layer supplies.
    BondPort(Nlas<P::BondPort>),
    /// Attributes of a port of a `bridge` link (`IFLA_BRPORT_*`), which the layer supplies.
    BridgePort(Nlas<P::BridgePort>),
    /// Attributes of a port of a `vrf` link (`IFLA_VRF_PORT_*`).
    VrfPort(Nlas<InfoVrfPort>),
    /// Attributes of a port of a `team` link, kept verbatim.
    TeamPort(Nlas<InfoTeamPort>),
    /// The bytes of the data of a port whose kind has no family.
    Other(Bytes),
}

/// The data of a port (`IFLA_INFO_SLAVE_DATA`), with opaque families.
pub type InfoPortData = InfoPortDataOf<Bytes>;

impl<P: DataLayer> PayloadFamily<P> for PortFamily {
    type Data = P::PortData;

    fn read(self, payload: &[u8], count: &mut HeaderCount) -> Result<P::PortData, DecodeError> {
        P::read_port_data(self, payload, count)
    }

    #[inline(always)]
    fn ask<Q: Ask>(self, question: Q, count: &mut HeaderCount, buffer: &mut [u8]) -> Q::Answer {
        P::ask_port_data(self, question, count, buffer)
    }
}

impl<P: LinkLayer + DataLayer<PortData = InfoPortDataOf<P>>> InfoPortDataOf<P> {
    /// Parses the payload of `IFLA_INFO_SLAVE_DATA` of a port of this kind.
    ///
    /// The result holds the attributes of the port kind's family, or the bytes if the port kind has
    /// none. [`InfoPortKind::Other`] has no family, whatever its name.
    ///
    /// The error is that of the first attribute in byte order whose header or value is rejected, or
    /// `(Frame, 0, Memory)` if an allocation fails first. Every other result depends on the payload
    /// and the port kind alone.
    ///
    /// [`InfoPortKind::Other`]: crate::layers::numbers::InfoPortKind::Other
    pub fn parse_with_param(
        payload: &[u8],
        kind: &InfoPortKind,
    ) -> Result<InfoPortDataOf<P>, DecodeError> {
        let mut count = HeaderCount::new();
        P::read_port_data(port_family_of(kind.tag()), payload, &mut count)
    }
}

/// Matches a family of ports, and expands `$call!`, of `calls`, for its data, as `of_lower!` does
/// for data of links.
macro_rules! of_port {
    ($layer:ty, $family:expr, $call:ident $given:tt) => {
        match $family {
            PortFamily::Bond => $call!(list(
                InfoPortDataOf::BondPort,
                <$layer as LinkLayer>::BondPort,
                ()
            ) $given),
            PortFamily::Bridge => $call!(list(
                InfoPortDataOf::BridgePort,
                <$layer as LinkLayer>::BridgePort,
                ()
            ) $given),
            PortFamily::Vrf => $call!(list(InfoPortDataOf::VrfPort, InfoVrfPort, ()) $given),
            PortFamily::Team => $call!(list(InfoPortDataOf::TeamPort, InfoTeamPort, ()) $given),
            PortFamily::Raw => $call!(bytes(InfoPortDataOf::Other) $given),
        }
    };
}

/// Encodes port data, as [`DataLayer::encode_port_data`] does: the encodings of the attributes, one
/// after another, or the bytes.
///
/// [`DataLayer::encode_port_data`]: crate::layers::data::DataLayer::encode_port_data
macro_rules! encode_port_data {
    ($value:expr, $encode:expr, $buffer:expr) => {
        match $value {
            InfoPortDataOf::BondPort(list) => $encode.list(list, $buffer),
            InfoPortDataOf::BridgePort(list) => $encode.list(list, $buffer),
            InfoPortDataOf::VrfPort(list) => $encode.list(list, $buffer),
            InfoPortDataOf::TeamPort(list) => $encode.list(list, $buffer),
            InfoPortDataOf::Other(bytes) => $encode.bytes(bytes.as_slice(), $buffer),
        }
    };
}

pub(crate) use encode_port_data;
pub(crate) use of_port;

/// Written as an attribute of type 5 (`IFLA_INFO_SLAVE_DATA`). The payload is the encodings of the
/// attributes, one after another.
impl<P: LinkLayer + DataLayer<PortData = InfoPortDataOf<P>>> Nla for InfoPortDataOf<P> {
    #[inline]
    fn value_len(&self) -> usize {
        self.fit_len().unwrap_or(0)
    }

    #[inline]
    fn kind(&self) -> u16 {
        IFLA_INFO_SLAVE_DATA
    }

    #[inline]
    fn emit_payload(&self, buffer: &mut [u8]) -> usize {
        P::encode_port_data(self, Write, buffer)
    }

    #[inline]
    fn emit_value(&self, buffer: &mut [u8]) {
        self.emit_payload(buffer);
    }

    #[inline]
    fn fit_len(&self) -> Option<usize> {
        P::encode_port_data(self, FitLen, &mut [])
    }
}

impl<P: LinkLayer> ExactEq for InfoPortDataOf<P>
where
    P::Bond: ExactEq + Eq,
    P::Bridge: ExactEq + Eq,
    P::Vlan: ExactEq + Eq,
    P::Can: ExactEq + Eq,
    P::Hsr: ExactEq + Eq,
    P::Dsa: ExactEq + Eq,
    P::Tun: ExactEq + Eq,
    P::BondPort: ExactEq + Eq,
    P::BridgePort: ExactEq + Eq,
{
}
