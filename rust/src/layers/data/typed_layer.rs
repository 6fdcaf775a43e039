// @generated from crates/linkinfo_data/src/typed_layer.rt by rust/translate/run.

//! The layer whose families have types.

use crate::layers::data::ask::Ask;
use crate::layers::data::calls::{ask, read};
use crate::layers::data::data::DataFamily;
use crate::layers::data::encode::Encode;
use crate::layers::data::info_data::{InfoDataOf, encode_data};
use crate::layers::data::layer::DataLayer;
use crate::layers::data::lower::{LowerFamily, of_lower};
use crate::layers::data::payload_family::PayloadFamily;
use crate::layers::data::port_data::{InfoPortDataOf, PortFamily, encode_port_data, of_port};
use crate::layers::devices::InfoVrfPort;
use crate::layers::nla_frame::{Bytes, DecodeError, HeaderCount};
use crate::layers::peers::InfoTeamPort;
use crate::layers::table::{LinkLayer, LinkPeer};
use crate::layers::typed::{
    InfoBond, InfoBondPort, InfoBridge, InfoBridgePort, InfoCan, InfoDsa, InfoHsr, InfoTun,
    InfoVlan,
};
use core::marker::PhantomData;

/// The layer whose peers are `P`, and whose attributes of `bond`, `bridge`, `can`, `dsa`, `hsr`,
/// `tun` and `vlan` links, and of ports of bonds and bridges, have types.
///
/// A list of links with such attributes is `VecLinkInfoOf<Typed<Bytes>>`.
#[derive(Clone, Debug, PartialEq, Eq, Hash, PartialOrd, Ord)]
pub struct Typed<P> {
    of: PhantomData<P>,
}

impl<P: LinkPeer> LinkLayer for Typed<P> {
    type Peer = P;

    type Bond = InfoBond;

    type Bridge = InfoBridge;

    type Vlan = InfoVlan;

    type Can = InfoCan;

    type Hsr = InfoHsr;

    type Dsa = InfoDsa;

    type Tun = InfoTun;

    type BondPort = InfoBondPort;

    type BridgePort = InfoBridgePort;
}

impl<P: LinkPeer> DataLayer for Typed<P> {
    type Data = InfoDataOf<Typed<P>>;

    type PortData = InfoPortDataOf<Typed<P>>;

    fn read_data(
        family: DataFamily,
        payload: &[u8],
        count: &mut HeaderCount,
    ) -> Result<InfoDataOf<Typed<P>>, DecodeError> {
        match family {
            DataFamily::Lower(family) => of_lower!(Typed<P>, family, read(payload, count)),
            DataFamily::Device(family) => family.read(payload, count),
            DataFamily::Tunnel(family) => family.read(payload, count),
            DataFamily::Peered(family) => family.read(payload, count),
            DataFamily::Raw => Ok(InfoDataOf::Other(Bytes::copy_of(payload)?)),
        }
    }

    #[inline(always)]
    fn ask_data<Q: Ask>(
        family: DataFamily,
        question: Q,
        count: &mut HeaderCount,
        buffer: &mut [u8],
    ) -> Q::Answer {
        match family {
            DataFamily::Lower(family) => of_lower!(Typed<P>, family, ask(question, count, buffer)),
            DataFamily::Device(family) => {
                PayloadFamily::<Typed<P>>::ask(family, question, count, buffer)
            }
            DataFamily::Tunnel(family) => {
                PayloadFamily::<Typed<P>>::ask(family, question, count, buffer)
            }
            DataFamily::Peered(family) => {
                PayloadFamily::<Typed<P>>::ask(family, question, count, buffer)
            }
            DataFamily::Raw => question.of_bytes(count, buffer),
        }
    }

    fn encode_data<E: Encode>(
        value: &InfoDataOf<Typed<P>>,
        encode: E,
        buffer: &mut [u8],
    ) -> E::Answer {
        encode_data!(value, encode, buffer)
    }

    fn read_port_data(
        family: PortFamily,
        payload: &[u8],
        count: &mut HeaderCount,
    ) -> Result<InfoPortDataOf<Typed<P>>, DecodeError> {
        of_port!(Typed<P>, family, read(payload, count))
    }

    #[inline(always)]
    fn ask_port_data<Q: Ask>(
        family: PortFamily,
        question: Q,
        count: &mut HeaderCount,
        buffer: &mut [u8],
    ) -> Q::Answer {
        of_port!(Typed<P>, family, ask(question, count, buffer))
    }

    fn encode_port_data<E: Encode>(
        value: &InfoPortDataOf<Typed<P>>,
        encode: E,
        buffer: &mut [u8],
    ) -> E::Answer {
        encode_port_data!(value, encode, buffer)
    }
}

/// The specification of the attributes of each family that the typed layer has in place of an
/// opaque one.
#[doc(hidden)]
pub trait TypedFamilies {}

/// The type that implements [`TypedFamilies`]. Only specifications name it: no call takes or
/// returns it.
///
/// [`TypedFamilies`]: crate::layers::data::TypedFamilies
#[doc(hidden)]
pub struct TypedRows;

impl TypedFamilies for TypedRows {}
