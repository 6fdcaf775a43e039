// @generated from crates/linkinfo_data/src/layer.rt by rust/translate/run.

//! Layers as data sees them: data and port data parsed, asked about and written by family, whatever
//! the families are that the layer supplies.

use crate::layers::data::ask::Ask;
use crate::layers::data::calls::{ask, read};
use crate::layers::data::data::DataFamily;
use crate::layers::data::encode::Encode;
use crate::layers::data::info_data::{InfoDataOf, encode_data};
use crate::layers::data::lower::{LowerFamily, of_lower};
use crate::layers::data::payload_family::PayloadFamily;
use crate::layers::data::port_data::{InfoPortDataOf, PortFamily, encode_port_data, of_port};
use crate::layers::devices::InfoVrfPort;
use crate::layers::nla_frame::{Bytes, DecodeError, HeaderCount};
use crate::layers::peers::InfoTeamPort;
use crate::layers::table::{LinkLayer, LinkPeer, Supplied};
use core::marker::PhantomData;

/// A layer, as what is made of data and of port data sees it: the types of both, and the calls on
/// them by family. Every [`LinkPeer`] implements it, and so do [`Typed`] of one and [`Layered`] of
/// each [`LinkLayer`], with [`InfoDataOf`] and [`InfoPortDataOf`].
///
/// Contracts of generic code speak of `families`, and know of them only that they are lawful.
///
/// [`LinkPeer`]: crate::layers::table::LinkPeer
/// [`Typed`]: crate::layers::data::Typed
/// [`Layered`]: crate::layers::data::Layered
/// [`LinkLayer`]: crate::layers::table::LinkLayer
/// [`InfoDataOf`]: crate::layers::data::InfoDataOf
/// [`InfoPortDataOf`]: crate::layers::data::InfoPortDataOf
pub trait DataLayer: Eq + Sized {
    /// The data of a link over the layer.
    type Data;

    /// The data of a port over the layer.
    type PortData;

    /// Parses a payload as data of a family, as [`PayloadFamily::read`] does.
    ///
    /// # Panics
    ///
    /// May panic where a condition of the caller that is named here does not hold. Where it does
    /// not panic then, the result has no meaning.
    ///
    /// [`PayloadFamily::read`]: crate::layers::data::PayloadFamily::read
    fn read_data(
        family: DataFamily,
        payload: &[u8],
        count: &mut HeaderCount,
    ) -> Result<Self::Data, DecodeError>;

    /// Makes a call that returns no parsed value, for payloads of data of a family. Does not
    /// allocate.
    ///
    /// # Panics
    ///
    /// May panic where a condition of the caller that is named here does not hold. Where it does
    /// not panic then, the result has no meaning.
    fn ask_data<Q: Ask>(
        family: DataFamily,
        question: Q,
        count: &mut HeaderCount,
        buffer: &mut [u8],
    ) -> Q::Answer;

    /// Encodes data: measures its canonical payload ([`FitLen`]), or writes it ([`Write`]).
    ///
    /// # Panics
    ///
    /// May panic where a condition of the caller that is named here does not hold. Where it does
    /// not panic then, the result has no meaning.
    ///
    /// [`FitLen`]: crate::layers::data::FitLen
    /// [`Write`]: crate::layers::data::Write
    fn encode_data<E: Encode>(value: &Self::Data, encode: E, buffer: &mut [u8]) -> E::Answer;

    /// Parses a payload as port data of a family, as [`PayloadFamily::read`] does.
    ///
    /// # Panics
    ///
    /// May panic where a condition of the caller that is named here does not hold. Where it does
    /// not panic then, the result has no meaning.
    ///
    /// [`PayloadFamily::read`]: crate::layers::data::PayloadFamily::read
    fn read_port_data(
        family: PortFamily,
        payload: &[u8],
        count: &mut HeaderCount,
    ) -> Result<Self::PortData, DecodeError>;

    /// Makes a call that returns no parsed value, for payloads of port data of a family. Does not
    /// allocate.
    ///
    /// # Panics
    ///
    /// May panic where a condition of the caller that is named here does not hold. Where it does
    /// not panic then, the result has no meaning.
    fn ask_port_data<Q: Ask>(
        family: PortFamily,
        question: Q,
        count: &mut HeaderCount,
        buffer: &mut [u8],
    ) -> Q::Answer;

    /// Encodes port data: measures its canonical payload ([`FitLen`]), or writes it ([`Write`]).
    ///
    /// # Panics
    ///
    /// May panic where a condition of the caller that is named here does not hold. Where it does
    /// not panic then, the result has no meaning.
    ///
    /// [`FitLen`]: crate::layers::data::FitLen
    /// [`Write`]: crate::layers::data::Write
    fn encode_port_data<E: Encode>(
        value: &Self::PortData,
        encode: E,
        buffer: &mut [u8],
    ) -> E::Answer;
}

/// The layer of a peer, whose families are opaque.
impl<P: LinkPeer> DataLayer for P {
    type Data = InfoDataOf<P>;

    type PortData = InfoPortDataOf<P>;

    fn read_data(
        family: DataFamily,
        payload: &[u8],
        count: &mut HeaderCount,
    ) -> Result<InfoDataOf<P>, DecodeError> {
        match family {
            DataFamily::Lower(family) => of_lower!(P, family, read(payload, count)),
            DataFamily::Device(family) => family.read(payload, count),
            DataFamily::Tunnel(family) => family.read(payload, count),
            DataFamily::Peered(family) => family.read(payload, count),
            DataFamily::Raw => Ok(InfoDataOf::Other(Bytes::copy_of(payload)?)),
        }
    }

    #[inline(always)]
    fn ask_data<Q: Ask>(
        family: DataFamily,
        question: Q,
        count: &mut HeaderCount,
        buffer: &mut [u8],
    ) -> Q::Answer {
        match family {
            DataFamily::Lower(family) => of_lower!(P, family, ask(question, count, buffer)),
            DataFamily::Device(family) => PayloadFamily::<P>::ask(family, question, count, buffer),
            DataFamily::Tunnel(family) => PayloadFamily::<P>::ask(family, question, count, buffer),
            DataFamily::Peered(family) => PayloadFamily::<P>::ask(family, question, count, buffer),
            DataFamily::Raw => question.of_bytes(count, buffer),
        }
    }

    fn encode_data<E: Encode>(value: &InfoDataOf<P>, encode: E, buffer: &mut [u8]) -> E::Answer {
        encode_data!(value, encode, buffer)
    }

    fn read_port_data(
        family: PortFamily,
        payload: &[u8],
        count: &mut HeaderCount,
    ) -> Result<InfoPortDataOf<P>, DecodeError> {
        of_port!(P, family, read(payload, count))
    }

    #[inline(always)]
    fn ask_port_data<Q: Ask>(
        family: PortFamily,
        question: Q,
        count: &mut HeaderCount,
        buffer: &mut [u8],
    ) -> Q::Answer {
        of_port!(P, family, ask(question, count, buffer))
    }

    fn encode_port_data<E: Encode>(
        value: &InfoPortDataOf<P>,
        encode: E,
        buffer: &mut [u8],
    ) -> E::Answer {
        encode_port_data!(value, encode, buffer)
    }
}

/// A [`LinkLayer`] of your own, as the layer of lists: `VecLinkInfoOf<Layered<MyLayer>>`.
///
/// [`LinkLayer`]: crate::layers::table::LinkLayer
#[derive(Clone, Debug, PartialEq, Eq, Hash, PartialOrd, Ord)]
pub struct Layered<L> {
    of: PhantomData<L>,
}

impl<L: LinkLayer> LinkLayer for Layered<L> {
    type Peer = L::Peer;

    type Bond = L::Bond;

    type Bridge = L::Bridge;

    type Vlan = L::Vlan;

    type Can = L::Can;

    type Hsr = L::Hsr;

    type Dsa = L::Dsa;

    type Tun = L::Tun;

    type BondPort = L::BondPort;

    type BridgePort = L::BridgePort;
}

impl<L: LinkLayer> DataLayer for Layered<L>
where
    L::Bond: Supplied,
    L::Bridge: Supplied,
    L::Vlan: Supplied,
    L::Can: Supplied,
    L::Hsr: Supplied,
    L::Dsa: Supplied,
    L::Tun: Supplied,
    L::BondPort: Supplied,
    L::BridgePort: Supplied,
{
    type Data = InfoDataOf<Layered<L>>;

    type PortData = InfoPortDataOf<Layered<L>>;

    fn read_data(
        family: DataFamily,
        payload: &[u8],
        count: &mut HeaderCount,
    ) -> Result<InfoDataOf<Layered<L>>, DecodeError> {
        match family {
            DataFamily::Lower(family) => of_lower!(Layered<L>, family, read(payload, count)),
            DataFamily::Device(family) => family.read(payload, count),
            DataFamily::Tunnel(family) => family.read(payload, count),
            DataFamily::Peered(family) => family.read(payload, count),
            DataFamily::Raw => Ok(InfoDataOf::Other(Bytes::copy_of(payload)?)),
        }
    }

    #[inline(always)]
    fn ask_data<Q: Ask>(
        family: DataFamily,
        question: Q,
        count: &mut HeaderCount,
        buffer: &mut [u8],
    ) -> Q::Answer {
        match family {
            DataFamily::Lower(family) => {
                of_lower!(Layered<L>, family, ask(question, count, buffer))
            }
            DataFamily::Device(family) => {
                PayloadFamily::<Layered<L>>::ask(family, question, count, buffer)
            }
            DataFamily::Tunnel(family) => {
                PayloadFamily::<Layered<L>>::ask(family, question, count, buffer)
            }
            DataFamily::Peered(family) => {
                PayloadFamily::<Layered<L>>::ask(family, question, count, buffer)
            }
            DataFamily::Raw => question.of_bytes(count, buffer),
        }
    }

    fn encode_data<E: Encode>(
        value: &InfoDataOf<Layered<L>>,
        encode: E,
        buffer: &mut [u8],
    ) -> E::Answer {
        encode_data!(value, encode, buffer)
    }

    fn read_port_data(
        family: PortFamily,
        payload: &[u8],
        count: &mut HeaderCount,
    ) -> Result<InfoPortDataOf<Layered<L>>, DecodeError> {
        of_port!(Layered<L>, family, read(payload, count))
    }

    #[inline(always)]
    fn ask_port_data<Q: Ask>(
        family: PortFamily,
        question: Q,
        count: &mut HeaderCount,
        buffer: &mut [u8],
    ) -> Q::Answer {
        of_port!(Layered<L>, family, ask(question, count, buffer))
    }

    fn encode_port_data<E: Encode>(
        value: &InfoPortDataOf<Layered<L>>,
        encode: E,
        buffer: &mut [u8],
    ) -> E::Answer {
        encode_port_data!(value, encode, buffer)
    }
}
