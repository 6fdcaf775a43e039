// @generated from crates/linkinfo_peers/src/vxcan.rt by rust/translate/run.

//! Virtual CAN links that come in pairs: `VXCAN_INFO_*` (include/uapi/linux/can/vxcan.h).

use crate::compat::AllocError;
use crate::layers::nla_frame::{
    Bytes, DecodeError, DefaultNla, ExactEq, Family, HeaderCount, Nla, NlaBuffer, Parseable,
};
use crate::layers::peers::peer_row::PeerRow;
use crate::layers::table::{
    CustomRows, Decoded, Encodable, LinkFamily, LinkPeer, Lookup, PayloadRow, RowFamily, Slot,
    TableFamily, table_lookup,
};

/// An attribute in the data of a `vxcan` link, with a peer of type `P`.
#[derive(Debug, PartialEq, Eq, Hash, PartialOrd, Ord, Clone)]
pub enum InfoVxcanOf<P> {
    // Begin: written by tables/generate from tables/veth (variants).
    /// The peer of the pair (`VXCAN_INFO_PEER`).
    Peer(P),
    // End: written by tables/generate.
    /// An opaque attribute, of a type that has no variant here, kept verbatim.
    Other(DefaultNla),
}

/// An attribute in the data of a `vxcan` link, with the peer as opaque bytes.
pub type InfoVxcan = InfoVxcanOf<Bytes>;

impl<P: LinkPeer> RowFamily for InfoVxcanOf<P> {
    type Context = ();

    const FAMILY: Family = Family::Vxcan;

    #[inline(always)]
    fn shape(_ctx: (), kind: u16) -> Lookup {
        table_lookup(Family::Vxcan, kind)
    }

    #[inline(always)]
    fn store_decoded<L: Slot<InfoVxcanOf<P>>>(
        slot: &mut L,
        _ctx: (),
        decoded: Decoded<'_>,
    ) -> Result<(), AllocError> {
        match decoded {
            Decoded::Typed(_, _) => unreachable!(),
            Decoded::Kept(nla) => slot.store(InfoVxcanOf::Other(nla)),
        }
    }

    fn to_encodable(&self) -> Encodable<'_> {
        match self {
            InfoVxcanOf::Peer(_) => Encodable::Custom,
            InfoVxcanOf::Other(nla) => Encodable::Kept(nla),
        }
    }
}

impl<P: LinkPeer> PayloadRow<InfoVxcanOf<P>> for PeerRow<P> {
    type Payload = P;

    const NUMBER: u16 = 1;

    const NESTED: bool = false;

    fn wrap(payload: P) -> InfoVxcanOf<P> {
        InfoVxcanOf::Peer(payload)
    }

    fn payload(value: &InfoVxcanOf<P>) -> Option<&P> {
        match value {
            InfoVxcanOf::Peer(peer) => Some(peer),
            InfoVxcanOf::Other(_) => None,
        }
    }
}

impl<P: LinkPeer> TableFamily for InfoVxcanOf<P> {
    type Custom = (PeerRow<P>, ());

    const IS_SET: bool = false;
}

impl<P: LinkPeer> Nla for InfoVxcanOf<P> {
    #[inline]
    fn value_len(&self) -> usize {
        <InfoVxcanOf<P> as TableFamily>::Custom::value_len(self)
    }

    #[inline]
    fn kind(&self) -> u16 {
        <InfoVxcanOf<P> as TableFamily>::Custom::kind(self)
    }

    #[inline]
    fn emit_value(&self, buffer: &mut [u8]) {
        self.emit_payload(buffer);
    }

    #[inline]
    fn emit_payload(&self, buffer: &mut [u8]) -> usize {
        <InfoVxcanOf<P> as TableFamily>::Custom::emit(self, buffer)
    }

    #[inline]
    fn fit_len(&self) -> Option<usize> {
        <InfoVxcanOf<P> as TableFamily>::Custom::fit_len(self)
    }
}

/// Reads the attribute. A rejected peer gives the error `(Vxcan, 1, Peer)`.
impl<'a, P: LinkPeer> Parseable<NlaBuffer<'a>> for InfoVxcanOf<P> {
    #[inline]
    fn parse(buffer: &NlaBuffer<'a>) -> Result<InfoVxcanOf<P>, DecodeError> {
        <InfoVxcanOf<P> as LinkFamily>::read(buffer, (), &mut HeaderCount::new())
    }
}

impl<P: LinkPeer> ExactEq for InfoVxcanOf<P> {}
