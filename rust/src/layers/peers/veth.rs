// @generated from crates/linkinfo_peers/src/veth.rt by rust/translate/run.

//! Veth links, which come in pairs: `VETH_INFO_*` (include/uapi/linux/veth.h).

use crate::compat::AllocError;
use crate::layers::nla_frame::{
    Bytes, DecodeError, DefaultNla, ExactEq, Family, HeaderCount, Nla, NlaBuffer, Parseable,
};
use crate::layers::peers::peer_row::PeerRow;
use crate::layers::table::{
    CustomRows, Decoded, Encodable, LinkFamily, LinkPeer, Lookup, PayloadRow, RowFamily, Slot,
    TableFamily, table_lookup,
};

/// An attribute in the data of a `veth` link, with a peer of type `P`.
#[derive(Debug, PartialEq, Eq, Hash, PartialOrd, Ord, Clone)]
pub enum InfoVethOf<P> {
    // Begin: written by tables/generate from tables/veth (variants).
    /// The peer of the pair (`VETH_INFO_PEER`).
    Peer(P),
    // End: written by tables/generate.
    /// An opaque attribute, of a type that has no variant here, kept verbatim.
    Other(DefaultNla),
}

/// An attribute in the data of a `veth` link, with the peer as opaque bytes.
pub type InfoVeth = InfoVethOf<Bytes>;

impl<P: LinkPeer> RowFamily for InfoVethOf<P> {
    type Context = ();

    const FAMILY: Family = Family::Veth;

    #[inline(always)]
    fn shape(_ctx: (), kind: u16) -> Lookup {
        table_lookup(Family::Veth, kind)
    }

    #[inline(always)]
    fn store_decoded<L: Slot<InfoVethOf<P>>>(
        slot: &mut L,
        _ctx: (),
        decoded: Decoded<'_>,
    ) -> Result<(), AllocError> {
        match decoded {
            Decoded::Typed(_, _) => unreachable!(),
            Decoded::Kept(nla) => slot.store(InfoVethOf::Other(nla)),
        }
    }

    fn to_encodable(&self) -> Encodable<'_> {
        match self {
            InfoVethOf::Peer(_) => Encodable::Custom,
            InfoVethOf::Other(nla) => Encodable::Kept(nla),
        }
    }
}

impl<P: LinkPeer> PayloadRow<InfoVethOf<P>> for PeerRow<P> {
    type Payload = P;

    const NUMBER: u16 = 1;

    const NESTED: bool = false;

    fn wrap(payload: P) -> InfoVethOf<P> {
        InfoVethOf::Peer(payload)
    }

    fn payload(value: &InfoVethOf<P>) -> Option<&P> {
        match value {
            InfoVethOf::Peer(peer) => Some(peer),
            InfoVethOf::Other(_) => None,
        }
    }
}

impl<P: LinkPeer> TableFamily for InfoVethOf<P> {
    type Custom = (PeerRow<P>, ());

    const IS_SET: bool = false;
}

impl<P: LinkPeer> Nla for InfoVethOf<P> {
    #[inline]
    fn value_len(&self) -> usize {
        <InfoVethOf<P> as TableFamily>::Custom::value_len(self)
    }

    #[inline]
    fn kind(&self) -> u16 {
        <InfoVethOf<P> as TableFamily>::Custom::kind(self)
    }

    #[inline]
    fn emit_value(&self, buffer: &mut [u8]) {
        self.emit_payload(buffer);
    }

    #[inline]
    fn emit_payload(&self, buffer: &mut [u8]) -> usize {
        <InfoVethOf<P> as TableFamily>::Custom::emit(self, buffer)
    }

    #[inline]
    fn fit_len(&self) -> Option<usize> {
        <InfoVethOf<P> as TableFamily>::Custom::fit_len(self)
    }
}

/// Reads the attribute. A rejected peer gives the error `(Veth, 1, Peer)`.
impl<'a, P: LinkPeer> Parseable<NlaBuffer<'a>> for InfoVethOf<P> {
    #[inline]
    fn parse(buffer: &NlaBuffer<'a>) -> Result<InfoVethOf<P>, DecodeError> {
        <InfoVethOf<P> as LinkFamily>::read(buffer, (), &mut HeaderCount::new())
    }
}

impl<P: LinkPeer> ExactEq for InfoVethOf<P> {}
