// @generated from crates/linkinfo_peers/src/netkit.rt by rust/translate/run.

//! Netkit links, which come in pairs: `IFLA_NETKIT_*` (include/uapi/linux/if_link.h).

use crate::compat::AllocError;
use crate::layers::nla_frame::{
    Bytes, DecodeError, DefaultNla, ExactEq, Family, HeaderCount, Nla, NlaBuffer, Parseable,
};
use crate::layers::numbers::{NetkitMode, NetkitPolicy, NetkitScrub};
use crate::layers::peers::peer_row::PeerRow;
use crate::layers::table::{
    CustomRows, Decoded, Encodable, LinkFamily, LinkPeer, Lookup, PayloadRow, RowFamily, Slot,
    TableFamily, encodable_by_rows, store_by_rows, table_lookup,
};

/// An attribute in the data of a `netkit` link, with a peer of type `P`.
#[derive(Debug, PartialEq, Eq, Hash, PartialOrd, Ord, Clone)]
pub enum InfoNetkitOf<P> {
    // Begin: written by tables/generate from tables/netkit (variants).
    /// The peer of the pair (`IFLA_NETKIT_PEER_INFO`).
    Peer(P),
    /// Whether this is the primary device of the pair (`IFLA_NETKIT_PRIMARY`), one byte.
    Primary(bool),
    /// Policy without a BPF program at the primary device (`IFLA_NETKIT_POLICY`), little-endian.
    Policy(NetkitPolicy),
    /// Policy without a BPF program at the peer (`IFLA_NETKIT_PEER_POLICY`), little-endian.
    PeerPolicy(NetkitPolicy),
    /// Mode, `l2` or `l3` (`IFLA_NETKIT_MODE`), little-endian.
    Mode(NetkitMode),
    /// Scrubbing of mark and priority at the primary device (`IFLA_NETKIT_SCRUB`), little-endian.
    Scrub(NetkitScrub),
    /// Scrubbing of mark and priority at the peer (`IFLA_NETKIT_PEER_SCRUB`), little-endian.
    PeerScrub(NetkitScrub),
    /// Headroom before each packet in bytes (`IFLA_NETKIT_HEADROOM`), little-endian.
    Headroom(u16),
    /// Tailroom after each packet in bytes (`IFLA_NETKIT_TAILROOM`), little-endian.
    Tailroom(u16),
    // End: written by tables/generate.
    /// An opaque attribute, of a type that has no variant here, kept verbatim.
    Other(DefaultNla),
}

/// An attribute in the data of a `netkit` link, with the peer as opaque bytes.
pub type InfoNetkit = InfoNetkitOf<Bytes>;

macro_rules! rows {
    ($body:ident $given:tt) => {
        $body! { InfoNetkitOf $given;
            // Begin: written by tables/generate from tables/netkit (rows).
            (1, custom, Peer),
            (2, truth, Primary),
            (3, le32, Policy as NetkitPolicy),
            (4, le32, PeerPolicy as NetkitPolicy),
            (5, le32, Mode as NetkitMode),
            (6, scrub, Scrub by scrub_of, is_by_default),
            (7, scrub, PeerScrub by scrub_of, is_by_default),
            (8, le16, Headroom),
            (9, le16, Tailroom),
            // End: written by tables/generate.
        }
    };
}

impl<P: LinkPeer> RowFamily for InfoNetkitOf<P> {
    type Context = ();

    const FAMILY: Family = Family::Netkit;

    #[inline(always)]
    fn shape(_ctx: (), kind: u16) -> Lookup {
        table_lookup(Family::Netkit, kind)
    }

    #[inline(always)]
    fn store_decoded<L: Slot<InfoNetkitOf<P>>>(
        slot: &mut L,
        _ctx: (),
        decoded: Decoded<'_>,
    ) -> Result<(), AllocError> {
        rows!(store_by_rows(slot, decoded))
    }

    #[inline(always)]
    fn to_encodable(&self) -> Encodable<'_> {
        rows!(encodable_by_rows self)
    }
}

/// The scrubbing: default or none.
fn scrub_of(by_default: bool) -> NetkitScrub {
    NetkitScrub::from(u32::from(by_default))
}

fn is_by_default(scrub: NetkitScrub) -> bool {
    u32::from(scrub) != 0
}

impl<P: LinkPeer> PayloadRow<InfoNetkitOf<P>> for PeerRow<P> {
    type Payload = P;

    const NUMBER: u16 = 1;

    const NESTED: bool = false;

    fn wrap(payload: P) -> InfoNetkitOf<P> {
        InfoNetkitOf::Peer(payload)
    }

    fn payload(value: &InfoNetkitOf<P>) -> Option<&P> {
        match value {
            InfoNetkitOf::Peer(peer) => Some(peer),
            _ => None,
        }
    }
}

impl<P: LinkPeer> TableFamily for InfoNetkitOf<P> {
    type Custom = (PeerRow<P>, ());

    const IS_SET: bool = false;
}

impl<P: LinkPeer> Nla for InfoNetkitOf<P> {
    #[inline]
    fn value_len(&self) -> usize {
        <InfoNetkitOf<P> as TableFamily>::Custom::value_len(self)
    }

    #[inline]
    fn kind(&self) -> u16 {
        <InfoNetkitOf<P> as TableFamily>::Custom::kind(self)
    }

    #[inline]
    fn emit_value(&self, buffer: &mut [u8]) {
        self.emit_payload(buffer);
    }

    #[inline]
    fn emit_payload(&self, buffer: &mut [u8]) -> usize {
        <InfoNetkitOf<P> as TableFamily>::Custom::emit(self, buffer)
    }

    #[inline]
    fn fit_len(&self) -> Option<usize> {
        <InfoNetkitOf<P> as TableFamily>::Custom::fit_len(self)
    }
}

/// Reads the attribute. A rejected peer gives the error `(Netkit, 1, Peer)`, a payload of invalid
/// length `(Netkit, type, Length)`.
impl<'a, P: LinkPeer> Parseable<NlaBuffer<'a>> for InfoNetkitOf<P> {
    #[inline]
    fn parse(buffer: &NlaBuffer<'a>) -> Result<InfoNetkitOf<P>, DecodeError> {
        <InfoNetkitOf<P> as LinkFamily>::read(buffer, (), &mut HeaderCount::new())
    }
}

impl<P: LinkPeer> ExactEq for InfoNetkitOf<P> {}
