//! The contents of `IFLA_LINKINFO`, the rtnetlink attribute that describes the type of a link
//! (vxlan, bond, macvlan ..): parsed, validated, compared and serialized.
//!
//! - [`VecLinkInfo::parse`] parses a list, or returns the first error; [`VecLinkInfo::to_vec`]
//!   writes its one canonical encoding.
//! - [`check`] and [`same`] validate and compare encodings without allocating memory.
//! - [`first_unmet`] returns the first attribute of a request that a link does not meet, [`unmet`]
//!   iterates over all of them, and [`first_difference`] returns where two lists differ first.
//! - [`canon`] and [`canon_into`] write the canonical encoding of the list that an encoding means.
//! - [`LinkInfoWalk`] iterates over the borrowed attributes.
//! - [`messages`] finds link info in the bytes of a netlink socket, and in captures of it.
//!
//! ```
//! use linkinfo::{InfoData, InfoKind, InfoVxlan, LinkInfo, VecLinkInfo, check_at};
//!
//! # fn main() -> Result<(), Box<dyn std::error::Error>> {
//! let list = VecLinkInfo::from([
//!     LinkInfo::Kind(InfoKind::Vxlan),
//!     LinkInfo::Data(InfoData::Vxlan([InfoVxlan::Id(42), InfoVxlan::Port(4789)].into())),
//! ]);
//! let bytes = list.to_vec()?;
//! // Validating allocates nothing. The text of its error is a sentence. `main` prints
//! // `Debug` of what it returns, so it gets the text.
//! check_at(&bytes).map_err(|error| error.to_string())?;
//! assert_eq!(VecLinkInfo::try_from(bytes.as_slice())?, list);
//!
//! // Data without a kind before it: the bytes after the first attribute, of 12 bytes.
//! let error = check_at(&bytes[12..]).unwrap_err();
//! assert_eq!(error.to_string(), "IFLA_INFO_DATA before IFLA_INFO_KIND, at offset 0");
//! assert_eq!(error.error.to_string(), "linkinfo 2 order");
//! # Ok(())
//! # }
//! ```
//!
//! The links in the bytes of a netlink socket, here of one message:
//!
//! ```
//! use linkinfo::messages::{LinkEvent, LinkMessages};
//!
//! let received = [
//!     // struct nlmsghdr: length 44, RTM_NEWLINK
//!     44, 0, 0, 0, 16, 0, 0, 0, 0, 0, 0, 0, 0, 0, 0, 0,
//!     // struct ifinfomsg: index 7, IFF_UP
//!     0, 0, 1, 0, 7, 0, 0, 0, 1, 0, 0, 0, 0, 0, 0, 0,
//!     // IFLA_LINKINFO (18), with IFLA_INFO_KIND (1) "vrf"
//!     12, 0, 18, 0, 8, 0, 1, 0, b'v', b'r', b'f', 0,
//! ];
//! for link in LinkMessages::new(&received) {
//!     let link = link?;
//!     assert_eq!((link.event, link.index, link.flags), (LinkEvent::New, 7, 1));
//!     assert_eq!(link.info.map(|info| linkinfo::check(info.bytes)), Some(Ok(())));
//! }
//! # Ok::<(), linkinfo::messages::MessageError>(())
//! ```
//!
//! # Where to find what
//!
//! - **A list and its data**: [`VecLinkInfo`] has attributes [`LinkInfo`]: a kind [`InfoKind`],
//!   data [`InfoData`], a port kind [`InfoPortKind`], port data [`InfoPortData`], and statistics
//!   [`LinkXstats`]. [`Nlas`], [`Bytes`], [`Text`] and [`DefaultNla`] are what they own.
//!   [`LinkInfoWalk`] borrows them. [`nlas_fit_len`] and [`emit_nlas`] write into a buffer.
//! - **Validating and comparing encodings**: [`check`], [`check_at`], [`same`], [`same_at`],
//!   [`first_unmet`], [`next_unmet`] and the iterator [`unmet`] with [`Unmet`],
//!   [`first_difference`] with [`Difference`], [`canon`] and [`canon_into`]. [`attribute_at`] is
//!   the attribute that one of their offsets points to. Those that end in `_of` take another layer,
//!   such as another type of peer, and those with `counted` a [`HeaderCount`] for the headers
//!   examined.
//! - **Errors**: [`DecodeError`] has a [`Family`], a type and a [`Cause`]. [`ErrorAt`] adds the
//!   offset, and is displayed as a sentence, as [`Explanation`] is. [`ErrorIn`] says which of two
//!   lists has the error; [`ErrorIn::at`] adds the offset. [`ToVecError`], [`CanonError`] and
//!   [`CanonIntoError`] are those of writing, [`AllocError`] and [`AllocFailed`] those of memory.
//!   [`attribute_name`] is the kernel's name of a type, and [`attribute_use`] how the kernel uses
//!   it.
//! - **Families of attributes**: one enum for the data of each kind or of several, as
//!   [`InfoVxlan`], [`InfoGre`] or [`InfoMacSec`]. Those of bond, bridge, vlan and others are kept
//!   verbatim ([`InfoBond`], [`InfoBridge`], [`InfoVlan`]).
//! - **Typed attributes of bond, bridge, vlan and other links**: the module [`typed`] has lists,
//!   data and calls by the same names, over a layer in which the attributes of bond, bridge, can,
//!   dsa, hsr, tun and vlan links, and of ports of bonds and bridges, have types
//!   ([`typed::InfoVlan`]). Import the module, or some names of it: its names are those of the
//!   root. [`LinkLayer`] is for a layer of your own.
//! - **Peers** of veth, vxcan and netkit links: a type that implements [`LinkPeer`], in
//!   [`VecLinkInfoOf`], [`InfoDataOf`], [`InfoVethOf`] and so on. [`VecLinkInfo`] keeps them as
//!   [`Bytes`].
//! - **Numbers and flags**: as [`VxlanDf`], [`MacVlanMode`] and [`GreIOFlags`]; [`Flags`] has the
//!   bits of a set. [`KindTag`] and [`PortTag`] are kinds without their text.
//! - **Messages and captures**: [`LinkMessages`] and [`Capture`]; the module [`messages`] has what
//!   they yield.
//!
//! The calls at the root accept every input, but for those that say otherwise under "Panics":
//! [`emit_nlas`] requires a buffer of the right length, and the counted calls a counter at zero.
//! What is in [`layers`] is for authors of a family of attributes or of a peer: many calls there
//! have conditions for their caller, and panic where one does not hold.
//!
//! Values are compared, ordered and hashed by their fields in the order of their declaration; so
//! the order of numbers that have a name is that of the variants, and every number without one is
//! after them.
//!
//! Most of the crate is translated from sources that are proved against their contracts. The crate
//! itself is not proved: `docs/RUST.md` of the repository says what may be claimed of it.
//!
//! `clone`, `collect`, `extend`, and `From` of arrays, slices and `&str` abort the process where
//! memory runs out, as those of `alloc` do. Every other call reports it.
//!
//! # Features
//!
//! - `std`, on by default: `From<AllocError> for std::io::Error`.
//! - `netlink-packet-core`: the list is the attribute `IFLA_LINKINFO` by the traits `Nla`,
//!   `Emitable` and `Parseable` of that crate.
#![no_std]
#![forbid(unsafe_code)]

#[cfg(not(all(target_endian = "little", target_pointer_width = "64")))]
compile_error!("linkinfo is for little-endian targets with 64-bit pointers");

/// The example of the README, as a test.
#[cfg(doctest)]
#[doc = include_str!("../README.md")]
pub struct Readme;

extern crate alloc;
#[cfg(feature = "std")]
extern crate std;

#[doc(hidden)]
pub mod compat;
mod conversions;
mod display;
pub mod layers;
#[cfg(feature = "netlink-packet-core")]
mod netlink_packet_core;
mod operators;
mod orders;

// The list, its data, and what they own.
#[doc(inline)]
pub use layers::data::{DataLayer, InfoData, InfoDataOf, InfoPortData, InfoPortDataOf};
#[doc(inline)]
pub use layers::link::typed;
#[doc(inline)]
pub use layers::link::{
    LinkInfo, LinkInfoItem, LinkInfoOf, LinkInfoWalk, LinkXstats, VecLinkInfo, VecLinkInfoOf,
};
#[doc(inline)]
pub use layers::nla_frame::{Bytes, DefaultNla, Nlas, Text, emit_nlas, nlas_fit_len};
#[doc(inline)]
pub use layers::numbers::{
    IFLA_INFO_DATA, IFLA_INFO_KIND, IFLA_INFO_SLAVE_DATA, IFLA_INFO_SLAVE_KIND, IFLA_INFO_XSTATS,
    InfoKind, InfoPortKind, KindTag, PortTag, port_tag_of_name, tag_of_name,
};

// Encodings validated, compared and made canonical.
#[doc(inline)]
pub use layers::data::{Difference, Unmet};
#[doc(inline)]
pub use layers::link::{AttributeAt, UnmetAttributes, attribute_at};
#[doc(inline)]
pub use layers::link::{
    canon, canon_into, canon_into_of, canon_of, check, check_at, check_at_of, check_counted,
    check_counted_of, check_of, first_difference, first_difference_of, first_unmet, first_unmet_of,
    next_unmet, next_unmet_of, same, same_at, same_at_of, same_counted, same_counted_of, same_of,
    unmet,
};
#[doc(inline)]
pub use layers::nla_frame::HeaderCount;

// Errors.
#[doc(inline)]
pub use compat::{AllocError, AllocFailed};
#[doc(inline)]
pub use layers::link::{CanonError, CanonIntoError, ErrorAt, ErrorIn};
#[doc(inline)]
pub use layers::names::{AttributeUse, Explanation, attribute_name, attribute_use};
#[doc(inline)]
pub use layers::nla_frame::{Cause, DecodeError, Family, ToVecError};

// The attributes of each family.
#[doc(inline)]
// Begin: written by tables/generate from tables/kinds (device).
pub use layers::devices::{
    InfoIpVlan, InfoIpVtap, InfoIpoib, InfoMacSec, InfoMacVlan, InfoMacVtap, InfoRmNet, InfoVrf,
    InfoXfrm,
};
// End: written by tables/generate.
#[doc(inline)]
pub use layers::devices::InfoVrfPort;
#[doc(inline)]
// Begin: written by tables/generate from tables/kinds (lower).
pub use layers::lower::{InfoBond, InfoBridge, InfoCan, InfoDsa, InfoHsr, InfoVlan};
// End: written by tables/generate.
#[doc(inline)]
pub use layers::lower::{InfoBondPort, InfoBridgePort};
#[doc(inline)]
// Begin: written by tables/generate from tables/kinds (peered).
pub use layers::peers::{
    InfoBatAdv, InfoNetkitOf, InfoPfcp, InfoVethOf, InfoVxcanOf, InfoWireguard, InfoWwan,
};
// End: written by tables/generate.
#[doc(inline)]
pub use layers::peers::InfoTeamPort;
#[doc(inline)]
// Begin: written by tables/generate from tables/kinds (tunnel).
pub use layers::tunnels::{
    InfoAmt, InfoBareUdp, InfoGeneve, InfoGre, InfoGre6, InfoGtp, InfoIpTunnel, InfoVti, InfoVxlan,
};
// End: written by tables/generate.

// Families with a peer, custom peers, families and layers.
#[doc(inline)]
pub use layers::peers::{InfoNetkit, InfoVeth, InfoVxcan};
#[doc(inline)]
pub use layers::table::{LinkFamily, LinkLayer, LinkPeer, PeerFault};

// Numbers and flags.
#[doc(inline)]
pub use bitflags::Flags;
#[doc(inline)]
// Begin: written by tables/generate from tables/numbers.
pub use layers::numbers::{
    AmtMode, BondAdSelect, BondAllPortActive, BondArpAllTargets, BondArpValidate, BondFailOverMac,
    BondLacpRate, BondMode, BondPortState, BondPrimaryReselect, BondXmitHashPolicy,
    BridgeBooleanOptionFlags, BridgeBooleanOptions, BridgeMulticastRouterType, BridgePortState,
    BridgeStpMode, BridgeStpState, CanClock, CanCtrlMode, CanCtrlModeFlags, CanState, ChurnState,
    ErSpanDir, EthernetProtocol, GeneveDf, GreEncapFlags, GreEncapType, GreIOFlags, GtpRole,
    HsrProtocol, InfoRmNetFlags, Ip6TunnelFlags, IpProtocol, IpVlanFlags, IpVlanMode, IpVtapFlags,
    IpVtapMode, IpoibMode, LacpState, LacpState16, MacSecCipherId, MacSecOffload, MacSecValidate,
    MacVlanFlags, MacVlanMacAddressMode, MacVlanMode, MacVtapFlags, MacVtapMacAddressMode,
    MacVtapMode, MiiStatus, NetkitMode, NetkitPolicy, NetkitScrub, OnOff, OvpnMode, RmNetFlags,
    TunType, TunnelEncapFlags, TunnelEncapType, VlanFlags, VlanProtocol, VxlanDf,
};
// End: written by tables/generate.

// Link info in netlink messages and captures.
#[doc(inline)]
pub use layers::messages;
#[doc(inline)]
pub use layers::messages::{Capture, LinkMessages};
