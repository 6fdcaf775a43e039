// @generated from crates/linkinfo/src/lib.rt by rust/translate/run.

//! The contents of `IFLA_LINKINFO` (include/uapi/linux/if_link.h), the rtnetlink attribute that
//! describes a network link: parsed, validated, compared and serialized.
//!
//! The names here are for programs that read and write lists, in groups: lists; values of data;
//! data alone; and iteration over attributes. Those for authors of a family of attributes, of a
//! peer or of a flag set are in `families`.

mod canonical;
mod canonical_into;
mod collection;
mod difference;
pub mod families;
mod item;
mod link_info;
mod list;
mod named;
mod placed;
mod request;
mod role;
mod standing;
pub mod typed;
mod unmet_walk;
mod walk;
mod xstats;

// Lists: parsed, serialized, validated and compared.
pub use crate::layers::data::{InfoData, InfoDataOf, InfoPortData, InfoPortDataOf};
pub use crate::layers::names::{AttributeUse, Explanation, attribute_name, attribute_use};
pub use crate::layers::nla_frame::{
    Bytes, Cause, DecodeError, DefaultNla, Emitable, ExactEq, Family, HeaderCount, Nla, Nlas,
    Parseable, ParseableParametrized, Text, ToVecError, emit_nlas, is_equal, nlas_buffer_len,
    nlas_fit_len, nlas_to_vec,
};
pub use crate::layers::numbers::{
    IFLA_INFO_DATA, IFLA_INFO_KIND, IFLA_INFO_SLAVE_DATA, IFLA_INFO_SLAVE_KIND, IFLA_INFO_XSTATS,
    InfoKind, InfoPortKind, KindTag, PortTag, port_tag_of_name, tag_of_name,
};
pub use canonical::{CanonError, canon, canon_of};
pub use canonical_into::{CanonIntoError, canon_into, canon_into_of};
pub use difference::{first_difference, first_difference_of};
pub use link_info::{LinkInfo, LinkInfoOf};
pub use list::{
    VecLinkInfo, VecLinkInfoOf, check, check_counted, check_counted_of, check_of, same, same_at,
    same_at_of, same_counted, same_counted_of, same_of,
};
pub use placed::{ErrorAt, ErrorIn, check_at, check_at_of};
pub use request::{first_unmet, first_unmet_of, next_unmet, next_unmet_of};
pub use standing::{AttributeAt, attribute_at};
pub use unmet_walk::{UnmetAttributes, unmet};
pub use walk::{LinkInfoItem, LinkInfoWalk};
pub use xstats::LinkXstats;

// Values of the data of links and of ports: the attributes of each family, their numbers and their
// flags (`Flags` has their bits).
pub use bitflags::Flags;
// Begin: written by tables/generate from tables/kinds (device).
pub use crate::layers::devices::{
    InfoIpVlan, InfoIpVtap, InfoIpoib, InfoMacSec, InfoMacVlan, InfoMacVtap, InfoRmNet, InfoVrf,
    InfoXfrm,
};
// End: written by tables/generate.
pub use crate::layers::devices::{InfoIpVlanOf, InfoVrfPort};
// Begin: written by tables/generate from tables/numbers.
pub use crate::layers::numbers::{
    AmtMode, BondAdSelect, BondAllPortActive, BondArpAllTargets, BondArpValidate, BondFailOverMac,
    BondLacpRate, BondMode, BondPortState, BondPrimaryReselect, BondXmitHashPolicy,
    BridgeBooleanOptionFlags, BridgeBooleanOptions, BridgeMulticastRouterType, BridgePortState,
    BridgeStpMode, BridgeStpState, CanClock, CanCtrlMode, CanCtrlModeFlags, CanState, ChurnState,
    ErSpanDir, EthernetProtocol, GeneveDf, GreEncapFlags, GreEncapType, GreIOFlags, GtpRole,
    HsrProtocol, InfoRmNetFlags, Ip6TunnelFlags, IpProtocol, IpVlanFlags, IpVlanMode, IpVtapFlags,
    IpVtapMode, IpoibMode, LacpState, LacpState16, MacSecCipherId, MacSecOffload, MacSecValidate,
    MacVlanFlags, MacVlanMacAddressMode, MacVlanMode, MacVtapFlags, MacVtapMacAddressMode,
    MacVtapMode, MiiStatus, NetkitMode, NetkitPolicy, NetkitScrub, OnOff, OvpnMode, RmNetFlags,
    TunType, TunnelEncapFlags, TunnelEncapType, VlanFlags, VlanProtocol, VxlanDf,
};
// End: written by tables/generate.
// Begin: written by tables/generate from tables/kinds (peered).
pub use crate::layers::peers::{
    InfoBatAdv, InfoNetkitOf, InfoPfcp, InfoVethOf, InfoVxcanOf, InfoWireguard, InfoWwan,
};
// End: written by tables/generate.
pub use crate::layers::peers::{InfoNetkit, InfoTeamPort, InfoTun, InfoVeth, InfoVxcan};
// Begin: written by tables/generate from tables/kinds (lower).
pub use crate::layers::table::lower::{InfoBond, InfoBridge, InfoCan, InfoDsa, InfoHsr, InfoVlan};
// End: written by tables/generate.
pub use crate::layers::table::lower::{InfoBondPort, InfoBridgePort};
// Begin: written by tables/generate from tables/kinds (tunnel).
pub use crate::layers::tunnels::{
    InfoAmt, InfoBareUdp, InfoGeneve, InfoGre, InfoGre6, InfoGtp, InfoIpTunnel, InfoVti, InfoVxlan,
};
// End: written by tables/generate.

// The data of a link or of a port alone: the family of a kind, and payloads parsed, validated and
// compared by family. Also what of a payload is not met, where two payloads differ, and the offset
// of an error.
pub use crate::layers::data::{
    DataFamily, DeviceFamily, Difference, LowerFamily, PayloadFamily, PeeredFamily, PortFamily,
    TunnelFamily, Unmet, check_payload, family_of, list_difference, list_error, list_unmet,
    measure_payload, port_family_of, same_payloads, write_canonical_payload,
};

// Iteration over attributes: one attribute in a slice, an iterator, the last attribute of each
// type, numbers and addresses in payloads.
pub use crate::layers::nla_frame::{
    NlaBuffer, NlasIterator, next_attribute, parse_i32, parse_ip, parse_ipv4_addr, parse_ipv6_addr,
    parse_mac, parse_u8, parse_u16, parse_u16_be, parse_u32, parse_u32_be, parse_u64, parse_u64_be,
    without_nul,
};
pub use crate::layers::table::{LastOfType, PlacedNla, own_bytes};
