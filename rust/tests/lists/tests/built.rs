// @generated from crates/linkinfo_tests/src/tests/built.rt by rust/translate/run.

//! Values that are built, written and parsed back: at least one of each group of families, and of
//! each shape of data.

use super::assertions::{assert_reads, copied, default_nla, link, nlas, text_of};
use super::worked::{
    BAREUDP, BATADV, BOND_PORT, BRIDGE_PORT, DATA_TWICE, EMPTY_NAME, GRE_DISCOVERY,
    GRE_NO_DISCOVERY, GTP, IP6TNL_FLAGS, IPIP_FLAGS, IPOIB, IPVLAN, IPVLAN_NO_FLAGS, IPVTAP,
    LATER_KIND, MACVLAN_LIST, MACVLAN_SHORT_LIST, NETKIT_SCRUB, NETKIT_SCRUB_DEFAULT, OTHER_PORT,
    PFCP, PFCP_NO_NUL, PORT_DATA, SIT_FLAGS, TEAM_PORT, VETH, VETH_TAIL, VTI6, XFRM, XSTATS,
};
use linkinfo::layers::link::{
    EthernetProtocol, GtpRole, InfoBareUdp, InfoBatAdv, InfoBondPort, InfoBridgePort, InfoData,
    InfoGre, InfoGtp, InfoIpTunnel, InfoIpVlan, InfoIpVtap, InfoIpoib, InfoKind, InfoMacVlan,
    InfoNetkit, InfoPortData, InfoPortKind, InfoTeamPort, InfoVeth, InfoVti, InfoXfrm,
    Ip6TunnelFlags, IpVlanFlags, IpVlanMode, IpoibMode, LinkInfo, LinkXstats, NetkitScrub, Nlas,
};

/// Asserts that the bytes of the text parse as a link of a kind with its data, which is written as
/// its canonical encoding.
fn assert_link(text: &str, kind: InfoKind, data: InfoData, canonical: &str) {
    assert_reads(text, link(kind, data), canonical);
}

#[test]
fn builds_tunnels() {
    let items = [
        InfoGtp::CreateSockets(true),
        InfoGtp::Role(GtpRole::Sgsn),
        InfoGtp::PdpHashsize(1024),
    ];
    let data = InfoData::Gtp(nlas(items));
    assert_link(GTP, InfoKind::Gtp, data, GTP);
    let items = [
        InfoBareUdp::Port(6635),
        InfoBareUdp::Ethertype(EthernetProtocol::MplsUc),
    ];
    let data = InfoData::BareUdp(nlas(items));
    assert_link(BAREUDP, InfoKind::BareUdp, data, BAREUDP);
    let data = InfoData::GreTun(nlas([InfoGre::PathMTUDiscovery(false)]));
    assert_link(GRE_DISCOVERY, InfoKind::GreTun, data, GRE_NO_DISCOVERY);
    let data = InfoData::Vti(nlas([InfoVti::IKey(9)]));
    assert_link(VTI6, InfoKind::Vti6, data, VTI6);
}

/// Asserts that a link of one of the kinds of `InfoIpTunnel` with these flags is written as the
/// bytes of the text, and that these parse as it.
fn assert_flags(kind: InfoKind, flags: InfoIpTunnel, string: &str) {
    let data = InfoData::IpTunnel(nlas([flags]));
    assert_link(string, kind, data, string);
}

#[test]
fn builds_flags_of_tunnels_by_kind() {
    let flags = InfoIpTunnel::Ipv4Flags(16);
    assert_flags(InfoKind::IpIp, flags, IPIP_FLAGS);
    let flags = InfoIpTunnel::Ipv6SitFlags(16);
    assert_flags(InfoKind::SitTun, flags, SIT_FLAGS);
    let flags = InfoIpTunnel::Ipv6Flags(Ip6TunnelFlags::CapXmit);
    assert_flags(InfoKind::Ip6Tnl, flags, IP6TNL_FLAGS);
}

/// Asserts that an ipvlan link with its mode and these flags is written as the bytes of the text,
/// and that these parse as it.
fn assert_ipvlan(flags: IpVlanFlags, string: &str) {
    let items = [InfoIpVlan::Mode(IpVlanMode::L2), InfoIpVlan::Flags(flags)];
    let data = InfoData::IpVlan(nlas(items));
    assert_link(string, InfoKind::IpVlan, data, string);
}

#[test]
fn builds_devices() {
    assert_ipvlan(IpVlanFlags::Vepa, IPVLAN);
    assert_ipvlan(IpVlanFlags::default(), IPVLAN_NO_FLAGS);
    let items = [
        InfoIpVtap::Mode(IpVlanMode::L2),
        InfoIpVtap::Flags(IpVlanFlags::Vepa),
    ];
    let data = InfoData::IpVtap(nlas(items));
    assert_link(IPVTAP, InfoKind::IpVtap, data, IPVTAP);
    let items = [
        InfoIpoib::Pkey(0x8001),
        InfoIpoib::Mode(IpoibMode::Connected),
    ];
    let data = InfoData::Ipoib(nlas(items));
    assert_link(IPOIB, InfoKind::Ipoib, data, IPOIB);
    let addresses = nlas([InfoMacVlan::MacAddr([2, 0, 0, 0, 0, 1])]);
    let data = InfoData::MacVlan(nlas([InfoMacVlan::MacAddrData(addresses)]));
    assert_link(MACVLAN_SHORT_LIST, InfoKind::MacVlan, data, MACVLAN_LIST);
}

#[test]
fn builds_peers() {
    let scrub = InfoNetkit::Scrub(NetkitScrub::Default);
    let data = InfoData::Netkit(nlas([scrub]));
    assert_link(NETKIT_SCRUB, InfoKind::Netkit, data, NETKIT_SCRUB_DEFAULT);
    let name = InfoBatAdv::AlgoName(text_of("BATMAN_IV"));
    let data = InfoData::BatAdv(nlas([name]));
    assert_link(BATADV, InfoKind::BatAdv, data, BATADV);
    let peer = InfoVeth::Peer(copied(&[0xaa, 0xbb]));
    assert_link(VETH_TAIL, InfoKind::Veth, InfoData::Veth(peer), VETH);
}

/// Asserts that the bytes of the text parse as a port of a kind with its data, which is written as
/// its canonical encoding.
fn assert_port(text: &str, kind: InfoPortKind, data: InfoPortData, canonical: &str) {
    let items = [LinkInfo::PortKind(kind), LinkInfo::PortData(data)];
    assert_reads(text, items, canonical);
}

#[test]
fn builds_ports() {
    let kept_by_bond = InfoBondPort::Other(default_nla(1, &[1, 2, 3, 4]));
    let data = InfoPortData::BondPort(nlas([kept_by_bond]));
    assert_port(BOND_PORT, InfoPortKind::Bond, data, BOND_PORT);
    let kept_by_bridge = InfoBridgePort::Other(default_nla(1, &[3]));
    let data = InfoPortData::BridgePort(nlas([kept_by_bridge]));
    assert_port(BRIDGE_PORT, InfoPortKind::Bridge, data, BRIDGE_PORT);
    // An attribute with the flag `NLA_F_NESTED` in its type.
    let kept_by_team = InfoTeamPort::Other(default_nla(0x8001, &[7]));
    let data = InfoPortData::TeamPort(nlas([kept_by_team]));
    assert_port(TEAM_PORT, InfoPortKind::Team, data, TEAM_PORT);
    let data = InfoPortData::VrfPort(nlas([]));
    assert_port(PORT_DATA, InfoPortKind::Vrf, data, PORT_DATA);
    // The kind `x` has no family.
    let kind = InfoPortKind::Other(text_of("x"));
    let data = InfoPortData::Other(copied(&[7]));
    let canonical = "06000400 78000000 05000500 07000000";
    assert_port(OTHER_PORT, kind, data, canonical);
}

#[test]
fn builds_kinds() {
    let pfcp = [LinkInfo::Kind(InfoKind::Pfcp)];
    assert_reads(PFCP_NO_NUL, pfcp, PFCP);
    let empty = [LinkInfo::Kind(InfoKind::Other(text_of("")))];
    assert_reads(EMPTY_NAME, empty, "05000100 00000000");
    let xfrm = [LinkInfo::Kind(InfoKind::Xfrm)];
    let marked = "09000180 7866726d 00000000";
    assert_reads(marked, xfrm, "09000100 7866726d 00000000");
}

/// The data of an xfrm link.
fn xfrm_data(items: Nlas<InfoXfrm>) -> LinkInfo {
    LinkInfo::Data(InfoData::Xfrm(items))
}

/// An xfrm link with two data attributes.
fn data_twice(none: Nlas<InfoXfrm>, identifier: Nlas<InfoXfrm>) -> [LinkInfo; 3] {
    [
        LinkInfo::Kind(InfoKind::Xfrm),
        xfrm_data(none),
        xfrm_data(identifier),
    ]
}

#[test]
fn builds_data() {
    let items = nlas([InfoXfrm::Link(2), InfoXfrm::IfId(10)]);
    let xfrm = [LinkInfo::Kind(InfoKind::Xfrm), xfrm_data(items)];
    assert_reads(XFRM, xfrm, XFRM);
    let identifier = nlas([InfoXfrm::IfId(5)]);
    let twice = data_twice(Nlas::new(Vec::new()), identifier);
    assert_reads(DATA_TWICE, twice, DATA_TWICE);
    // A kind that replaces another.
    let later = [
        LinkInfo::Kind(InfoKind::Vrf),
        LinkInfo::Kind(InfoKind::Xfrm),
        xfrm_data(Nlas::new(Vec::new())),
    ];
    assert_reads(LATER_KIND, later, LATER_KIND);
}

/// Asserts that an attribute of an unknown type, without a payload, is written as the bytes of the
/// text, and that these parse as it.
fn assert_unknown(kind: u16, string: &str) {
    let unknown = [LinkInfo::Other(default_nla(kind, &[]))];
    assert_reads(string, unknown, string);
}

#[test]
fn builds_statistics_and_unknown_attributes() {
    assert_reads("", [], "");
    let xstats = LinkXstats::Other(copied(&[1, 2]));
    let can = [LinkInfo::Kind(InfoKind::Can), LinkInfo::Xstats(xstats)];
    assert_reads(XSTATS, can, XSTATS);
    assert_unknown(0x8009, "04000980");
    assert_unknown(9, "04000900");
}
