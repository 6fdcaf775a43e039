// @generated from crates/linkinfo_tests/src/tests/values.rt by rust/translate/run.

//! Worked examples and the lists that they parse as: at least one of each group of families, and of
//! each shape of data.

use super::assertions::assert_value;
use super::worked::{
    BAREUDP, BATADV, BOND_PORT, BRIDGE_PORT, DATA_TWICE, EMPTY_NAME, GRE_DISCOVERY,
    GRE_NO_DISCOVERY, GTP, IP6TNL_FLAGS, IPIP_FLAGS, IPOIB, IPVLAN, IPVLAN_NO_FLAGS, IPVTAP,
    LATER_KIND, MACVLAN_LIST, MACVLAN_SHORT_LIST, NETKIT_SCRUB, NETKIT_SCRUB_DEFAULT, OTHER_PORT,
    PFCP, PFCP_NO_NUL, PORT_DATA, SIT_FLAGS, TEAM_PORT, VETH, VETH_TAIL, VTI6, XSTATS,
};

/// A byte string, the canonical encoding of the same list, and the value that both parse as, as
/// `Debug` writes it.
const TUNNELS: &[(&str, &str, &str)] = &[
    (
        GTP,
        GTP,
        "[Kind(Gtp), Data(Gtp(Nlas { items: [CreateSockets(true), Role(Sgsn), PdpHashsize(1024)] }))]",
    ),
    (
        BAREUDP,
        BAREUDP,
        "[Kind(BareUdp), Data(BareUdp(Nlas { items: [Port(6635), Ethertype(MplsUc)] }))]",
    ),
    (
        IPIP_FLAGS,
        IPIP_FLAGS,
        "[Kind(IpIp), Data(IpTunnel(Nlas { items: [Ipv4Flags(16)] }))]",
    ),
    (
        SIT_FLAGS,
        SIT_FLAGS,
        "[Kind(SitTun), Data(IpTunnel(Nlas { items: [Ipv6SitFlags(16)] }))]",
    ),
    (
        IP6TNL_FLAGS,
        IP6TNL_FLAGS,
        "[Kind(Ip6Tnl), Data(IpTunnel(Nlas { items: [Ipv6Flags(Ip6TunnelFlags(65536))] }))]",
    ),
    (
        GRE_DISCOVERY,
        GRE_NO_DISCOVERY,
        "[Kind(GreTun), Data(GreTun(Nlas { items: [PathMTUDiscovery(false)] }))]",
    ),
    (
        VTI6,
        VTI6,
        "[Kind(Vti6), Data(Vti(Nlas { items: [IKey(9)] }))]",
    ),
];

/// Devices, as in `TUNNELS`.
const DEVICES: &[(&str, &str, &str)] = &[
    (
        IPVLAN,
        IPVLAN,
        "[Kind(IpVlan), Data(IpVlan(Nlas { items: [Mode(L2), Flags(IpVlanFlags(2))] }))]",
    ),
    (
        IPVLAN_NO_FLAGS,
        IPVLAN_NO_FLAGS,
        "[Kind(IpVlan), Data(IpVlan(Nlas { items: [Mode(L2), Flags(IpVlanFlags(0))] }))]",
    ),
    (
        IPVTAP,
        IPVTAP,
        "[Kind(IpVtap), Data(IpVtap(Nlas { items: [Mode(L2), Flags(IpVlanFlags(2))] }))]",
    ),
    (
        IPOIB,
        IPOIB,
        "[Kind(Ipoib), Data(Ipoib(Nlas { items: [Pkey(32769), Mode(Connected)] }))]",
    ),
    (
        MACVLAN_SHORT_LIST,
        MACVLAN_LIST,
        "[Kind(MacVlan), Data(MacVlan(Nlas { items: [MacAddrData(Nlas { items: [MacAddr([2, 0, 0, 0, 0, 1])] })] }))]",
    ),
    (
        NETKIT_SCRUB,
        NETKIT_SCRUB_DEFAULT,
        "[Kind(Netkit), Data(Netkit(Nlas { items: [Scrub(Default)] }))]",
    ),
    (
        BATADV,
        BATADV,
        r#"[Kind(BatAdv), Data(BatAdv(Nlas { items: [AlgoName(Text { text: "BATMAN_IV" })] }))]"#,
    ),
];

/// Ports, as in `TUNNELS`.
const PORTS: &[(&str, &str, &str)] = &[
    (
        BOND_PORT,
        BOND_PORT,
        "[PortKind(Bond), PortData(BondPort(Nlas { items: [Other(DefaultNla { kind: 1, value: Bytes { bytes: [1, 2, 3, 4] } })] }))]",
    ),
    (
        BRIDGE_PORT,
        BRIDGE_PORT,
        "[PortKind(Bridge), PortData(BridgePort(Nlas { items: [Other(DefaultNla { kind: 1, value: Bytes { bytes: [3] } })] }))]",
    ),
    (
        TEAM_PORT,
        TEAM_PORT,
        "[PortKind(Team), PortData(TeamPort(Nlas { items: [Other(DefaultNla { kind: 32769, value: Bytes { bytes: [7] } })] }))]",
    ),
];

/// Examples of the list itself, as in `TUNNELS`: its attributes, and the current kinds before them.
const LISTS: &[(&str, &str, &str)] = &[
    ("", "", "[]"),
    (PFCP_NO_NUL, PFCP, "[Kind(Pfcp)]"),
    (
        EMPTY_NAME,
        "05000100 00000000",
        r#"[Kind(Other(Text { text: "" }))]"#,
    ),
    (
        "09000180 7866726d 00000000",
        "09000100 7866726d 00000000",
        "[Kind(Xfrm)]",
    ),
    (
        DATA_TWICE,
        DATA_TWICE,
        "[Kind(Xfrm), Data(Xfrm(Nlas { items: [] })), Data(Xfrm(Nlas { items: [IfId(5)] }))]",
    ),
    (
        LATER_KIND,
        LATER_KIND,
        "[Kind(Vrf), Kind(Xfrm), Data(Xfrm(Nlas { items: [] }))]",
    ),
];

/// Examples of further attributes of the list, as in `TUNNELS`.
const ATTRIBUTES: &[(&str, &str, &str)] = &[
    (
        VETH_TAIL,
        VETH,
        "[Kind(Veth), Data(Veth(Peer(Bytes { bytes: [170, 187] })))]",
    ),
    (
        XSTATS,
        XSTATS,
        "[Kind(Can), Xstats(Other(Bytes { bytes: [1, 2] }))]",
    ),
    (
        PORT_DATA,
        PORT_DATA,
        "[PortKind(Vrf), PortData(VrfPort(Nlas { items: [] }))]",
    ),
    (
        OTHER_PORT,
        "06000400 78000000 05000500 07000000",
        r#"[PortKind(Other(Text { text: "x" })), PortData(Other(Bytes { bytes: [7] }))]"#,
    ),
    (
        "04000980",
        "04000980",
        "[Other(DefaultNla { kind: 32777, value: Bytes { bytes: [] } })]",
    ),
    (
        "04000900",
        "04000900",
        "[Other(DefaultNla { kind: 9, value: Bytes { bytes: [] } })]",
    ),
];

/// Asserts of each row that its byte string parses as the value, and is written as the canonical
/// encoding.
fn assert_values(rows: &[(&str, &str, &str)]) {
    for (text, canonical, value) in rows {
        assert_value(text, canonical, value);
    }
}

#[test]
fn worked_values() {
    assert_values(TUNNELS);
    assert_values(DEVICES);
    assert_values(PORTS);
    assert_values(LISTS);
    assert_values(ATTRIBUTES);
}
