// @generated from crates/linkinfo_layers_tests/src/tests/numbers.rt by rust/translate/run.

//! Each number type, converted both ways.

use super::assertions::assert_is;
use linkinfo::layers::numbers::{
    AmtMode, BridgeMulticastRouterType, CanClock, ErSpanDir, EthernetProtocol, GeneveDf,
    GreEncapType, GtpRole, HsrProtocol, IpProtocol, IpVlanMode, IpoibMode, MacSecCipherId,
    MacSecOffload, MacSecValidate, MacVlanMacAddressMode, MacVlanMode, NetkitMode, NetkitPolicy,
    NetkitScrub, OnOff, OvpnMode, TunType, TunnelEncapType, VlanProtocol, VxlanDf,
};
use std::fmt::Debug;

/// Asserts that each number gives its value, and each value its number.
fn check_both_ways<N, T>(rows: &[(N, T)])
where
    N: From<T> + Copy + PartialEq + Debug,
    T: From<N> + Copy + PartialEq + Debug,
{
    for (number, value) in rows {
        assert_is(("value of", number), T::from(*number), *value);
        assert_is(("number of", value), N::from(*value), *number);
    }
}

// The named numbers of each type, the numbers next to them, and the largest.

const AMT_MODES: &[(u32, AmtMode)] = &[
    (0, AmtMode::Gateway),
    (1, AmtMode::Relay),
    (2, AmtMode::Other(2)),
    (u32::MAX, AmtMode::Other(u32::MAX)),
];

const GENEVE_DFS: &[(u8, GeneveDf)] = &[
    (0, GeneveDf::Unset),
    (1, GeneveDf::Set),
    (2, GeneveDf::Inherit),
    (3, GeneveDf::Other(3)),
    (u8::MAX, GeneveDf::Other(u8::MAX)),
];

const VXLAN_DFS: &[(u8, VxlanDf)] = &[
    (0, VxlanDf::Unset),
    (1, VxlanDf::Set),
    (2, VxlanDf::Inherit),
    (3, VxlanDf::Other(3)),
    (u8::MAX, VxlanDf::Other(u8::MAX)),
];

const GTP_ROLES: &[(u32, GtpRole)] = &[
    (0, GtpRole::Ggsn),
    (1, GtpRole::Sgsn),
    (2, GtpRole::Other(2)),
    (u32::MAX, GtpRole::Other(u32::MAX)),
];

const TUNNEL_ENCAP_TYPES: &[(u16, TunnelEncapType)] = &[
    (0, TunnelEncapType::None),
    (1, TunnelEncapType::Fou),
    (2, TunnelEncapType::Gue),
    (3, TunnelEncapType::Mpls),
    (4, TunnelEncapType::Other(4)),
    (u16::MAX, TunnelEncapType::Other(u16::MAX)),
];

const VLAN_PROTOCOLS: &[(u16, VlanProtocol)] = &[
    (0x8100, VlanProtocol::Ieee8021Q),
    (0x88a8, VlanProtocol::Ieee8021Ad),
    (0x0081, VlanProtocol::Other(0x0081)),
    (0, VlanProtocol::Other(0)),
    (u16::MAX, VlanProtocol::Other(u16::MAX)),
];

const ETHERNET_PROTOCOLS: &[(u16, EthernetProtocol)] = &[
    (0x8846, EthernetProtocol::Other(0x8846)),
    (0x8847, EthernetProtocol::MplsUc),
    (0x8848, EthernetProtocol::Other(0x8848)),
    (0, EthernetProtocol::Other(0)),
    (u16::MAX, EthernetProtocol::Other(u16::MAX)),
];

const IP_PROTOCOLS: &[(u8, IpProtocol)] = &[
    (0, IpProtocol::Other(0)),
    (3, IpProtocol::Other(3)),
    (4, IpProtocol::Ipip),
    (5, IpProtocol::Other(5)),
    (40, IpProtocol::Other(40)),
    (41, IpProtocol::Ipv6),
    (42, IpProtocol::Other(42)),
    (136, IpProtocol::Other(136)),
    (137, IpProtocol::Mpls),
    (138, IpProtocol::Other(138)),
    (u8::MAX, IpProtocol::Other(u8::MAX)),
];

const IPOIB_MODES: &[(u16, IpoibMode)] = &[
    (0, IpoibMode::Datagram),
    (1, IpoibMode::Connected),
    (2, IpoibMode::Other(2)),
    (u16::MAX, IpoibMode::Other(u16::MAX)),
];

const IP_VLAN_MODES: &[(u16, IpVlanMode)] = &[
    (0, IpVlanMode::L2),
    (1, IpVlanMode::L3),
    (2, IpVlanMode::L3S),
    (3, IpVlanMode::Other(3)),
    (u16::MAX, IpVlanMode::Other(u16::MAX)),
];

const MAC_VLAN_MODES: &[(u32, MacVlanMode)] = &[
    (0, MacVlanMode::Other(0)),
    (1, MacVlanMode::Private),
    (2, MacVlanMode::Vepa),
    (3, MacVlanMode::Other(3)),
    (4, MacVlanMode::Bridge),
    (5, MacVlanMode::Other(5)),
    (7, MacVlanMode::Other(7)),
    (8, MacVlanMode::Passthrough),
    (9, MacVlanMode::Other(9)),
    (15, MacVlanMode::Other(15)),
    (16, MacVlanMode::Source),
    (17, MacVlanMode::Other(17)),
    (u32::MAX, MacVlanMode::Other(u32::MAX)),
];

const MAC_VLAN_MAC_ADDRESS_MODES: &[(u32, MacVlanMacAddressMode)] = &[
    (0, MacVlanMacAddressMode::Add),
    (1, MacVlanMacAddressMode::Del),
    (2, MacVlanMacAddressMode::Flush),
    (3, MacVlanMacAddressMode::Set),
    (4, MacVlanMacAddressMode::Other(4)),
    (u32::MAX, MacVlanMacAddressMode::Other(u32::MAX)),
];

const MAC_SEC_CIPHER_IDS: &[(u64, MacSecCipherId)] = &[
    (0, MacSecCipherId::Other(0)),
    (
        0x0080_0200_0100_0000,
        MacSecCipherId::Other(0x0080_0200_0100_0000),
    ),
    (0x0080_0200_0100_0001, MacSecCipherId::DefaultGcmAes128),
    (
        0x0080_0200_0100_0002,
        MacSecCipherId::Other(0x0080_0200_0100_0002),
    ),
    (
        0x0080_c200_0100_0000,
        MacSecCipherId::Other(0x0080_c200_0100_0000),
    ),
    (0x0080_c200_0100_0001, MacSecCipherId::GcmAes128),
    (0x0080_c200_0100_0002, MacSecCipherId::GcmAes256),
    (0x0080_c200_0100_0003, MacSecCipherId::GcmAesXpn128),
    (0x0080_c200_0100_0004, MacSecCipherId::GcmAesXpn256),
    (
        0x0080_c200_0100_0005,
        MacSecCipherId::Other(0x0080_c200_0100_0005),
    ),
    (u64::MAX, MacSecCipherId::Other(u64::MAX)),
];

const MAC_SEC_VALIDATES: &[(u8, MacSecValidate)] = &[
    (0, MacSecValidate::Disabled),
    (1, MacSecValidate::Check),
    (2, MacSecValidate::Strict),
    (3, MacSecValidate::Other(3)),
    (u8::MAX, MacSecValidate::Other(u8::MAX)),
];

const MAC_SEC_OFFLOADS: &[(u8, MacSecOffload)] = &[
    (0, MacSecOffload::Off),
    (1, MacSecOffload::Phy),
    (2, MacSecOffload::Mac),
    (3, MacSecOffload::Other(3)),
    (u8::MAX, MacSecOffload::Other(u8::MAX)),
];

const NETKIT_MODES: &[(u32, NetkitMode)] = &[
    (0, NetkitMode::L2),
    (1, NetkitMode::L3),
    (2, NetkitMode::Other(2)),
    (u32::MAX, NetkitMode::Other(u32::MAX)),
];

const NETKIT_POLICIES: &[(u32, NetkitPolicy)] = &[
    (0, NetkitPolicy::Pass),
    (0, NetkitPolicy::Forward),
    (1, NetkitPolicy::Other(1)),
    (2, NetkitPolicy::Drop),
    (3, NetkitPolicy::Other(3)),
    (6, NetkitPolicy::Other(6)),
    (7, NetkitPolicy::Redirect),
    (8, NetkitPolicy::Other(8)),
    (u32::MAX, NetkitPolicy::Other(u32::MAX)),
];

const TUN_TYPES: &[(u8, TunType)] = &[
    (0, TunType::Other(0)),
    (1, TunType::Tun),
    (2, TunType::Tap),
    (3, TunType::Other(3)),
    (u8::MAX, TunType::Other(u8::MAX)),
];

const HSR_PROTOCOLS: &[(u8, HsrProtocol)] = &[
    (0, HsrProtocol::Hsr),
    (1, HsrProtocol::Prp),
    (2, HsrProtocol::Other(2)),
    (u8::MAX, HsrProtocol::Other(u8::MAX)),
];

const ON_OFF: &[(u8, OnOff)] = &[
    (0, OnOff::Off),
    (1, OnOff::On),
    (2, OnOff::Other(2)),
    (u8::MAX, OnOff::Other(u8::MAX)),
];

const MULTICAST_ROUTERS: &[(u8, BridgeMulticastRouterType)] = &[
    (0, BridgeMulticastRouterType::Disabled),
    (1, BridgeMulticastRouterType::TempQuery),
    (1, BridgeMulticastRouterType::Auto),
    (2, BridgeMulticastRouterType::Permanent),
    (3, BridgeMulticastRouterType::Temp),
    (4, BridgeMulticastRouterType::Other(4)),
    (u8::MAX, BridgeMulticastRouterType::Other(u8::MAX)),
];

const OVPN_MODES: &[(u8, OvpnMode)] = &[
    (0, OvpnMode::P2p),
    (1, OvpnMode::Mp),
    (2, OvpnMode::Other(2)),
    (u8::MAX, OvpnMode::Other(u8::MAX)),
];

const CAN_CLOCKS: &[(u32, CanClock)] = &[
    (0, CanClock { freq: 0 }),
    (8_000_000, CanClock { freq: 8_000_000 }),
    (u32::MAX, CanClock { freq: u32::MAX }),
];

#[test]
fn switches() {
    check_both_ways(ON_OFF);
    assert_is("true", OnOff::from(true), OnOff::On);
    assert_is("false", OnOff::from(false), OnOff::Off);
}

#[test]
fn tunnel_numbers() {
    check_both_ways(AMT_MODES);
    check_both_ways(GENEVE_DFS);
    check_both_ways(VXLAN_DFS);
    check_both_ways(GTP_ROLES);
    check_both_ways(TUNNEL_ENCAP_TYPES);
    check_both_ways(ETHERNET_PROTOCOLS);
    check_both_ways(VLAN_PROTOCOLS);
    check_both_ways(IP_PROTOCOLS);
}

#[test]
fn device_numbers() {
    check_both_ways(IPOIB_MODES);
    check_both_ways(IP_VLAN_MODES);
    check_both_ways(MAC_VLAN_MODES);
    check_both_ways(MAC_VLAN_MAC_ADDRESS_MODES);
    check_both_ways(MAC_SEC_CIPHER_IDS);
    check_both_ways(MAC_SEC_VALIDATES);
    check_both_ways(MAC_SEC_OFFLOADS);
    check_both_ways(NETKIT_MODES);
    check_both_ways(NETKIT_POLICIES);
    check_both_ways(TUN_TYPES);
    check_both_ways(HSR_PROTOCOLS);
    check_both_ways(MULTICAST_ROUTERS);
    check_both_ways(OVPN_MODES);
    check_both_ways(CAN_CLOCKS);
}

/// Numbers of types with a conversion from a reference.
const GRE_ENCAP_TYPES: &[(u16, GreEncapType)] = &[
    (0, GreEncapType::None),
    (1, GreEncapType::Fou),
    (2, GreEncapType::Gue),
    (3, GreEncapType::Other(3)),
    (u16::MAX, GreEncapType::Other(u16::MAX)),
];

const ER_SPAN_DIRS: &[(u8, ErSpanDir)] = &[
    (0, ErSpanDir::Ingress),
    (1, ErSpanDir::Egress),
    (2, ErSpanDir::Other(2)),
    (u8::MAX, ErSpanDir::Other(u8::MAX)),
];

#[test]
fn numbers_of_references() {
    for (number, value) in GRE_ENCAP_TYPES {
        assert_is(
            number,
            (GreEncapType::from(*number), u16::from(value)),
            (*value, *number),
        );
    }
    for (number, value) in ER_SPAN_DIRS {
        assert_is(
            number,
            (ErSpanDir::from(*number), u8::from(value)),
            (*value, *number),
        );
    }
}

/// Numbers, their values, and the numbers of these values.
const SCRUBS: &[(u32, NetkitScrub, u32)] = &[
    (0, NetkitScrub::None, 0),
    (1, NetkitScrub::Default, 1),
    (2, NetkitScrub::Default, 1),
    (5, NetkitScrub::Default, 1),
    (u32::MAX, NetkitScrub::Default, 1),
];

#[test]
fn numbers_of_scrubs() {
    for (number, value, again) in SCRUBS {
        assert_is(
            number,
            (NetkitScrub::from(*number), u32::from(*value)),
            (*value, *again),
        );
    }
}

#[test]
fn default_values() {
    assert_is(
        "GtpRole, GreEncapType, ErSpanDir, VlanProtocol",
        (
            GtpRole::default(),
            GreEncapType::default(),
            ErSpanDir::default(),
            VlanProtocol::default(),
        ),
        (
            GtpRole::Ggsn,
            GreEncapType::None,
            ErSpanDir::Ingress,
            VlanProtocol::Ieee8021Q,
        ),
    );
}
