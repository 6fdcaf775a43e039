// @generated from crates/linkinfo_tests/src/tests/removed.rt by rust/translate/run.

//! Lists without their last attribute, and without the last attribute of their data.
//!
//! The lists are worked examples, a list of each kind, and replies of a Linux kernel. What is
//! expected of each is of the format: types, offsets, and the length of data without its last
//! attribute.

use super::assertions::{assert_equal, bytes_of};
use super::dumps::{Reply, dumps};
use super::worked::{
    BAREUDP, BATADV, BOND_PORT, BRIDGE_PORT, DATA_TWICE, EMPTY_NAME, GRE_DISCOVERY,
    GRE_NO_DISCOVERY, GTP, IP6TNL_FLAGS, IPIP_FLAGS, IPOIB, IPVLAN, IPVLAN_NO_FLAGS, IPVTAP,
    LATER_KIND, MACVLAN_LIST, MACVLAN_SHORT_LIST, NETKIT_SCRUB, NETKIT_SCRUB_DEFAULT, OTHER_PORT,
    PFCP, PFCP_ATTRIBUTE, PFCP_EMPTY, PFCP_MARKED, PFCP_NO_NUL, PFCP_SHORT, PORT_DATA, SIT_FLAGS,
    TEAM_PORT, VETH, VETH_TAIL, VTI6, XFRM, XSTATS,
};
use crate::support::*;
use linkinfo::layers::link::{Difference, Family, Unmet, first_difference, first_unmet};

/// Data in a list: its offset, its header where its last attribute is removed, and the offsets of
/// its payload and of its end.
type Data = (usize, [u8; 4], usize, usize);

/// Data, and the family, type and offset of its last attribute.
type Inner = (Data, Family, u16, usize);

/// A list, the type and the offset of its last attribute, and the last attribute of its data and of
/// its port data, where these are lists.
type Case = (&'static str, u16, usize, &'static [Inner]);

/// Worked examples that are accepted, but for `DATA_TWICE`, whose last attribute has the type of
/// another one.
const WORKED: &[Case] = &[
    (
        XFRM,
        2,
        12,
        &[((12, [12, 0, 2, 0], 16, 32), Family::Xfrm, 2, 24)],
    ),
    (PFCP_NO_NUL, 1, 0, &[]),
    (PFCP, 1, 0, &[]),
    (PORT_DATA, 5, 8, &[]),
    (LATER_KIND, 2, 20, &[]),
    (VETH_TAIL, 2, 12, &[]),
    (VETH, 2, 12, &[]),
    (EMPTY_NAME, 1, 0, &[]),
    (XSTATS, 3, 8, &[]),
    (OTHER_PORT, 5, 8, &[]),
    (
        GTP,
        2,
        8,
        &[((8, [20, 0, 2, 0], 12, 36), Family::Gtp, 3, 28)],
    ),
    (
        BAREUDP,
        2,
        12,
        &[((12, [12, 0, 2, 0], 16, 32), Family::BareUdp, 2, 24)],
    ),
];

/// Worked examples of tunnels and of netkit and macvlan links.
const WORKED_TUNNELS: &[Case] = &[
    (
        IPIP_FLAGS,
        2,
        12,
        &[((12, [4, 0, 2, 0], 16, 24), Family::IpTunnel, 8, 16)],
    ),
    (
        SIT_FLAGS,
        2,
        8,
        &[((8, [4, 0, 2, 0], 12, 20), Family::IpTunnel, 8, 12)],
    ),
    (
        IP6TNL_FLAGS,
        2,
        12,
        &[((12, [4, 0, 2, 0], 16, 24), Family::IpTunnel, 8, 16)],
    ),
    (
        GRE_DISCOVERY,
        2,
        8,
        &[((8, [4, 0, 2, 0], 12, 20), Family::Gre, 10, 12)],
    ),
    (
        GRE_NO_DISCOVERY,
        2,
        8,
        &[((8, [4, 0, 2, 0], 12, 20), Family::Gre, 10, 12)],
    ),
    (
        NETKIT_SCRUB,
        2,
        12,
        &[((12, [4, 0, 2, 0], 16, 24), Family::Netkit, 6, 16)],
    ),
    (
        NETKIT_SCRUB_DEFAULT,
        2,
        12,
        &[((12, [4, 0, 2, 0], 16, 24), Family::Netkit, 6, 16)],
    ),
    (
        MACVLAN_LIST,
        2,
        12,
        &[((12, [4, 0, 2, 0], 16, 32), Family::MacVlan, 5, 16)],
    ),
    (
        MACVLAN_SHORT_LIST,
        2,
        12,
        &[((12, [4, 0, 2, 0], 16, 30), Family::MacVlan, 5, 16)],
    ),
    (
        VTI6,
        2,
        12,
        &[((12, [4, 0, 2, 0], 16, 24), Family::Vti, 2, 16)],
    ),
];

/// Worked examples of devices, ports and pfcp links.
const WORKED_DEVICES: &[Case] = &[
    (
        IPVTAP,
        2,
        12,
        &[((12, [12, 0, 2, 0], 16, 32), Family::IpVtap, 2, 24)],
    ),
    (
        IPVLAN,
        2,
        12,
        &[((12, [12, 0, 2, 0], 16, 32), Family::IpVlan, 2, 24)],
    ),
    (
        IPVLAN_NO_FLAGS,
        2,
        12,
        &[((12, [12, 0, 2, 0], 16, 32), Family::IpVlan, 2, 24)],
    ),
    (
        IPOIB,
        2,
        12,
        &[((12, [12, 0, 2, 0], 16, 32), Family::Ipoib, 2, 24)],
    ),
    (
        BATADV,
        2,
        12,
        &[((12, [4, 0, 2, 0], 16, 32), Family::BatAdv, 1, 16)],
    ),
    (
        BOND_PORT,
        5,
        12,
        &[((12, [4, 0, 5, 0], 16, 24), Family::BondPort, 1, 16)],
    ),
    (
        BRIDGE_PORT,
        5,
        12,
        &[((12, [4, 0, 5, 0], 16, 24), Family::BridgePort, 1, 16)],
    ),
    (
        TEAM_PORT,
        5,
        12,
        &[((12, [4, 0, 5, 0], 16, 24), Family::TeamPort, 1, 16)],
    ),
    (
        PFCP_MARKED,
        2,
        12,
        &[((12, [4, 0, 2, 0], 16, 24), Family::Pfcp, 1, 16)],
    ),
    (
        PFCP_SHORT,
        2,
        12,
        &[((12, [4, 0, 2, 0], 16, 24), Family::Pfcp, 1, 16)],
    ),
    (
        PFCP_ATTRIBUTE,
        2,
        12,
        &[((12, [4, 0, 2, 0], 16, 24), Family::Pfcp, 1, 16)],
    ),
    (PFCP_EMPTY, 2, 12, &[]),
];

// Lists of each kind and of each port kind, and the accepted strings of `gate/lines/rows.in`. The
// time to prove a function that names a table grows with the square of its rows, so these are many
// short tables.

/// Tunnels, as in `kinds`.
const TUNNELS: &[Case] = &[
    (
        "0a000100 76786c61 6e000000 24000200 05001900 01000000 05001e00 01000000 05000700 00000000 06000f00 12b50000",
        2,
        12,
        &[((12, [28, 0, 2, 0], 16, 48), Family::Vxlan, 15, 40)],
    ),
    (
        "0b000100 67656e65 76650000 2c000200 08000100 05000000 08000200 0a000009 05000300 03000000 05000400 01000000 06000500 17c10000",
        2,
        12,
        &[((12, [36, 0, 2, 0], 16, 56), Family::Geneve, 5, 48)],
    ),
    (
        "0b000100 67726574 61700000 2c000200 08000600 0a000001 08000700 0a000009 05000800 10000000 06000e00 01000000 06001000 15b30000",
        2,
        12,
        &[((12, [36, 0, 2, 0], 16, 56), Family::Gre, 16, 48)],
    ),
    (
        "0e000100 69703667 72657461 70000000 08000200 04001200",
        2,
        16,
        &[((16, [4, 0, 2, 0], 20, 24), Family::Gre6, 18, 20)],
    ),
    (
        "0b000100 69703667 72650000 44000200 14000600 20010db8 00000000 00000000 00000001 14000700 20010db8 00000000 00000000 00000009 05000800 10000000 08000c00 00045678 05000b00 04000000",
        2,
        12,
        &[((12, [60, 0, 2, 0], 16, 80), Family::Gre6, 11, 72)],
    ),
    (
        "08000100 67726500 1c000200 06000200 20000000 08000400 0000004d 05000a00 01000000",
        2,
        8,
        &[((8, [20, 0, 2, 0], 12, 36), Family::Gre, 10, 28)],
    ),
    (
        "0b000100 65727370 616e0000 24000200 08000400 00000014 05001600 02000000 05001700 01000000 06001800 17000000",
        2,
        12,
        &[((12, [28, 0, 2, 0], 16, 48), Family::Gre, 24, 40)],
    ),
    (
        "0e000100 69703665 72737061 6e000000 24000200 08000400 00000014 05001600 02000000 05001700 01000000 06001800 17000000",
        2,
        16,
        &[((16, [28, 0, 2, 0], 20, 52), Family::Gre6, 24, 44)],
    ),
    (
        "09000100 69706970 00000000 1c000200 05000900 89000000 08000300 0a000009 06000800 00100000",
        2,
        12,
        &[((12, [20, 0, 2, 0], 16, 40), Family::IpTunnel, 8, 32)],
    ),
    (
        "0b000100 69703674 6e6c0000 1c000200 05000900 29000000 05000600 03000000 08000800 40000000",
        2,
        12,
        &[((12, [20, 0, 2, 0], 16, 40), Family::IpTunnel, 8, 32)],
    ),
    (
        "08000100 73697400 24000200 05000a00 01000000 06000800 00010000 06000d00 20000000 08000c00 0a000000",
        2,
        8,
        &[((8, [28, 0, 2, 0], 12, 44), Family::IpTunnel, 12, 36)],
    ),
    (
        "09000100 76746936 00000000 14000200 08000100 02000000 08000200 00000009",
        2,
        12,
        &[((12, [12, 0, 2, 0], 16, 32), Family::Vti, 2, 24)],
    ),
    (
        "0c000100 62617265 75647000 1c000200 06000100 19eb0000 06000200 88470000 06000300 00c00000",
        2,
        12,
        &[((12, [20, 0, 2, 0], 16, 40), Family::BareUdp, 3, 32)],
    ),
];

/// Devices, as in `kinds`.
const DEVICES: &[Case] = &[
    (
        "08000100 76726600 0c000200 08000100 0a000000",
        2,
        8,
        &[((8, [4, 0, 2, 0], 12, 20), Family::Vrf, 1, 12)],
    ),
    (
        "0b000100 6970766c 616e0000 14000200 06000100 01000000 06000200 01000000",
        2,
        12,
        &[((12, [12, 0, 2, 0], 16, 32), Family::IpVlan, 2, 24)],
    ),
    (
        "0a000100 69706f69 62000000 1c000200 06000100 03800000 06000200 01000000 06000300 01000000",
        2,
        12,
        &[((12, [20, 0, 2, 0], 16, 40), Family::Ipoib, 3, 32)],
    ),
    (
        "0b000100 6d616373 65630000 2c000200 0c000100 02000000 00050003 05000f00 01000000 05000d00 01000000 0c000400 03000001 00c28000",
        2,
        12,
        &[((12, [32, 0, 2, 0], 16, 56), Family::MacSec, 4, 44)],
    ),
    (
        "0a000100 726d6e65 74000000 18000200 06000100 05000000 0c000200 01000000 ff000000",
        2,
        12,
        &[((12, [12, 0, 2, 0], 16, 36), Family::RmNet, 2, 24)],
    ),
];

/// Links with a peer, and tun and wireguard links, as in `kinds`.
const PEERS: &[Case] = &[
    (
        "0b000100 6e65746b 69740000 24000200 08000500 01000000 08000300 07000000 06000800 05000000 05000100 aa000000",
        2,
        12,
        &[((12, [28, 0, 2, 0], 16, 48), Family::Netkit, 1, 40)],
    ),
    (
        "0a000100 76786361 6e000000 20000200 1c000100 00000000 00000000 00000000 00000000 07000300 74310000",
        2,
        12,
        &[],
    ),
    (
        "08000100 74756e00 2c000200 05000300 01000000 05000400 00000000 05000500 00000000 05000600 00000000 05000700 00000000",
        2,
        8,
        &[((8, [36, 0, 2, 0], 12, 52), Family::Tun, 7, 44)],
    ),
    (
        "0e000100 77697265 67756172 64000000 0c000200 05000180 07000000",
        2,
        16,
        &[((16, [4, 0, 2, 0], 20, 28), Family::Wireguard, 1, 20)],
    ),
];

/// Links of opaque families, as in `kinds`.
const LOWER: &[Case] = &[
    (
        "0b000100 62726964 67650000 14000200 08000100 dc050000 08000200 c8000000",
        2,
        12,
        &[((12, [12, 0, 2, 0], 16, 32), Family::Bridge, 2, 24)],
    ),
    (
        "09000100 766c616e 00000000 14000200 06000100 07000000 06000500 88a80000",
        2,
        12,
        &[((12, [12, 0, 2, 0], 16, 32), Family::Vlan, 5, 24)],
    ),
    (
        "09000100 626f6e64 00000000 14000200 05000100 02000000 08000300 64000000",
        2,
        12,
        &[((12, [12, 0, 2, 0], 16, 32), Family::Bond, 3, 24)],
    ),
    (
        "08000100 63616e00 18000200 08000600 64000000 0c000500 1b000000 19000000",
        2,
        8,
        &[((8, [12, 0, 2, 0], 12, 32), Family::Can, 5, 20)],
    ),
    (
        "08000100 68737200 1c000200 08000100 02000000 08000200 03000000 05000700 01000000",
        2,
        8,
        &[((8, [20, 0, 2, 0], 12, 36), Family::Hsr, 7, 28)],
    ),
    (
        "08000100 64736100 0c000200 08000100 02000000",
        2,
        8,
        &[((8, [4, 0, 2, 0], 12, 20), Family::Dsa, 1, 12)],
    ),
];

/// Links whose data is bytes, as in `kinds`.
const BYTES: &[Case] = &[
    ("0a000100 64756d6d 79000000 05000200 07000000", 2, 12, &[]),
    ("08000100 69666200 05000200 07000000", 2, 8, &[]),
    ("09000100 7663616e 00000000 05000200 07000000", 2, 12, &[]),
    (
        "0e000100 76697274 5f776966 69000000 05000200 07000000",
        2,
        16,
        &[],
    ),
    ("09000100 7465616d 00000000 05000200 07000000", 2, 12, &[]),
    ("0a000100 6e6c6d6f 6e000000 05000200 07000000", 2, 12, &[]),
    ("09000100 6f76706e 00000000", 1, 0, &[]),
];

/// Ports, as in `kinds`.
const PORTS: &[Case] = &[
    (
        "09000400 626f6e64 00000000 14000500 06000500 03000000 08000900 05000000",
        5,
        12,
        &[((12, [12, 0, 5, 0], 16, 32), Family::BondPort, 9, 24)],
    ),
    (
        "0b000400 62726964 67650000 14000500 05000100 03000000 06000200 10000000",
        5,
        12,
        &[((12, [12, 0, 5, 0], 16, 32), Family::BridgePort, 2, 24)],
    ),
    (
        "08000400 76726600 0c000500 08000100 05000000",
        5,
        8,
        &[((8, [4, 0, 5, 0], 12, 20), Family::Vrf, 1, 12)],
    ),
    (
        "09000400 7465616d 00000000 0c000500 05000100 07000000",
        5,
        12,
        &[((12, [4, 0, 5, 0], 16, 24), Family::TeamPort, 1, 16)],
    ),
    ("06000400 78000000 05000500 07000000", 5, 8, &[]),
];

/// Further attributes, as in `kinds`.
const ATTRIBUTES: &[Case] = &[
    (
        "0b000100 69703667 72650000 14000200 05000a00 01000000 06000e00 02000000",
        2,
        12,
        &[((12, [12, 0, 2, 0], 16, 32), Family::Gre6, 14, 24)],
    ),
    (
        "09000100 69706970 00000000 0c000200 05000900 29000000",
        2,
        12,
        &[((12, [4, 0, 2, 0], 16, 24), Family::IpTunnel, 9, 16)],
    ),
    (
        "0b000100 69703674 6e6c0000 0c000200 08000800 01000100",
        2,
        12,
        &[((12, [4, 0, 2, 0], 16, 24), Family::IpTunnel, 8, 16)],
    ),
    (
        "08000100 76746900 14000200 08000200 00000001 08000100 01000000",
        2,
        8,
        &[((8, [12, 0, 2, 0], 12, 28), Family::Vti, 1, 20)],
    ),
    (
        "08000100 67747000 0c000200 08000700 0a000001",
        2,
        8,
        &[((8, [4, 0, 2, 0], 12, 20), Family::Gtp, 7, 12)],
    ),
    (
        "0b000100 6d616373 65630000 14000200 0c000400 01000001 00c28000 04000e00",
        2,
        12,
        &[((12, [16, 0, 2, 0], 16, 32), Family::MacSec, 14, 28)],
    ),
    (
        "0a000100 726d6e65 74000000 10000200 0c000200 01000000 ff000000",
        2,
        12,
        &[((12, [4, 0, 2, 0], 16, 28), Family::RmNet, 2, 16)],
    ),
    (
        "0b000100 62617461 64760000 14000200 0f000100 4241544d 414e5f49 56000000",
        2,
        12,
        &[((12, [4, 0, 2, 0], 16, 32), Family::BatAdv, 1, 16)],
    ),
    ("09000100 76657468 00000000 08000200 04000100", 2, 12, &[]),
];

/// Links whose encodings are not canonical, as in `kinds`.
const REWRITTEN: &[Case] = &[
    (
        "07000100 76746900 24000200 08000200 01000001 08000300 00000008 08000400 0a000001 08000600 00000000",
        2,
        8,
        &[((8, [28, 0, 2, 0], 12, 44), Family::Vti, 6, 36)],
    ),
    (
        "07000100 67747000 24000200 05000500 01000000 08000400 01000000 08000300 00080000 05000600 07000000",
        2,
        8,
        &[((8, [28, 0, 2, 0], 12, 44), Family::Gtp, 6, 36)],
    ),
    (
        "07000100 616d7400 34000200 08000100 00000000 08000500 0a000001 08000700 0a000009 08000400 02000000 06000300 08dc0000 06000200 08dc0000",
        2,
        8,
        &[((8, [44, 0, 2, 0], 12, 60), Family::Amt, 2, 52)],
    ),
    (
        "08000100 7866726d 14000200 08000200 34120000 08000100 02000000",
        2,
        8,
        &[((8, [12, 0, 2, 0], 12, 28), Family::Xfrm, 1, 20)],
    ),
    (
        "0a000100 69707674 61700000 14000200 06000100 02000000 06000200 02000000",
        2,
        12,
        &[((12, [12, 0, 2, 0], 16, 32), Family::IpVtap, 2, 24)],
    ),
    (
        "0b000100 6d616376 6c616e00 34000200 08000300 03000000 28000500 0a000400 02000000 00010000 0a000400 02000000 00020000 0a000400 02000000 00030000",
        2,
        12,
        &[((12, [12, 0, 2, 0], 16, 64), Family::MacVlan, 5, 24)],
    ),
    (
        "0b000100 6d616376 74617000 18000200 08000300 01000000 0a000400 02000000 00010000",
        2,
        12,
        &[((12, [12, 0, 2, 0], 16, 36), Family::MacVtap, 4, 24)],
    ),
    (
        "08000100 76657468 20000200 1c000100 00000000 00000000 00000000 00000000 07000300 74310000",
        2,
        8,
        &[],
    ),
    (
        "08000100 7777616e 0c000200 08000100 04000000",
        2,
        8,
        &[((8, [4, 0, 2, 0], 12, 20), Family::Wwan, 1, 12)],
    ),
    (
        "0a000100 62617461 64760000 14000200 0d000100 4241544d 414e5f56 00000000",
        2,
        12,
        &[((12, [4, 0, 2, 0], 16, 32), Family::BatAdv, 1, 16)],
    ),
    (
        "0d000100 6e657464 65767369 6d000000 05000200 07000000",
        2,
        16,
        &[],
    ),
    (
        "18000100 626f6e64 696e675f 756e6b6e 6f776e5f 6b696e64 05000200 07000000",
        2,
        24,
        &[],
    ),
];

/// Further attributes of such links, as in `kinds`.
const REWRITTEN_ATTRIBUTES: &[Case] = &[
    (
        "0a000100 76786c61 6e000000 44000200 04001c00 05001c00 00000000 05000700 02000000 08000a00 00020001 06000f00 12b50000 05001900 07000000 05001700 07000000 0c002100 00000000 00000001",
        2,
        12,
        &[((12, [56, 0, 2, 0], 16, 80), Family::Vxlan, 33, 68)],
    ),
    (
        "08000100 67726500 18000200 05000a00 02000000 06000200 20000000 04000d00",
        2,
        8,
        &[((8, [20, 0, 2, 0], 12, 32), Family::Gre, 13, 28)],
    ),
    (
        "08000100 73697400 0c000200 05000a00 02000000",
        2,
        8,
        &[((8, [4, 0, 2, 0], 12, 20), Family::IpTunnel, 10, 12)],
    ),
    (
        "0c000100 6d616376 6c616e00 1c000200 0e000500 0a000400 02000000 00010000 08000900 ffffffff",
        2,
        12,
        &[((12, [20, 0, 2, 0], 16, 40), Family::MacVlan, 9, 32)],
    ),
    (
        "0b000100 6e65746b 69740000 14000200 05000200 03000000 08000300 07000000",
        2,
        12,
        &[((12, [12, 0, 2, 0], 16, 32), Family::Netkit, 3, 24)],
    ),
];

/// Accepted strings of `gate/lines/rows.in`.
const ACCEPTED_LINES: &[Case] = &[
    (
        "0b000100 62726964 67650000 0c000200 05000100 07000000",
        2,
        12,
        &[((12, [4, 0, 2, 0], 16, 24), Family::Bridge, 1, 16)],
    ),
    (
        "08000100 74756e00 0c000200 05000100 07000000",
        2,
        8,
        &[((8, [4, 0, 2, 0], 12, 20), Family::Tun, 1, 12)],
    ),
    (
        "09000100 766c616e 00000000 0c000200 05000100 07000000",
        2,
        12,
        &[((12, [4, 0, 2, 0], 16, 24), Family::Vlan, 1, 16)],
    ),
    (
        "09000100 76657468 00000000 0c000200 07000100 01020300",
        2,
        12,
        &[],
    ),
    (
        "0a000100 76786c61 6e000000 0c000200 07001700 01020300",
        2,
        12,
        &[((12, [4, 0, 2, 0], 16, 24), Family::Vxlan, 23, 16)],
    ),
    (
        "0a000100 76786c61 6e000000 0c000200 07001800 01020300",
        2,
        12,
        &[((12, [4, 0, 2, 0], 16, 24), Family::Vxlan, 24, 16)],
    ),
    (
        "0a000100 76786c61 6e000000 0c000200 07001b00 01020300",
        2,
        12,
        &[((12, [4, 0, 2, 0], 16, 24), Family::Vxlan, 27, 16)],
    ),
    (
        "09000100 626f6e64 00000000 0c000200 05000100 07000000",
        2,
        12,
        &[((12, [4, 0, 2, 0], 16, 24), Family::Bond, 1, 16)],
    ),
    (
        "0b000100 67726574 61700000 0c000200 07001200 01020300",
        2,
        12,
        &[((12, [4, 0, 2, 0], 16, 24), Family::Gre, 18, 16)],
    ),
    (
        "0e000100 69703667 72657461 70000000 0c000200 07001200 01020300",
        2,
        16,
        &[((16, [4, 0, 2, 0], 20, 28), Family::Gre6, 18, 20)],
    ),
];

/// Further accepted strings of `gate/lines/rows.in`.
const MORE_ACCEPTED_LINES: &[Case] = &[
    (
        "09000100 69706970 00000000 0c000200 07001300 01020300",
        2,
        12,
        &[((12, [4, 0, 2, 0], 16, 24), Family::IpTunnel, 19, 16)],
    ),
    (
        "0b000100 69703674 6e6c0000 0c000200 07001300 01020300",
        2,
        12,
        &[((12, [4, 0, 2, 0], 16, 24), Family::IpTunnel, 19, 16)],
    ),
    (
        "08000100 73697400 0c000200 07001300 01020300",
        2,
        8,
        &[((8, [4, 0, 2, 0], 12, 20), Family::IpTunnel, 19, 12)],
    ),
    (
        "08000100 67726500 0c000200 07001200 01020300",
        2,
        8,
        &[((8, [4, 0, 2, 0], 12, 20), Family::Gre, 18, 12)],
    ),
    (
        "0b000100 69703667 72650000 0c000200 07001200 01020300",
        2,
        12,
        &[((12, [4, 0, 2, 0], 16, 24), Family::Gre6, 18, 16)],
    ),
    (
        "0e000100 77697265 67756172 64000000 0c000200 05000100 07000000",
        2,
        16,
        &[((16, [4, 0, 2, 0], 20, 28), Family::Wireguard, 1, 20)],
    ),
    (
        "08000100 68737200 0c000200 05000100 07000000",
        2,
        8,
        &[((8, [4, 0, 2, 0], 12, 20), Family::Hsr, 1, 12)],
    ),
    (
        "0b000100 67656e65 76650000 0c000200 07000600 01020300",
        2,
        12,
        &[((12, [4, 0, 2, 0], 16, 24), Family::Geneve, 6, 16)],
    ),
    (
        "0b000100 67656e65 76650000 0c000200 07000e00 01020300",
        2,
        12,
        &[((12, [4, 0, 2, 0], 16, 24), Family::Geneve, 14, 16)],
    ),
    (
        "0b000100 6e65746b 69740000 0c000200 07000100 01020300",
        2,
        12,
        &[((12, [4, 0, 2, 0], 16, 24), Family::Netkit, 1, 16)],
    ),
];

/// The last accepted strings of `gate/lines/rows.in`.
const KINDS: &[Case] = &[
    (
        "0a000100 76786361 6e000000 0c000200 07000100 01020300",
        2,
        12,
        &[],
    ),
    (
        "0c000100 62617265 75647000 0c000200 07000400 01020300",
        2,
        12,
        &[((12, [4, 0, 2, 0], 16, 24), Family::BareUdp, 4, 16)],
    ),
    (
        "0e000100 6e657464 65767369 6d000000 05000200 07000000",
        2,
        16,
        &[],
    ),
    (
        "08000100 63616e00 0c000200 05000100 07000000",
        2,
        8,
        &[((8, [4, 0, 2, 0], 12, 20), Family::Can, 1, 12)],
    ),
    (
        "08000100 64736100 0c000200 05000100 07000000",
        2,
        8,
        &[((8, [4, 0, 2, 0], 12, 20), Family::Dsa, 1, 12)],
    ),
    (
        "0b000100 65727370 616e0000 0c000200 07001200 01020300",
        2,
        12,
        &[((12, [4, 0, 2, 0], 16, 24), Family::Gre, 18, 16)],
    ),
    (
        "0e000100 69703665 72737061 6e000000 0c000200 07001200 01020300",
        2,
        16,
        &[((16, [4, 0, 2, 0], 20, 28), Family::Gre6, 18, 20)],
    ),
    (
        "09000400 626f6e64 00000000 0c000500 05000100 07000000",
        5,
        12,
        &[((12, [4, 0, 5, 0], 16, 24), Family::BondPort, 1, 16)],
    ),
    (
        "0b000400 62726964 67650000 0c000500 05000100 07000000",
        5,
        12,
        &[((12, [4, 0, 5, 0], 16, 24), Family::BridgePort, 1, 16)],
    ),
    ("04000900", 9, 0, &[]),
];

/// The replies of `dumps`, by their names.
const REPLIES: &[Case] = &[
    (
        "br0",
        2,
        12,
        &[((12, [132, 1, 2, 0], 16, 408), Family::Bridge, 38, 400)],
    ),
    (
        "br1",
        2,
        12,
        &[((12, [164, 1, 2, 0], 16, 440), Family::Bridge, 38, 432)],
    ),
    ("ifb0", 1, 0, &[]),
    (
        "mvl-br",
        5,
        76,
        &[
            ((12, [44, 0, 2, 0], 16, 64), Family::MacVlan, 9, 56),
            ((76, [72, 1, 5, 0], 80, 412), Family::BridgePort, 42, 404),
        ],
    ),
    (
        "mvl-pass",
        2,
        12,
        &[((12, [36, 0, 2, 0], 16, 56), Family::MacVlan, 8, 48)],
    ),
    (
        "mvl-priv",
        2,
        12,
        &[((12, [44, 0, 2, 0], 16, 64), Family::MacVlan, 9, 56)],
    ),
    (
        "mvl-src",
        2,
        12,
        &[((12, [84, 0, 2, 0], 16, 104), Family::MacVlan, 9, 96)],
    ),
    (
        "mvl-src1",
        2,
        12,
        &[((12, [52, 0, 2, 0], 16, 72), Family::MacVlan, 8, 64)],
    ),
    (
        "mvl-vepa",
        2,
        12,
        &[((12, [44, 0, 2, 0], 16, 64), Family::MacVlan, 9, 56)],
    ),
    (
        "mvt-br",
        2,
        12,
        &[((12, [36, 0, 2, 0], 16, 56), Family::MacVtap, 8, 48)],
    ),
    (
        "mvt-pass",
        2,
        12,
        &[((12, [36, 0, 2, 0], 16, 56), Family::MacVtap, 8, 48)],
    ),
    (
        "mvt-src",
        2,
        12,
        &[((12, [52, 0, 2, 0], 16, 72), Family::MacVtap, 8, 64)],
    ),
    (
        "mvt-vepa",
        2,
        12,
        &[((12, [36, 0, 2, 0], 16, 56), Family::MacVtap, 8, 48)],
    ),
    (
        "tap-mq",
        2,
        8,
        &[((8, [52, 0, 2, 0], 12, 68), Family::Tun, 9, 60)],
    ),
    (
        "tap-own",
        2,
        8,
        &[((8, [52, 0, 2, 0], 12, 68), Family::Tun, 7, 60)],
    ),
    (
        "tap-vnet",
        2,
        8,
        &[((8, [36, 0, 2, 0], 12, 52), Family::Tun, 7, 44)],
    ),
    (
        "tap0",
        5,
        64,
        &[
            ((8, [36, 0, 2, 0], 12, 52), Family::Tun, 7, 44),
            ((64, [72, 1, 5, 0], 68, 400), Family::BridgePort, 42, 392),
        ],
    ),
    (
        "tun-nopi",
        2,
        8,
        &[((8, [36, 0, 2, 0], 12, 52), Family::Tun, 7, 44)],
    ),
    (
        "tun0",
        2,
        8,
        &[((8, [36, 0, 2, 0], 12, 52), Family::Tun, 7, 44)],
    ),
    (
        "ve0",
        5,
        24,
        &[((24, [72, 1, 5, 0], 28, 360), Family::BridgePort, 42, 352)],
    ),
    (
        "ve1",
        5,
        24,
        &[((24, [72, 1, 5, 0], 28, 360), Family::BridgePort, 42, 352)],
    ),
    ("ve10", 1, 0, &[]),
    (
        "vx-ext",
        2,
        12,
        &[((12, [188, 0, 2, 0], 16, 212), Family::Vxlan, 33, 200)],
    ),
    (
        "vx-gbp",
        2,
        12,
        &[((12, [192, 0, 2, 0], 16, 216), Family::Vxlan, 33, 204)],
    ),
    (
        "vx-gpe",
        2,
        12,
        &[((12, [192, 0, 2, 0], 16, 216), Family::Vxlan, 33, 204)],
    ),
    (
        "vx-inh",
        2,
        12,
        &[((12, [196, 0, 2, 0], 16, 220), Family::Vxlan, 33, 208)],
    ),
    (
        "vx-min",
        5,
        224,
        &[
            ((12, [188, 0, 2, 0], 16, 212), Family::Vxlan, 33, 200),
            ((224, [72, 1, 5, 0], 228, 560), Family::BridgePort, 42, 552),
        ],
    ),
    (
        "vx-res",
        2,
        12,
        &[((12, [188, 0, 2, 0], 16, 212), Family::Vxlan, 33, 200)],
    ),
    (
        "vx-v4",
        2,
        12,
        &[((12, [212, 0, 2, 0], 16, 236), Family::Vxlan, 33, 224)],
    ),
    (
        "vx-v6",
        2,
        12,
        &[((12, [236, 0, 2, 0], 16, 260), Family::Vxlan, 33, 248)],
    ),
    (
        "vx-vni",
        2,
        12,
        &[((12, [196, 0, 2, 0], 16, 220), Family::Vxlan, 33, 208)],
    ),
];

/// Asserts that a list is met by itself and does not differ from itself.
fn assert_met_by_itself(list: &[u8]) {
    assert_equal(&list, &first_unmet(list, list), &Ok(None));
    assert_equal(&list, &first_difference(list, list), &Ok(None));
}

/// Asserts that the rest of a list lacks one attribute of it, which is reported at its offset, and
/// that the list meets the rest.
fn assert_lacks(list: &[u8], rest: &[u8], family: Family, kind: u16, place: usize) {
    let unmet = Unmet {
        family,
        kind,
        want: place,
        have: None,
    };
    let in_first = Difference {
        family,
        kind,
        first: Some(place),
        second: None,
    };
    let in_second = Difference {
        family,
        kind,
        first: None,
        second: Some(place),
    };
    assert_equal(&list, &first_unmet(rest, list), &Ok(Some(unmet)));
    assert_equal(&list, &first_unmet(list, rest), &Ok(None));
    assert_equal(&list, &first_difference(list, rest), &Ok(Some(in_first)));
    assert_equal(&list, &first_difference(rest, list), &Ok(Some(in_second)));
}

/// The list without the last attribute of its data, which is at an offset.
fn without(list: &[u8], data: &Data, place: usize) -> Vec<u8> {
    let (begin, header, payload, end) = data;
    let before = list.get(..*begin).unwrap_or_default();
    let kept = list.get(*payload..place).unwrap_or_default();
    let after = list.get(*end..).unwrap_or_default();
    let mut rest = Vec::new();
    rest.try_extend_from_slice(before).expect("memory");
    rest.try_extend_from_slice(header).expect("memory");
    rest.try_extend_from_slice(kept).expect("memory");
    rest.try_extend_from_slice(after).expect("memory");
    rest
}

/// Asserts that a list is met by itself, and that without its last attribute, or without the last
/// one of its data, it lacks that attribute.
fn assert_removed(list: &[u8], case: &Case) {
    let (_, kind, place, inner) = case;
    assert_met_by_itself(list);
    let rest = list.get(..*place).unwrap_or_default();
    assert_lacks(list, rest, Family::LinkInfo, *kind, *place);
    for (data, family, kind, place) in *inner {
        let rest = without(list, data, *place);
        assert_lacks(list, &rest, *family, *kind, *place);
    }
}

/// Asserts of the list of a case, in hex digits, what `assert_removed` says.
fn assert_text_removed(case: &Case) {
    let (text, ..) = case;
    assert_removed(&bytes_of(text), case);
}

/// Asserts of the list of each case, in hex digits, what `assert_removed` says.
fn assert_texts_removed(cases: &[Case]) {
    for case in cases {
        assert_text_removed(case);
    }
}

#[test]
fn worked_lists_lack_what_is_removed() {
    assert_met_by_itself(&[]);
    assert_met_by_itself(&bytes_of(DATA_TWICE));
    assert_texts_removed(WORKED);
    assert_texts_removed(WORKED_TUNNELS);
    assert_texts_removed(WORKED_DEVICES);
}

#[test]
fn lists_of_kinds_lack_what_is_removed() {
    assert_texts_removed(TUNNELS);
    assert_texts_removed(DEVICES);
    assert_texts_removed(PEERS);
    assert_texts_removed(LOWER);
    assert_texts_removed(BYTES);
    assert_texts_removed(PORTS);
    assert_texts_removed(ATTRIBUTES);
    assert_texts_removed(REWRITTEN);
    assert_texts_removed(REWRITTEN_ATTRIBUTES);
    assert_texts_removed(ACCEPTED_LINES);
    assert_texts_removed(MORE_ACCEPTED_LINES);
    assert_texts_removed(KINDS);
}

/// Asserts of a reply, whose case has its name, what `assert_removed` says.
fn assert_reply_removed((name, list): &Reply, case: &Case) {
    let (wanted, ..) = case;
    assert_equal(&list, name, wanted);
    assert_removed(list, case);
}

#[test]
fn replies_lack_what_is_removed() {
    let replies = dumps();
    assert!(replies.len() == REPLIES.len());
    for (reply, case) in replies.iter().zip(REPLIES) {
        assert_reply_removed(reply, case);
    }
}
