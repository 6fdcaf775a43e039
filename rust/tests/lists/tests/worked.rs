// @generated from crates/linkinfo_tests/src/tests/worked.rt by rust/translate/run.

//! Worked examples, in hex digits.

/// An xfrm link with its underlying interface and its identifier.
pub const XFRM: &str = "09000100 7866726d 00000000 14000200 08000100 02000000 08000200 0a000000";

/// The kind pfcp without the closing NUL of its name.
pub const PFCP_NO_NUL: &str = "08000100 70666370";

/// The kind pfcp in its canonical encoding.
pub const PFCP: &str = "09000100 70666370 00000000";

/// A port of a vrf with two data attributes, where the first one uses the port kind up.
pub const SECOND_PORT_DATA: &str = "08000400 76726600 04000500 04000500";

/// A port of a vrf with one data attribute.
pub const PORT_DATA: &str = "08000400 76726600 04000500";

/// Two data attributes under one kind.
pub const DATA_TWICE: &str = "09000100 7866726d 00000000 04000200 0c000200 08000200 05000000";

/// A kind that replaces another.
pub const LATER_KIND: &str = "08000100 76726600 09000100 7866726d 00000000 04000200";

/// The data of a veth link, of which the first attribute alone is parsed.
pub const VETH_TAIL: &str = "09000100 76657468 00000000 11000200 06000100 aabb0000 05000900 07";

/// The canonical encoding of `VETH_TAIL`.
pub const VETH: &str = "09000100 76657468 00000000 0c000200 06000100 aabb0000";

/// A veth link with empty data.
pub const VETH_EMPTY: &str = "09000100 76657468 00000000 04000200";

/// The data of a vrf link with a table number of one byte, and a stray byte after it.
pub const FIRST_ERROR: &str = "08000100 76726600 09000200 05000100 07000000 01";

/// A kind with the empty name.
pub const EMPTY_NAME: &str = "04000100";

/// The statistics of a can link.
pub const XSTATS: &str = "08000100 63616e00 06000300 01020000";

/// Data under a port kind without a family.
pub const OTHER_PORT: &str = "05000400 78000000 05000500 07000000";

/// A gtp link whose sockets the kernel creates.
pub const GTP: &str =
    "08000100 67747000 1c000200 05000500 01000000 08000400 01000000 08000300 00040000";

/// A bareudp link that carries MPLS.
pub const BAREUDP: &str = "0c000100 62617265 75647000 14000200 06000100 19eb0000 06000200 88470000";

/// An ipip link with flags of two bytes.
pub const IPIP_FLAGS: &str = "09000100 69706970 00000000 0c000200 06000800 00100000";

/// A sit link with flags of two bytes.
pub const SIT_FLAGS: &str = "08000100 73697400 0c000200 06000800 00100000";

/// An ip6tnl link with flags of two bytes, where it has four.
pub const IP6TNL_SHORT_FLAGS: &str = "0b000100 69703674 6e6c0000 0c000200 06000800 00100000";

/// An ip6tnl link with flags of four bytes.
pub const IP6TNL_FLAGS: &str = "0b000100 69703674 6e6c0000 0c000200 08000800 00000100";

/// A gre link whose path MTU discovery is the byte 2, which is parsed as false.
pub const GRE_DISCOVERY: &str = "08000100 67726500 0c000200 05000a00 02000000";

/// The canonical encoding of `GRE_DISCOVERY`.
pub const GRE_NO_DISCOVERY: &str = "08000100 67726500 0c000200 05000a00 00000000";

/// A netkit link whose scrub mode is 5, which has no name and is parsed as the default.
pub const NETKIT_SCRUB: &str = "0b000100 6e65746b 69740000 0c000200 08000600 05000000";

/// The canonical encoding of `NETKIT_SCRUB`.
pub const NETKIT_SCRUB_DEFAULT: &str = "0b000100 6e65746b 69740000 0c000200 08000600 01000000";

/// A macvlan link with a list of one address.
pub const MACVLAN_LIST: &str =
    "0c000100 6d616376 6c616e00 14000200 10000500 0a000400 02000000 00010000";

/// The link of `MACVLAN_LIST` without the padding of the address.
pub const MACVLAN_SHORT_LIST: &str =
    "0c000100 6d616376 6c616e00 12000200 0e000500 0a000400 02000000 0001";

/// A vti6 link, which has the attributes of a vti link.
pub const VTI6: &str = "09000100 76746936 00000000 0c000200 08000200 00000009";

/// An ipvtap link with its mode and its flags.
pub const IPVTAP: &str = "0b000100 69707674 61700000 14000200 06000100 00000000 06000200 02000000";

/// An ipvlan link with its mode and its flags.
pub const IPVLAN: &str = "0b000100 6970766c 616e0000 14000200 06000100 00000000 06000200 02000000";

/// The link of `IPVLAN` without flags.
pub const IPVLAN_NO_FLAGS: &str =
    "0b000100 6970766c 616e0000 14000200 06000100 00000000 06000200 00000000";

/// An ipoib link with its partition and its mode.
pub const IPOIB: &str = "0a000100 69706f69 62000000 14000200 06000100 01800000 06000200 01000000";

/// A batadv link with the name of its algorithm.
pub const BATADV: &str = "0b000100 62617461 64760000 14000200 0e000100 4241544d 414e5f49 56000000";

/// A port of a bond.
pub const BOND_PORT: &str = "09000400 626f6e64 00000000 0c000500 08000100 01020304";

/// A port of a bridge.
pub const BRIDGE_PORT: &str = "0b000400 62726964 67650000 0c000500 05000100 03000000";

/// A port of a team.
pub const TEAM_PORT: &str = "09000400 7465616d 00000000 0c000500 05000180 07000000";

/// A pfcp link whose data is not framed.
pub const PFCP_NOT_FRAMED: &str = "09000100 70666370 00000000 07000200 01020300";

/// A pfcp link with an attribute that has the flag `NLA_F_NESTED` in its type.
pub const PFCP_MARKED: &str = "09000100 70666370 00000000 0c000200 08000180 01000000";

/// A pfcp link with an attribute without its padding.
pub const PFCP_SHORT: &str = "09000100 70666370 00000000 09000200 05000100 07000000";

/// The canonical encoding of `PFCP_SHORT`.
pub const PFCP_ATTRIBUTE: &str = "09000100 70666370 00000000 0c000200 05000100 07000000";

/// A pfcp link with empty data.
pub const PFCP_EMPTY: &str = "09000100 70666370 00000000 04000200";
