// @generated from crates/linkinfo_view/src/format.rt by rust/translate/run.

//! Rows, and how the value of an attribute is shown.

use linkinfo::layers::nla_frame::Family;
use linkinfo::layers::shapes::Shape;

/// Which rows apply to a list of attributes.
#[derive(Clone, Copy, Debug, PartialEq, Eq)]
pub enum Table {
    /// A list of a family. Of `Family::IpTunnel`, the rows of `ipip` links.
    Family(Family),
    /// The data of `sit` links.
    Sit,
    /// The data of `ip6tnl` links.
    Ip6Tunnel,
}

impl Table {
    /// The table of the data of a link of this kind, a name without its NUL: that of the family,
    /// but one of their own for `sit` and `ip6tnl` links, which name flags and protocols in other
    /// ways.
    pub fn of_kind(family: Family, kind: &[u8]) -> Table {
        match family {
            Family::IpTunnel => Table::of_tunnel(kind),
            _ => Table::Family(family),
        }
    }

    /// The table of the data of a link of a kind that the library keeps as bytes, if it has rows;
    /// the kind is a name without its NUL, and `None` is also the result for each other kind.
    pub fn of_other(kind: &[u8]) -> Option<Table> {
        // Begin: written by tables/generate from tables/families (arms).
        if kind == b"ovpn".as_slice() {
            return Some(Table::Family(Family::Ovpn));
        }
        if kind == b"ppp".as_slice() {
            return Some(Table::Family(Family::Ppp));
        }
        // End: written by tables/generate.
        None
    }

    /// The table of a kind of tunnels over IP.
    fn of_tunnel(kind: &[u8]) -> Table {
        if kind == b"sit".as_slice() {
            Table::Sit
        } else if kind == b"ip6tnl".as_slice() {
            Table::Ip6Tunnel
        } else {
            Table::Family(Family::IpTunnel)
        }
    }
}

/// How the attributes of one type are shown.
#[derive(Clone, Copy, Debug, PartialEq, Eq)]
pub struct Row {
    /// The member's name, as `ip -j` prints it.
    pub name: &'static str,
    /// The layout of the payload: that of the library's own row, but `U8` for some booleans, and
    /// `Raw` for records, arrays and lists, whose bytes the format reads.
    pub shape: Shape,
    /// How the payload's value is shown.
    pub format: Format,
}

/// How the value of a payload is shown. A payload that the shape rejects, or that the format does
/// not take, is shown as hex, whatever the format.
#[derive(Clone, Copy, Debug, PartialEq, Eq)]
pub enum Format {
    /// By the kind of its value: a number, a boolean, an address or a text; two numbers as `low`
    /// and `high`; a flag that is set by its presence as null; other bytes as hex. Times are
    /// numbers in the unit that the kernel sends, for bridges hundredths of a second.
    Plain,
    /// True, since it is there.
    Present,
    /// A number as a boolean, false for 0 and true for 1; any other as the number.
    Switch,
    /// A number in hex, after `0x`.
    Hex,
    /// A number in hex, after `0x`, but `0` for 0, as `%#x` of `printf` writes it.
    HexOrZero,
    /// The same; and as the member `group_fwd_mask_str` the names of the flags that are set, in one
    /// text with commas between them, or `0x0` if none is (`IFLA_BRPORT_GROUP_FWD_MASK`).
    Mask(Flags),
    /// A number of 16 bits as four hex digits, after `0x` (`IFLA_IPOIB_PKEY`).
    KeyHex,
    /// A number of 16 bits as four hex digits (`IFLA_IPOIB_UMCAST`).
    FourDigits,
    /// The bytes of the payload in hex, in their order (`IFLA_MACSEC_SCI`).
    Octets,
    /// Bytes as a hardware address of any length (`IFLA_BOND_SLAVE_PERM_HWADDR`).
    HardwareAddress,
    /// Four bytes as an IPv4 address, of a number that is no address (`IFLA_GRE_IKEY`).
    Quad,
    /// A number by its name, or as a number where it has none.
    Word(Words),
    /// An address, or `any` for the unspecified one.
    Address,
    /// An address, named `group` if it is multicast and `remote` if not (`IFLA_VXLAN_GROUP`).
    Group,
    /// An address, named `group6` if it is multicast and `remote6` if not (`IFLA_VXLAN_GROUP6`).
    Group6,
    /// The traffic class (eight bits) and the flow label (20 bits) of a number in hex, as the
    /// members `tclass` and `flowlabel`; and the whole number.
    FlowInfo,
    /// A boolean for each flag of a number, or of the first of two; and the numbers in hex.
    Bits(Flags),
    /// 0 or 1 for each flag that the second number, a mask, has; and both numbers in hex (`struct
    /// br_boolopt_multi`).
    Options(Flags),
    /// The names of the flags that are set in the first of two numbers; flags without a name in
    /// hex. The second, a mask, is a member of its own.
    Names(Flags),
    /// The names of the flags that are set in the second of two numbers; flags without a name in
    /// hex. The first, a mask, is a member of its own (`struct can_ctrlmode`).
    SecondNames(Flags),
    /// The names of the flags that are set in a number; flags without a name in hex
    /// (`IFLA_CAN_CTRLMODE_SUPPORTED`).
    FlagNames(Flags),
    /// A number; and under its name with `_str` after it, the names of the flags that are set in
    /// its low eight bits (`IFLA_BOND_SLAVE_AD_ACTOR_OPER_PORT_STATE`).
    LacpState,
    /// Eight bytes, a priority and a hardware address (`struct ifla_bridge_id`).
    BridgeId,
    /// The eight numbers of a `struct can_bittiming`.
    BitTiming,
    /// The name of a `struct can_bittiming_const`, up to its first NUL, and its eight numbers: each
    /// limit as `min` and `max`, and 1 as the least `sjw`.
    BitTimingConst,
    /// The two numbers of a `struct can_berr_counter`, as `tx` and `rx`.
    ErrorCounters,
    /// An array of little-endian numbers of two bytes each (`IFLA_CAN_TERMINATION_CONST`).
    Le16s,
    /// An array of little-endian numbers of four bytes each (`IFLA_CAN_BITRATE_CONST`).
    Le32s,
    /// A nested list of attributes that are all alike.
    List(Elements),
    /// A nested list of attributes with rows of their own.
    Nested(Family),
    /// A nested list of the modes that a device has, with rows of their own, and as the member
    /// `ctrlmode_supported` the names of the modes in its last attribute of type 1, if that has
    /// four bytes (`IFLA_CAN_CTRLMODE_EXT`, `IFLA_CAN_CTRLMODE_SUPPORTED`).
    Supported,
}

/// The attribute whose numbers have names.
#[derive(Clone, Copy, Debug, PartialEq, Eq)]
pub enum Words {
    /// `IFLA_BOND_AD_SELECT`.
    AdSelect,
    /// `IFLA_AMT_MODE`.
    AmtMode,
    /// `IFLA_BOND_ARP_ALL_TARGETS`.
    ArpAllTargets,
    /// `IFLA_BOND_ARP_VALIDATE`.
    ArpValidate,
    /// `IFLA_BOND_MODE`.
    BondMode,
    /// `IFLA_BOND_SLAVE_STATE`.
    BondPortState,
    /// `IFLA_BRPORT_STATE`.
    BridgePortState,
    /// `IFLA_CAN_STATE`.
    CanState,
    /// `IFLA_BOND_SLAVE_AD_CHURN_ACTOR_STATE`, `IFLA_BOND_SLAVE_AD_CHURN_PARTNER_STATE`.
    ChurnState,
    /// `IFLA_MACSEC_CIPHER_SUITE`.
    CipherSuite,
    /// `IFLA_VXLAN_DF`.
    Df,
    /// `IFLA_GRE_ENCAP_TYPE`.
    EncapType,
    /// `IFLA_GRE_ERSPAN_DIR`.
    ErspanDirection,
    /// `IFLA_BAREUDP_ETHERTYPE`.
    Ethertype,
    /// `IFLA_BOND_FAIL_OVER_MAC`.
    FailOverMac,
    /// `IFLA_GTP_ROLE`.
    GtpRole,
    /// `IFLA_IPVLAN_MODE`.
    IpVlanMode,
    /// `IFLA_IPOIB_MODE`.
    IpoibMode,
    /// `IFLA_VXLAN_LABEL_POLICY`.
    LabelPolicy,
    /// `IFLA_BOND_AD_LACP_RATE`.
    LacpRate,
    /// `IFLA_MACVLAN_MACADDR_MODE`.
    MacAddressMode,
    /// `IFLA_MACSEC_OFFLOAD`.
    MacSecOffload,
    /// `IFLA_MACSEC_VALIDATION`.
    MacSecValidation,
    /// `IFLA_MACVLAN_MODE`.
    MacVlanMode,
    /// `IFLA_BOND_SLAVE_MII_STATUS`.
    MiiStatus,
    /// `IFLA_NETKIT_MODE`.
    NetkitMode,
    /// `IFLA_NETKIT_POLICY`.
    NetkitPolicy,
    /// `IFLA_NETKIT_SCRUB`.
    NetkitScrub,
    /// `IFLA_BOND_AD_LACP_ACTIVE`.
    OffOn,
    /// `IFLA_OVPN_MODE`.
    OvpnMode,
    /// `IFLA_BOND_PRIMARY_RESELECT`.
    PrimaryReselect,
    /// `IFLA_BR_STP_MODE`.
    StpMode,
    /// `IFLA_BOND_XMIT_HASH_POLICY`.
    TransmitHash,
    /// `IFLA_TUN_TYPE`.
    TunType,
    /// `IFLA_IPTUN_PROTO` of `ip6tnl` links.
    Tunnel6Protocol,
    /// `IFLA_IPTUN_PROTO` of `ipip` and `sit` links.
    TunnelProtocol,
    /// `IFLA_VLAN_PROTOCOL`, `IFLA_BR_VLAN_PROTOCOL`.
    VlanProtocol,
}

/// The attribute whose bits have names.
#[derive(Clone, Copy, Debug, PartialEq, Eq)]
pub enum Flags {
    /// `IFLA_BR_MULTI_BOOLOPT`.
    BridgeOptions,
    /// `IFLA_CAN_CTRLMODE`, `IFLA_CAN_CTRLMODE_SUPPORTED`.
    Can,
    /// `IFLA_GRE_ENCAP_FLAGS`.
    Encap,
    /// `IFLA_GRE_IFLAGS`.
    GreInput,
    /// `IFLA_GRE_OFLAGS`.
    GreOutput,
    /// `IFLA_BRPORT_GROUP_FWD_MASK`: a flag without a name of its own has its value in hex as its
    /// name.
    GroupForward,
    /// `IFLA_IPTUN_FLAGS` of `ip6tnl` links, `IFLA_GRE_FLAGS`.
    Ip6Tunnel,
    /// `IFLA_IPVLAN_FLAGS`.
    IpVlan,
    /// `IFLA_BOND_SLAVE_AD_ACTOR_OPER_PORT_STATE`, `IFLA_BOND_SLAVE_AD_PARTNER_OPER_PORT_STATE`.
    LacpState,
    /// `IFLA_MACVLAN_FLAGS`.
    MacVlan,
    /// `IFLA_RMNET_FLAGS`.
    RmNet,
    /// `IFLA_IPTUN_FLAGS` of `sit` links.
    Sit,
    /// `IFLA_VLAN_FLAGS`.
    Vlan,
}

/// What the attributes of a nested list are.
#[derive(Clone, Copy, Debug, PartialEq, Eq)]
pub enum Elements {
    /// Hardware addresses of type 4 (`IFLA_MACVLAN_MACADDR_DATA`).
    HardwareAddresses,
    /// Addresses of types 0, 1, 2 .. (`IFLA_BOND_ARP_IP_TARGET`).
    Addresses,
    /// Pairs of priorities, of type 1 (`IFLA_VLAN_EGRESS_QOS`).
    PriorityPairs,
}
