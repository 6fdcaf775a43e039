// @generated from crates/linkinfo_view/src/entries.rt by rust/translate/run.

// Written by tables/generate from tables/families.
//! The rows of all tables: how each attribute is shown to people.

use crate::linkinfo_view::format::{Elements, Flags, Format, Words};
use linkinfo::layers::nla_frame::Family;
use linkinfo::layers::shapes::Shape;

/// A row: the type without flag bits, the member's name as `ip -j` prints it, the layout of the
/// payload, and how its value is shown.
pub(crate) type Entry = (u16, &'static str, Shape, Format);

/// Rows, without the names of the types of shapes and formats.
macro_rules! rows {
    ($(($number:literal, $name:literal, $shape:ident, $format:ident $(($part:path))?),)*) => {
        &[$(($number, $name, Shape::$shape, Format::$format $(($part))?),)*]
    };
}

/// `IFLA_AMT_*` (include/uapi/linux/amt.h).
pub(crate) const AMT: &[Entry] = rows! {
    (1, "mode", Le32, Word(Words::AmtMode)),
    (2, "relay_port", Be16, Plain),
    (3, "gateway_port", Be16, Plain),
    (4, "link", Le32, Plain),
    (5, "local", Ip, Plain),
    (6, "remote", Ip, Plain),
    (7, "discovery", Ip, Plain),
    (8, "max_tunnels", Le32, Plain),
};

/// `IFLA_BAREUDP_*`.
pub(crate) const BARE_UDP: &[Entry] = rows! {
    (1, "dstport", Be16, Plain),
    (2, "ethertype", Be16, Word(Words::Ethertype)),
    (3, "srcportmin", Le16, Plain),
    (4, "multiproto", Mark, Present),
};

/// `IFLA_BATADV_*` (include/uapi/linux/batman_adv.h).
pub(crate) const BAT_ADV: &[Entry] = rows! {
    (1, "algo", Name, Plain),
};

/// `IFLA_GENEVE_*`.
pub(crate) const GENEVE: &[Entry] = rows! {
    (1, "id", Le32, Plain),
    (2, "remote", GeneveV4, Plain),
    (3, "ttl", U8, Plain),
    (4, "tos", U8, Hex),
    (5, "port", Be16, Plain),
    (6, "external", Mark, Present),
    (7, "remote6", GeneveV6, Plain),
    (8, "udp_csum", Truth, Plain),
    (9, "udp_zero_csum6_tx", Truth, Plain),
    (10, "udp_zero_csum6_rx", Truth, Plain),
    (11, "label", Be32, Hex),
    (12, "ttl_inherit", Truth, Plain),
    (13, "df", U8, Word(Words::Df)),
    (14, "inner_proto_inherit", Mark, Present),
    (17, "local", GeneveV4, Plain),
    (18, "local6", GeneveV6, Plain),
};

/// `IFLA_GRE_*` (include/uapi/linux/if_tunnel.h), over IPv4.
pub(crate) const GRE: &[Entry] = rows! {
    (1, "link", Le32, Plain),
    (2, "iflags", Be16, Bits(Flags::GreInput)),
    (3, "oflags", Be16, Bits(Flags::GreOutput)),
    (4, "ikey", Be32, Quad),
    (5, "okey", Be32, Quad),
    (6, "local", V4, Address),
    (7, "remote", V4, Address),
    (8, "ttl", U8, Plain),
    (9, "tos", U8, Hex),
    (10, "pmtudisc", TruthOne, Plain),
    (14, "encap_type", Le16, Word(Words::EncapType)),
    (15, "encap_flags", Le16, Bits(Flags::Encap)),
    (16, "encap_sport", Be16, Plain),
    (17, "encap_dport", Be16, Plain),
    (18, "external", Mark, Present),
    (19, "ignore_df", U8, Switch),
    (20, "fwmark", Le32, Hex),
    (21, "erspan_index", Le32, Plain),
    (22, "erspan_ver", U8, Plain),
    (23, "erspan_dir", U8, Word(Words::ErspanDirection)),
    (24, "erspan_hwid", Le16, HexOrZero),
};

/// `IFLA_GRE_*` (include/uapi/linux/if_tunnel.h), over IPv6.
pub(crate) const GRE6: &[Entry] = rows! {
    (1, "link", Le32, Plain),
    (2, "iflags", Be16, Bits(Flags::GreInput)),
    (3, "oflags", Be16, Bits(Flags::GreOutput)),
    (4, "ikey", Be32, Quad),
    (5, "okey", Be32, Quad),
    (6, "local", V6, Address),
    (7, "remote", V6, Address),
    (8, "ttl", U8, Plain),
    (9, "tos", U8, Hex),
    (11, "encap_limit", U8, Plain),
    (12, "flowinfo", Be32, FlowInfo),
    (13, "flags", Le32, Bits(Flags::Ip6Tunnel)),
    (14, "encap_type", Le16, Word(Words::EncapType)),
    (15, "encap_flags", Le16, Bits(Flags::Encap)),
    (16, "encap_sport", Be16, Plain),
    (17, "encap_dport", Be16, Plain),
    (18, "external", Mark, Present),
    (19, "ignore_df", U8, Switch),
    (20, "fwmark", Le32, Hex),
    (21, "erspan_index", Le32, Plain),
    (22, "erspan_ver", U8, Plain),
    (23, "erspan_dir", U8, Word(Words::ErspanDirection)),
    (24, "erspan_hwid", Le16, HexOrZero),
};

/// `IFLA_GTP_*`.
pub(crate) const GTP: &[Entry] = rows! {
    (1, "fd0", Le32, Plain),
    (2, "fd1", Le32, Plain),
    (3, "hsize", Le32, Plain),
    (4, "role", Le32, Word(Words::GtpRole)),
    (5, "create_sockets", Truth, Plain),
    (6, "restart_count", U8, Plain),
    (7, "local", V4, Plain),
    (8, "local6", V6, Plain),
};

/// `IFLA_IPOIB_*`.
pub(crate) const IPOIB: &[Entry] = rows! {
    (1, "key", Le16, KeyHex),
    (2, "mode", Le16, Word(Words::IpoibMode)),
    (3, "umcast", Le16, FourDigits),
};

/// `IFLA_IPTUN_*` (include/uapi/linux/if_tunnel.h) of `ipip` links.
pub(crate) const IP_TUNNEL: &[Entry] = rows! {
    (8, "flags", Be16, Hex),
    (9, "proto", U8, Word(Words::TunnelProtocol)),
};

/// `IFLA_IPTUN_*` that all tunnels over IP have.
pub(crate) const TUNNEL: &[Entry] = rows! {
    (1, "link", Le32, Plain),
    (2, "local", Ip, Address),
    (3, "remote", Ip, Address),
    (4, "ttl", U8, Plain),
    (5, "tos", U8, Hex),
    (6, "encap_limit", U8, Plain),
    (7, "flowinfo", Be32, FlowInfo),
    (10, "pmtudisc", Truth, Plain),
    (11, "prefix", V6, Plain),
    (12, "relay_prefix", V4, Plain),
    (13, "prefixlen", Le16, Plain),
    (14, "relay_prefixlen", Le16, Plain),
    (15, "encap_type", Le16, Word(Words::EncapType)),
    (16, "encap_flags", Le16, Bits(Flags::Encap)),
    (17, "encap_sport", Be16, Plain),
    (18, "encap_dport", Be16, Plain),
    (19, "external", Mark, Present),
    (20, "fwmark", Le32, Hex),
};

/// `IFLA_IPTUN_*` of `sit` links.
pub(crate) const SIT: &[Entry] = rows! {
    (8, "flags", Be16, Bits(Flags::Sit)),
    (9, "proto", U8, Word(Words::TunnelProtocol)),
};

/// `IFLA_IPTUN_*` of `ip6tnl` links.
pub(crate) const IP6_TUNNEL: &[Entry] = rows! {
    (8, "flags", Le32, Bits(Flags::Ip6Tunnel)),
    (9, "proto", U8, Word(Words::Tunnel6Protocol)),
};

/// `IFLA_IPVLAN_*`.
pub(crate) const IP_VLAN: &[Entry] = rows! {
    (1, "mode", Le16, Word(Words::IpVlanMode)),
    (2, "flags", Le16, Bits(Flags::IpVlan)),
};

/// `IFLA_MACVLAN_*`.
pub(crate) const MAC_VLAN: &[Entry] = rows! {
    (1, "mode", Le32, Word(Words::MacVlanMode)),
    (2, "flags", Le16, Bits(Flags::MacVlan)),
    (3, "macaddr_mode", Le32, Word(Words::MacAddressMode)),
    (4, "macaddr", Mac, Plain),
    (5, "macaddr_data", SelfList, List(Elements::HardwareAddresses)),
    (6, "macaddr_count", Le32, Plain),
    (7, "bcqueuelen", Le32, Plain),
    (8, "usedbcqueuelen", Le32, Plain),
    (9, "bclim", I32, Plain),
};

/// `IFLA_MACSEC_*`.
pub(crate) const MAC_SEC: &[Entry] = rows! {
    (1, "sci", Le64, Octets),
    (2, "port", Be16, Plain),
    (3, "icv_len", U8, Plain),
    (4, "cipher_suite", Le64, Word(Words::CipherSuite)),
    (5, "window", Le32, Plain),
    (6, "encoding_sa", U8, Plain),
    (7, "encrypt", U8, Switch),
    (8, "protect", U8, Switch),
    (9, "inc_sci", U8, Switch),
    (10, "es", U8, Switch),
    (11, "scb", U8, Switch),
    (12, "replay_protect", U8, Switch),
    (13, "validation", U8, Word(Words::MacSecValidation)),
    (15, "offload", U8, Word(Words::MacSecOffload)),
};

/// `IFLA_NETKIT_*`.
pub(crate) const NETKIT: &[Entry] = rows! {
    (1, "peer_info", Peer, Plain),
    (2, "primary", Truth, Plain),
    (3, "policy", Le32, Word(Words::NetkitPolicy)),
    (4, "peer_policy", Le32, Word(Words::NetkitPolicy)),
    (5, "mode", Le32, Word(Words::NetkitMode)),
    (6, "scrub", Scrub, Word(Words::NetkitScrub)),
    (7, "peer_scrub", Scrub, Word(Words::NetkitScrub)),
    (8, "headroom", Le16, Plain),
    (9, "tailroom", Le16, Plain),
};

/// `IFLA_RMNET_*`.
pub(crate) const RM_NET: &[Entry] = rows! {
    (1, "mux_id", Le16, Plain),
    (2, "flags", FlagPair, Names(Flags::RmNet)),
};

/// `VETH_INFO_*` (include/uapi/linux/veth.h), and `VXCAN_INFO_*` (include/uapi/linux/can/vxcan.h).
pub(crate) const VETH: &[Entry] = rows! {
    (1, "peer", Peer, Plain),
};

/// `IFLA_VRF_*`, and `IFLA_VRF_PORT_*`.
pub(crate) const VRF: &[Entry] = rows! {
    (1, "table", Le32, Plain),
};

/// `IFLA_WWAN_*` (include/uapi/linux/wwan.h).
pub(crate) const WWAN: &[Entry] = rows! {
    (1, "linkid", Le32, Plain),
};

/// `IFLA_XFRM_*`.
pub(crate) const XFRM: &[Entry] = rows! {
    (1, "link", Le32, Plain),
    (2, "if_id", Le32, HexOrZero),
    (3, "external", Mark, Present),
};

/// `IFLA_VTI_*` (include/uapi/linux/if_tunnel.h).
pub(crate) const VTI: &[Entry] = rows! {
    (1, "link", Le32, Plain),
    (2, "ikey", Be32, Quad),
    (3, "okey", Be32, Quad),
    (4, "local", Ip, Address),
    (5, "remote", Ip, Address),
    (6, "fwmark", Le32, Hex),
};

/// `IFLA_VXLAN_*`.
pub(crate) const VXLAN: &[Entry] = rows! {
    (1, "id", Le32, Plain),
    (2, "group", V4, Group),
    (3, "link", Le32, Plain),
    (4, "local", V4, Plain),
    (5, "ttl", U8, Plain),
    (6, "tos", U8, Hex),
    (7, "learning", Truth, Plain),
    (8, "ageing", Le32, Plain),
    (9, "limit", Le32, Plain),
    (10, "port_range", BePair, Plain),
    (11, "proxy", Truth, Plain),
    (12, "rsc", Truth, Plain),
    (13, "l2miss", Truth, Plain),
    (14, "l3miss", Truth, Plain),
    (15, "port", Be16, Plain),
    (16, "group6", V6, Group6),
    (17, "local6", V6, Plain),
    (18, "udp_csum", Truth, Plain),
    (19, "udp_zero_csum6_tx", Truth, Plain),
    (20, "udp_zero_csum6_rx", Truth, Plain),
    (21, "remcsum_tx", Truth, Plain),
    (22, "remcsum_rx", Truth, Plain),
    (23, "gbp", Mark, Plain),
    (24, "remcsum_nopartial", Mark, Plain),
    (25, "external", Truth, Plain),
    (26, "label", Be32, Hex),
    (27, "gpe", Mark, Plain),
    (28, "ttl_inherit", EmptyOrByte, Plain),
    (29, "df", U8, Word(Words::Df)),
    (30, "vnifilter", Truth, Plain),
    (31, "localbypass", Truth, Plain),
    (32, "label_policy", Le32, Word(Words::LabelPolicy)),
    (33, "reserved_bits", Be64, HexOrZero),
    (34, "mcroute", Truth, Plain),
};

/// `IFLA_BOND_*`.
pub(crate) const BOND: &[Entry] = rows! {
    (1, "mode", U8, Word(Words::BondMode)),
    (2, "active_slave", Le32, Plain),
    (3, "miimon", Le32, Plain),
    (4, "updelay", Le32, Plain),
    (5, "downdelay", Le32, Plain),
    (6, "use_carrier", U8, Plain),
    (7, "arp_interval", Le32, Plain),
    (8, "arp_ip_target", Raw, List(Elements::Addresses)),
    (9, "arp_validate", Le32, Word(Words::ArpValidate)),
    (10, "arp_all_targets", Le32, Word(Words::ArpAllTargets)),
    (11, "primary", Le32, Plain),
    (12, "primary_reselect", U8, Word(Words::PrimaryReselect)),
    (13, "fail_over_mac", U8, Word(Words::FailOverMac)),
    (14, "xmit_hash_policy", U8, Word(Words::TransmitHash)),
    (15, "resend_igmp", Le32, Plain),
    (16, "num_peer_notif", U8, Plain),
    (17, "all_slaves_active", U8, Plain),
    (18, "min_links", Le32, Plain),
    (19, "lp_interval", Le32, Plain),
    (20, "packets_per_slave", Le32, Plain),
    (21, "ad_lacp_rate", U8, Word(Words::LacpRate)),
    (22, "ad_select", U8, Word(Words::AdSelect)),
    (23, "ad_info", Raw, Nested(Family::BondAdInfo)),
    (24, "ad_actor_sys_prio", Le16, Plain),
    (25, "ad_user_port_key", Le16, Plain),
    (26, "ad_actor_system", Mac, Plain),
    (27, "tlb_dynamic_lb", U8, Plain),
    (28, "peer_notify_delay", Le32, Plain),
    (29, "ad_lacp_active", U8, Word(Words::OffOn)),
    (30, "arp_missed_max", U8, Plain),
    (31, "ns_ip6_target", Raw, List(Elements::Addresses)),
    (32, "coupled_control", U8, Switch),
    (33, "broadcast_neighbor", U8, Switch),
    (34, "lacp_strict", U8, Switch),
};

/// `IFLA_BOND_SLAVE_*`.
pub(crate) const BOND_PORT: &[Entry] = rows! {
    (1, "state", U8, Word(Words::BondPortState)),
    (2, "mii_status", U8, Word(Words::MiiStatus)),
    (3, "link_failure_count", Le32, Plain),
    (4, "perm_hwaddr", Raw, HardwareAddress),
    (5, "queue_id", Le16, Plain),
    (6, "ad_aggregator_id", Le16, Plain),
    (7, "ad_actor_oper_port_state", U8, LacpState),
    (8, "ad_partner_oper_port_state", Le16, LacpState),
    (9, "prio", I32, Plain),
    (10, "actor_port_prio", Le16, Plain),
    (11, "churn_actor_state", U8, Word(Words::ChurnState)),
    (12, "churn_partner_state", U8, Word(Words::ChurnState)),
};

/// `IFLA_BR_*`.
pub(crate) const BRIDGE: &[Entry] = rows! {
    (1, "forward_delay", Le32, Plain),
    (2, "hello_time", Le32, Plain),
    (3, "max_age", Le32, Plain),
    (4, "ageing_time", Le32, Plain),
    (5, "stp_state", Le32, Plain),
    (6, "priority", Le16, Plain),
    (7, "vlan_filtering", U8, Plain),
    (8, "vlan_protocol", Be16, Word(Words::VlanProtocol)),
    (9, "group_fwd_mask", Le16, HexOrZero),
    (10, "root_id", Raw, BridgeId),
    (11, "bridge_id", Raw, BridgeId),
    (12, "root_port", Le16, Plain),
    (13, "root_path_cost", Le32, Plain),
    (14, "topology_change", U8, Plain),
    (15, "topology_change_detected", U8, Plain),
    (16, "hello_timer", Le64, Plain),
    (17, "tcn_timer", Le64, Plain),
    (18, "topology_change_timer", Le64, Plain),
    (19, "gc_timer", Le64, Plain),
    (20, "group_addr", Mac, Plain),
    (21, "fdb_flush", Mark, Present),
    (22, "mcast_router", U8, Plain),
    (23, "mcast_snooping", U8, Plain),
    (24, "mcast_query_use_ifaddr", U8, Plain),
    (25, "mcast_querier", U8, Plain),
    (26, "mcast_hash_elasticity", Le32, Plain),
    (27, "mcast_hash_max", Le32, Plain),
    (28, "mcast_last_member_cnt", Le32, Plain),
    (29, "mcast_startup_query_cnt", Le32, Plain),
    (30, "mcast_last_member_intvl", Le64, Plain),
    (31, "mcast_membership_intvl", Le64, Plain),
    (32, "mcast_querier_intvl", Le64, Plain),
    (33, "mcast_query_intvl", Le64, Plain),
    (34, "mcast_query_response_intvl", Le64, Plain),
    (35, "mcast_startup_query_intvl", Le64, Plain),
    (36, "nf_call_iptables", U8, Plain),
    (37, "nf_call_ip6tables", U8, Plain),
    (38, "nf_call_arptables", U8, Plain),
    (39, "vlan_default_pvid", Le16, Plain),
    (41, "vlan_stats_enabled", U8, Plain),
    (42, "mcast_stats_enabled", U8, Plain),
    (43, "mcast_igmp_version", U8, Plain),
    (44, "mcast_mld_version", U8, Plain),
    (45, "vlan_stats_per_port", U8, Plain),
    (46, "multi_boolopt", FlagPair, Options(Flags::BridgeOptions)),
    (47, "mcast_querier_state", Raw, Nested(Family::BridgeQuerierState)),
    (48, "fdb_n_learned", Le32, Plain),
    (49, "fdb_max_learned", Le32, Plain),
    (50, "stp_mode", Le32, Word(Words::StpMode)),
};

/// `IFLA_BRPORT_*`.
pub(crate) const BRIDGE_PORT: &[Entry] = rows! {
    (1, "state", U8, Word(Words::BridgePortState)),
    (2, "priority", Le16, Plain),
    (3, "cost", Le32, Plain),
    (4, "hairpin", Truth, Switch),
    (5, "guard", Truth, Switch),
    (6, "root_block", Truth, Switch),
    (7, "fastleave", Truth, Switch),
    (8, "learning", Truth, Switch),
    (9, "flood", Truth, Switch),
    (10, "proxy_arp", Truth, Switch),
    (11, "learning_sync", Truth, Switch),
    (12, "proxy_arp_wifi", Truth, Switch),
    (13, "root_id", Raw, BridgeId),
    (14, "bridge_id", Raw, BridgeId),
    (15, "designated_port", Le16, Plain),
    (16, "designated_cost", Le16, Plain),
    (17, "id", Le16, HexOrZero),
    (18, "no", Le16, HexOrZero),
    (19, "topology_change_ack", U8, Plain),
    (20, "config_pending", U8, Plain),
    (21, "message_age_timer", Le64, Plain),
    (22, "forward_delay_timer", Le64, Plain),
    (23, "hold_timer", Le64, Plain),
    (24, "flush", Mark, Present),
    (25, "multicast_router", U8, Plain),
    (27, "mcast_flood", Truth, Switch),
    (28, "mcast_to_unicast", Truth, Switch),
    (29, "vlan_tunnel", Truth, Switch),
    (30, "bcast_flood", Truth, Switch),
    (31, "group_fwd_mask", Le16, Mask(Flags::GroupForward)),
    (32, "neigh_suppress", Truth, Switch),
    (33, "isolated", Truth, Switch),
    (34, "backup_port", Le32, Plain),
    (35, "mrp_ring_open", Truth, Switch),
    (36, "mrp_in_open", Truth, Switch),
    (37, "mcast_eht_hosts_limit", Le32, Plain),
    (38, "mcast_eht_hosts_cnt", Le32, Plain),
    (39, "locked", Truth, Switch),
    (40, "mab", Truth, Switch),
    (41, "mcast_n_groups", Le32, Plain),
    (42, "mcast_max_groups", Le32, Plain),
    (43, "neigh_vlan_suppress", U8, Switch),
    (44, "backup_nhid", Le32, Plain),
    (45, "neigh_forward_grat", U8, Switch),
};

/// `IFLA_VLAN_*`.
pub(crate) const VLAN: &[Entry] = rows! {
    (1, "id", Le16, Plain),
    (2, "flags", FlagPair, Names(Flags::Vlan)),
    (3, "egress_qos", Raw, List(Elements::PriorityPairs)),
    (4, "ingress_qos", Raw, List(Elements::PriorityPairs)),
    (5, "protocol", Be16, Word(Words::VlanProtocol)),
};

/// `IFLA_CAN_*` (include/uapi/linux/can/netlink.h).
pub(crate) const CAN: &[Entry] = rows! {
    (1, "bittiming", Raw, BitTiming),
    (2, "bittiming_const", Raw, BitTimingConst),
    (3, "clock", Le32, Plain),
    (4, "state", Le32, Word(Words::CanState)),
    (5, "ctrlmode", FlagPair, SecondNames(Flags::Can)),
    (6, "restart_ms", Le32, Plain),
    (7, "restart", Le32, Plain),
    (8, "berr_counter", Raw, ErrorCounters),
    (9, "data_bittiming", Raw, BitTiming),
    (10, "data_bittiming_const", Raw, BitTimingConst),
    (11, "termination", Le16, Plain),
    (12, "termination_const", Raw, Le16s),
    (13, "bitrate_const", Raw, Le32s),
    (14, "data_bitrate_const", Raw, Le32s),
    (15, "bitrate_max", Le32, Plain),
    (16, "tdc", Raw, Nested(Family::CanTdc)),
    (17, "ctrlmode_ext", Raw, Supported),
    (18, "xl_data_bittiming", Raw, BitTiming),
    (19, "xl_data_bittiming_const", Raw, BitTimingConst),
    (20, "xl_data_bitrate_const", Raw, Le32s),
    (21, "xl_tdc", Raw, Nested(Family::CanTdc)),
    (22, "xl_pwm", Raw, Nested(Family::CanPwm)),
};

/// `IFLA_DSA_*`.
pub(crate) const DSA: &[Entry] = rows! {
    (1, "conduit", Le32, Plain),
};

/// `IFLA_HSR_*`.
pub(crate) const HSR: &[Entry] = rows! {
    (1, "slave1", Le32, Plain),
    (2, "slave2", Le32, Plain),
    (3, "multicast_spec", U8, Plain),
    (4, "supervision_addr", Mac, Plain),
    (5, "seq_nr", Le16, Plain),
    (6, "version", U8, Plain),
    (7, "proto", U8, Plain),
    (8, "interlink", Le32, Plain),
};

/// `IFLA_TUN_*`.
pub(crate) const TUN: &[Entry] = rows! {
    (1, "user", Le32, Plain),
    (2, "group", Le32, Plain),
    (3, "type", U8, Word(Words::TunType)),
    (4, "pi", Truth, Switch),
    (5, "vnet_hdr", Truth, Switch),
    (6, "persist", Truth, Switch),
    (7, "multi_queue", Truth, Switch),
    (8, "numqueues", Le32, Plain),
    (9, "numdisabled", Le32, Plain),
};

/// `IFLA_BOND_AD_INFO_*`, inside `IFLA_BOND_AD_INFO`.
pub(crate) const BOND_AD_INFO: &[Entry] = rows! {
    (1, "aggregator", Le16, Plain),
    (2, "num_ports", Le16, Plain),
    (3, "actor_key", Le16, Plain),
    (4, "partner_key", Le16, Plain),
    (5, "partner_mac", Mac, Plain),
};

/// `BRIDGE_QUERIER_*` (include/uapi/linux/if_bridge.h), inside `IFLA_BR_MCAST_QUERIER_STATE`.
pub(crate) const BRIDGE_QUERIER_STATE: &[Entry] = rows! {
    (1, "mcast_querier_ipv4_addr", V4, Plain),
    (2, "mcast_querier_ipv4_port", Le32, Plain),
    (3, "mcast_querier_ipv4_other_timer", Le64, Plain),
    (5, "mcast_querier_ipv6_addr", V6, Plain),
    (6, "mcast_querier_ipv6_port", Le32, Plain),
    (7, "mcast_querier_ipv6_other_timer", Le64, Plain),
};

/// `IFLA_CAN_TDC_*` (include/uapi/linux/can/netlink.h), inside `IFLA_CAN_TDC` and
/// `IFLA_CAN_XL_TDC`.
pub(crate) const CAN_TDC: &[Entry] = rows! {
    (1, "tdcv_min", Le32, Plain),
    (2, "tdcv_max", Le32, Plain),
    (3, "tdco_min", Le32, Plain),
    (4, "tdco_max", Le32, Plain),
    (5, "tdcf_min", Le32, Plain),
    (6, "tdcf_max", Le32, Plain),
    (7, "tdcv", Le32, Plain),
    (8, "tdco", Le32, Plain),
    (9, "tdcf", Le32, Plain),
};

/// `IFLA_CAN_CTRLMODE_*` (include/uapi/linux/can/netlink.h), inside `IFLA_CAN_CTRLMODE_EXT`.
pub(crate) const CAN_CTRL_MODE_EXT: &[Entry] = rows! {
    (1, "supported", Le32, FlagNames(Flags::Can)),
};

/// `IFLA_CAN_PWM_*` (include/uapi/linux/can/netlink.h), inside `IFLA_CAN_XL_PWM`.
pub(crate) const CAN_PWM: &[Entry] = rows! {
    (1, "pwms_min", Le32, Plain),
    (2, "pwms_max", Le32, Plain),
    (3, "pwml_min", Le32, Plain),
    (4, "pwml_max", Le32, Plain),
    (5, "pwmo_min", Le32, Plain),
    (6, "pwmo_max", Le32, Plain),
    (7, "pwms", Le32, Plain),
    (8, "pwml", Le32, Plain),
    (9, "pwmo", Le32, Plain),
};

/// `IFLA_OVPN_*`.
pub(crate) const OVPN: &[Entry] = rows! {
    (1, "mode", U8, Word(Words::OvpnMode)),
};

/// `IFLA_PPP_*`.
pub(crate) const PPP: &[Entry] = rows! {
    (1, "dev_fd", I32, Plain),
};
