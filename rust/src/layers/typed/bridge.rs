// @generated from crates/linkinfo_typed/src/bridge.rt by rust/translate/run.

// Written by tables/generate from tables/bridge.
//! Bridges.

use crate::compat::AllocError;
use crate::layers::nla_frame::{
    DecodeError, DefaultNla, ExactEq, Family, HeaderCount, Nla, NlaBuffer, Nlas, Parseable,
};
use crate::layers::numbers::{
    BridgeBooleanOptionFlags, BridgeBooleanOptions, BridgeMulticastRouterType, BridgeStpMode,
    BridgeStpState, OnOff, VlanProtocol,
};
use crate::layers::payloads::BridgeId;
use crate::layers::table::{
    Both, CustomRows, Decoded, Encodable, LinkFamily, Lookup, PayloadRow, RowFamily, Slot,
    TableFamily, encodable_by_rows, store_by_rows, typed_lookup,
};
use crate::layers::typed::bridge_querier_state::BridgeQuerierState;
use bitflags::Flags;
use core::marker::PhantomData;

/// An attribute in the data of a `bridge` link, an Ethernet bridge (include/uapi/linux/if_link.h).
#[derive(Debug, PartialEq, Eq, Hash, PartialOrd, Ord, Clone)]
pub enum InfoBridge {
    /// Delay until a port forwards, in 1/100 s (`IFLA_BR_FORWARD_DELAY`), little-endian.
    ForwardDelay(u32),
    /// Time between BPDUs, in 1/100 s (`IFLA_BR_HELLO_TIME`), little-endian.
    HelloTime(u32),
    /// Age at which the information of a BPDU is dropped, in 1/100 s (`IFLA_BR_MAX_AGE`),
    /// little-endian.
    MaxAge(u32),
    /// Age at which a learned address is dropped, in 1/100 s (`IFLA_BR_AGEING_TIME`),
    /// little-endian.
    AgeingTime(u32),
    /// Whether the Spanning Tree Protocol runs (`IFLA_BR_STP_STATE`), little-endian.
    StpState(BridgeStpState),
    /// Priority of the bridge (`IFLA_BR_PRIORITY`), little-endian.
    Priority(u16),
    /// Whether frames are filtered by VLAN (`IFLA_BR_VLAN_FILTERING`), one byte.
    VlanFiltering(bool),
    /// Protocol of VLAN tags (`IFLA_BR_VLAN_PROTOCOL`), big-endian.
    VlanProtocol(VlanProtocol),
    /// Mask of the link-local groups that are forwarded (`IFLA_BR_GROUP_FWD_MASK`), little-endian.
    GroupFwdMask(u16),
    /// Bridge that is the root; read only (`IFLA_BR_ROOT_ID`), eight bytes.
    RootId(BridgeId),
    /// Identifier of the bridge; read only (`IFLA_BR_BRIDGE_ID`), eight bytes.
    BridgeId(BridgeId),
    /// Number of the port toward the root; read only (`IFLA_BR_ROOT_PORT`), little-endian.
    RootPort(u16),
    /// Cost of the path to the root; read only (`IFLA_BR_ROOT_PATH_COST`), little-endian.
    RootPathCost(u32),
    /// Whether the topology changes, 0 or 1; read only (`IFLA_BR_TOPOLOGY_CHANGE`), one byte.
    TopologyChange(u8),
    /// Whether the bridge detected that the topology changes, 0 or 1; read only
    /// (`IFLA_BR_TOPOLOGY_CHANGE_DETECTED`), one byte.
    TopologyChangeDetected(u8),
    /// Time until the next BPDU, in 1/100 s; read only (`IFLA_BR_HELLO_TIMER`), little-endian.
    HelloTimer(u64),
    /// Time until the next notification of a change, in 1/100 s; read only (`IFLA_BR_TCN_TIMER`),
    /// little-endian.
    TcnTimer(u64),
    /// Time until the change of the topology ends, in 1/100 s; read only
    /// (`IFLA_BR_TOPOLOGY_CHANGE_TIMER`), little-endian.
    TopologyChangeTimer(u64),
    /// Time until old addresses are dropped, in 1/100 s; read only (`IFLA_BR_GC_TIMER`),
    /// little-endian.
    GcTimer(u64),
    /// Group address to which BPDUs are sent (`IFLA_BR_GROUP_ADDR`), six bytes.
    GroupAddr([u8; 6]),
    /// A command that drops the learned addresses (`IFLA_BR_FDB_FLUSH`), a presence flag.
    FdbFlush,
    /// Whether multicast routers are behind the bridge (`IFLA_BR_MCAST_ROUTER`), one byte.
    MulticastRouter(BridgeMulticastRouterType),
    /// Whether IGMP and MLD are followed (`IFLA_BR_MCAST_SNOOPING`), one byte.
    MulticastSnooping(bool),
    /// Whether queries have the address of the bridge as their source
    /// (`IFLA_BR_MCAST_QUERY_USE_IFADDR`), one byte.
    MulticastQueryUseIfaddr(bool),
    /// Whether the bridge sends queries (`IFLA_BR_MCAST_QUERIER`), one byte.
    MulticastQuerier(bool),
    /// Not used any more; read only (`IFLA_BR_MCAST_HASH_ELASTICITY`), little-endian.
    MulticastHashElasticity(u32),
    /// Most groups that are kept (`IFLA_BR_MCAST_HASH_MAX`), little-endian.
    MulticastHashMax(u32),
    /// Number of queries after a group was left (`IFLA_BR_MCAST_LAST_MEMBER_CNT`), little-endian.
    MulticastLastMemberCount(u32),
    /// Number of queries at the start (`IFLA_BR_MCAST_STARTUP_QUERY_CNT`), little-endian.
    MulticastStartupQueryCount(u32),
    /// Time between queries after a group was left, in 1/100 s (`IFLA_BR_MCAST_LAST_MEMBER_INTVL`),
    /// little-endian.
    MulticastLastMemberInterval(u64),
    /// Time after which a group without reports is left, in 1/100 s
    /// (`IFLA_BR_MCAST_MEMBERSHIP_INTVL`), little-endian.
    MulticastMembershipInterval(u64),
    /// Time after which another querier is taken as gone, in 1/100 s
    /// (`IFLA_BR_MCAST_QUERIER_INTVL`), little-endian.
    MulticastQuerierInterval(u64),
    /// Time between queries, in 1/100 s (`IFLA_BR_MCAST_QUERY_INTVL`), little-endian.
    MulticastQueryInterval(u64),
    /// Time in which a query is to be answered, in 1/100 s (`IFLA_BR_MCAST_QUERY_RESPONSE_INTVL`),
    /// little-endian.
    MulticastQueryResponseInterval(u64),
    /// Time between queries at the start, in 1/100 s (`IFLA_BR_MCAST_STARTUP_QUERY_INTVL`),
    /// little-endian.
    MulticastStartupQueryInterval(u64),
    /// Whether packets go through `iptables` (`IFLA_BR_NF_CALL_IPTABLES`), one byte.
    NfCallIpTables(bool),
    /// Whether packets go through `ip6tables` (`IFLA_BR_NF_CALL_IP6TABLES`), one byte.
    NfCallIp6Tables(bool),
    /// Whether packets go through `arptables` (`IFLA_BR_NF_CALL_ARPTABLES`), one byte.
    NfCallArpTables(bool),
    /// VLAN of frames without a tag at a new port (`IFLA_BR_VLAN_DEFAULT_PVID`), little-endian.
    VlanDefaultPvid(u16),
    /// Whether frames are counted by VLAN (`IFLA_BR_VLAN_STATS_ENABLED`), one byte.
    VlanStatsEnabled(OnOff),
    /// Whether packets of IGMP and MLD are counted (`IFLA_BR_MCAST_STATS_ENABLED`), one byte.
    MulticastStatsEnabled(bool),
    /// Version of IGMP, 2 or 3 (`IFLA_BR_MCAST_IGMP_VERSION`), one byte.
    MulticastIgmpVersion(u8),
    /// Version of MLD, 1 or 2 (`IFLA_BR_MCAST_MLD_VERSION`), one byte.
    MulticastMldVersion(u8),
    /// Whether frames are counted by VLAN and port (`IFLA_BR_VLAN_STATS_PER_PORT`), one byte.
    VlanStatsPerPort(OnOff),
    /// Options, and the mask of the options to change (`IFLA_BR_MULTI_BOOLOPT`, `struct
    /// br_boolopt_multi`), each little-endian.
    MultiBoolOpt(BridgeBooleanOptions),
    /// Queriers that the bridge knows; read only (`IFLA_BR_MCAST_QUERIER_STATE`), a nested list.
    MulticastQuerierState(Nlas<BridgeQuerierState>),
    /// Number of learned addresses; read only (`IFLA_BR_FDB_N_LEARNED`), little-endian.
    FdbNLearned(u32),
    /// Most addresses that are learned, 0 for any number (`IFLA_BR_FDB_MAX_LEARNED`),
    /// little-endian.
    FdbMaxLearned(u32),
    /// Who runs the Spanning Tree Protocol (`IFLA_BR_STP_MODE`), little-endian.
    StpMode(BridgeStpMode),
    /// An opaque attribute, of a type that has no variant here, kept verbatim.
    Other(DefaultNla),
}

macro_rules! rows {
    ($body:ident $given:tt) => {
        $body! { InfoBridge $given;
            (1, le32, ForwardDelay),
            (2, le32, HelloTime),
            (3, le32, MaxAge),
            (4, le32, AgeingTime),
            (5, le32, StpState as BridgeStpState),
            (6, le16, Priority),
            (7, truth, VlanFiltering),
            (8, be16, VlanProtocol as VlanProtocol),
            (9, le16, GroupFwdMask),
            (10, custom, RootId),
            (11, custom, BridgeId),
            (12, le16, RootPort),
            (13, le32, RootPathCost),
            (14, u8, TopologyChange),
            (15, u8, TopologyChangeDetected),
            (16, le64, HelloTimer),
            (17, le64, TcnTimer),
            (18, le64, TopologyChangeTimer),
            (19, le64, GcTimer),
            (20, mac, GroupAddr),
            (21, mark, FdbFlush),
            (22, u8, MulticastRouter as BridgeMulticastRouterType),
            (23, truth, MulticastSnooping),
            (24, truth, MulticastQueryUseIfaddr),
            (25, truth, MulticastQuerier),
            (26, le32, MulticastHashElasticity),
            (27, le32, MulticastHashMax),
            (28, le32, MulticastLastMemberCount),
            (29, le32, MulticastStartupQueryCount),
            (30, le64, MulticastLastMemberInterval),
            (31, le64, MulticastMembershipInterval),
            (32, le64, MulticastQuerierInterval),
            (33, le64, MulticastQueryInterval),
            (34, le64, MulticastQueryResponseInterval),
            (35, le64, MulticastStartupQueryInterval),
            (36, truth, NfCallIpTables),
            (37, truth, NfCallIp6Tables),
            (38, truth, NfCallArpTables),
            (39, le16, VlanDefaultPvid),
            (41, u8, VlanStatsEnabled as OnOff),
            (42, truth, MulticastStatsEnabled),
            (43, u8, MulticastIgmpVersion),
            (44, u8, MulticastMldVersion),
            (45, u8, VlanStatsPerPort as OnOff),
            (46, flag_pair, MultiBoolOpt by flags_of, pair_of),
            (47, custom, MulticastQuerierState),
            (48, le32, FdbNLearned),
            (49, le32, FdbMaxLearned),
            (50, le32, StpMode as BridgeStpMode),
        }
    };
}

impl RowFamily for InfoBridge {
    type Context = ();

    const FAMILY: Family = Family::Bridge;

    #[inline(always)]
    fn shape(_ctx: (), kind: u16) -> Lookup {
        typed_lookup(Family::Bridge, kind)
    }

    #[inline(always)]
    fn store_decoded<P: Slot<InfoBridge>>(
        slot: &mut P,
        _ctx: (),
        decoded: Decoded<'_>,
    ) -> Result<(), AllocError> {
        rows!(store_by_rows(slot, decoded))
    }

    #[inline(always)]
    fn to_encodable(&self) -> Encodable<'_> {
        rows!(encodable_by_rows self)
    }
}

/// Makes both sets of their numbers.
fn flags_of(pair: (u32, u32)) -> BridgeBooleanOptions {
    let (value, mask) = pair;
    BridgeBooleanOptions {
        value: BridgeBooleanOptionFlags::from_bits_retain(value),
        mask: BridgeBooleanOptionFlags::from_bits_retain(mask),
    }
}

/// The numbers of both sets.
fn pair_of(sets: BridgeBooleanOptions) -> (u32, u32) {
    (sets.value.bits(), sets.mask.bits())
}

/// The row of `IFLA_BR_ROOT_ID`. Wherever it is named, `T` is `()`.
pub struct RootIdRow<T> {
    of: PhantomData<T>,
}

impl<T> PayloadRow<InfoBridge> for RootIdRow<T> {
    type Payload = BridgeId;

    const NUMBER: u16 = 10;

    const NESTED: bool = false;

    fn wrap(payload: BridgeId) -> InfoBridge {
        InfoBridge::RootId(payload)
    }

    fn payload(value: &InfoBridge) -> Option<&BridgeId> {
        match value {
            InfoBridge::RootId(payload) => Some(payload),
            _ => None,
        }
    }
}

/// The row of `IFLA_BR_BRIDGE_ID`. Wherever it is named, `T` is `()`.
pub struct BridgeIdRow<T> {
    of: PhantomData<T>,
}

impl<T> PayloadRow<InfoBridge> for BridgeIdRow<T> {
    type Payload = BridgeId;

    const NUMBER: u16 = 11;

    const NESTED: bool = false;

    fn wrap(payload: BridgeId) -> InfoBridge {
        InfoBridge::BridgeId(payload)
    }

    fn payload(value: &InfoBridge) -> Option<&BridgeId> {
        match value {
            InfoBridge::BridgeId(payload) => Some(payload),
            _ => None,
        }
    }
}

/// The row of `IFLA_BR_MCAST_QUERIER_STATE`. Wherever it is named, `T` is `()`.
pub struct MulticastQuerierStateRow<T> {
    of: PhantomData<T>,
}

impl<T> PayloadRow<InfoBridge> for MulticastQuerierStateRow<T> {
    type Payload = Nlas<BridgeQuerierState>;

    const NUMBER: u16 = 47;

    const NESTED: bool = true;

    fn wrap(payload: Nlas<BridgeQuerierState>) -> InfoBridge {
        InfoBridge::MulticastQuerierState(payload)
    }

    fn payload(value: &InfoBridge) -> Option<&Nlas<BridgeQuerierState>> {
        match value {
            InfoBridge::MulticastQuerierState(payload) => Some(payload),
            _ => None,
        }
    }
}

impl TableFamily for InfoBridge {
    type Custom = Both<(RootIdRow<()>, ()), (BridgeIdRow<()>, (MulticastQuerierStateRow<()>, ()))>;

    const IS_SET: bool = false;
}

impl Nla for InfoBridge {
    #[inline]
    fn value_len(&self) -> usize {
        <InfoBridge as TableFamily>::Custom::value_len(self)
    }

    #[inline]
    fn kind(&self) -> u16 {
        <InfoBridge as TableFamily>::Custom::kind(self)
    }

    #[inline]
    fn emit_value(&self, buffer: &mut [u8]) {
        self.emit_payload(buffer);
    }

    #[inline]
    fn emit_payload(&self, buffer: &mut [u8]) -> usize {
        <InfoBridge as TableFamily>::Custom::emit(self, buffer)
    }

    #[inline]
    fn fit_len(&self) -> Option<usize> {
        <InfoBridge as TableFamily>::Custom::fit_len(self)
    }
}

/// Reads the attribute. A payload of invalid length is rejected as `(Bridge, type, Length)`. A list
/// is rejected with the first error in it: that of an attribute inside, or `(Frame, 0, Header)`.
impl<'a> Parseable<NlaBuffer<'a>> for InfoBridge {
    #[inline]
    fn parse(buffer: &NlaBuffer<'a>) -> Result<InfoBridge, DecodeError> {
        <InfoBridge as LinkFamily>::read(buffer, (), &mut HeaderCount::new())
    }
}

impl ExactEq for InfoBridge {}
