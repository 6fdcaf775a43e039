// @generated from crates/linkinfo_typed/src/bridge_port.rt by rust/translate/run.

// Written by tables/generate from tables/bridgeport.
//! ports of bridges.

use crate::compat::AllocError;
use crate::layers::nla_frame::{
    DecodeError, DefaultNla, ExactEq, Family, HeaderCount, Nla, NlaBuffer, Parseable,
};
use crate::layers::numbers::{BridgeMulticastRouterType, BridgePortState, OnOff};
use crate::layers::payloads::BridgeId;
use crate::layers::table::{
    CustomRows, Decoded, Encodable, LinkFamily, Lookup, PayloadRow, RowFamily, Slot, TableFamily,
    encodable_by_rows, store_by_rows, typed_lookup,
};
use core::marker::PhantomData;

/// An attribute in the data of a port of a bridge (include/uapi/linux/if_link.h).
#[derive(Debug, PartialEq, Eq, Hash, PartialOrd, Ord, Clone)]
pub enum InfoBridgePort {
    /// State of the port by STP (`IFLA_BRPORT_STATE`), one byte.
    State(BridgePortState),
    /// Priority of the port, 0 to 63 (`IFLA_BRPORT_PRIORITY`), little-endian.
    Priority(u16),
    /// Cost of the path (`IFLA_BRPORT_COST`), little-endian.
    Cost(u32),
    /// Whether frames go back out of the port that they came in by (`IFLA_BRPORT_MODE`), one byte.
    HairpinMode(bool),
    /// BPDU guard: whether a received BPDU disables the port (`IFLA_BRPORT_GUARD`), one byte.
    Guard(bool),
    /// Whether the port can not become the root port (`IFLA_BRPORT_PROTECT`), one byte.
    Protect(bool),
    /// Whether a group is left at once (`IFLA_BRPORT_FAST_LEAVE`), one byte.
    FastLeave(bool),
    /// Whether addresses are learned (`IFLA_BRPORT_LEARNING`), one byte.
    Learning(bool),
    /// Whether unicast frames of unknown addresses are sent (`IFLA_BRPORT_UNICAST_FLOOD`), one
    /// byte.
    UnicastFlood(bool),
    /// Whether the bridge answers ARP for the port (`IFLA_BRPORT_PROXYARP`), one byte.
    ProxyARP(bool),
    /// Whether addresses that the device learns are taken over; present kernels neither read nor
    /// send it in the data of ports (`IFLA_BRPORT_LEARNING_SYNC`), one byte.
    LearningSync(bool),
    /// Whether the bridge answers ARP for the port, in place of its stations
    /// (`IFLA_BRPORT_PROXYARP_WIFI`), one byte.
    ProxyARPWifi(bool),
    /// Bridge that is the root; read only (`IFLA_BRPORT_ROOT_ID`), eight bytes.
    RootId(BridgeId),
    /// Bridge that is designated; read only (`IFLA_BRPORT_BRIDGE_ID`), eight bytes.
    BridgeId(BridgeId),
    /// Port that is designated; read only (`IFLA_BRPORT_DESIGNATED_PORT`), little-endian.
    DesignatedPort(u16),
    /// Cost that is designated; read only (`IFLA_BRPORT_DESIGNATED_COST`), little-endian.
    DesignatedCost(u16),
    /// Identifier of the port: its priority and number; read only (`IFLA_BRPORT_ID`),
    /// little-endian.
    PortId(u16),
    /// Number of the port; read only (`IFLA_BRPORT_NO`), little-endian.
    PortNumber(u16),
    /// Whether a change of the topology is acknowledged; read only
    /// (`IFLA_BRPORT_TOPOLOGY_CHANGE_ACK`), one byte.
    TopologyChangeAck(bool),
    /// Whether a BPDU is pending; read only (`IFLA_BRPORT_CONFIG_PENDING`), one byte.
    ConfigPending(bool),
    /// Time until the information of the port is too old, in 1/100 s; read only
    /// (`IFLA_BRPORT_MESSAGE_AGE_TIMER`), little-endian.
    MessageAgeTimer(u64),
    /// Time until the next state of the port, in 1/100 s; read only
    /// (`IFLA_BRPORT_FORWARD_DELAY_TIMER`), little-endian.
    ForwardDelayTimer(u64),
    /// Time until the next BPDU, in 1/100 s; read only (`IFLA_BRPORT_HOLD_TIMER`), little-endian.
    HoldTimer(u64),
    /// A command that removes the addresses learned from the port (`IFLA_BRPORT_FLUSH`), a presence
    /// flag.
    Flush,
    /// Whether multicast routers are behind the port (`IFLA_BRPORT_MULTICAST_ROUTER`), one byte.
    MulticastRouter(BridgeMulticastRouterType),
    /// Whether multicast frames of unknown groups are sent (`IFLA_BRPORT_MCAST_FLOOD`), one byte.
    MulticastFlood(bool),
    /// Whether multicast frames are sent as unicast frames (`IFLA_BRPORT_MCAST_TO_UCAST`), one
    /// byte.
    MulticastToUnicast(bool),
    /// Whether VLANs are mapped to tunnels (`IFLA_BRPORT_VLAN_TUNNEL`), one byte.
    VlanTunnel(bool),
    /// Whether broadcast frames are sent (`IFLA_BRPORT_BCAST_FLOOD`), one byte.
    BroadcastFlood(bool),
    /// Which link-local groups are forwarded (`IFLA_BRPORT_GROUP_FWD_MASK`), little-endian.
    GroupFwdMask(u16),
    /// Whether the bridge answers ARP and neighbor discovery (`IFLA_BRPORT_NEIGH_SUPPRESS`), one
    /// byte.
    NeighSupress(bool),
    /// Whether the port is isolated from others that are so (`IFLA_BRPORT_ISOLATED`), one byte.
    Isolated(bool),
    /// Index of the link that takes over (`IFLA_BRPORT_BACKUP_PORT`), little-endian.
    BackupPort(u32),
    /// Whether the ring of MRP is open; read only (`IFLA_BRPORT_MRP_RING_OPEN`), one byte.
    MrpRingOpen(bool),
    /// Whether the ring of MRP between others is open; read only (`IFLA_BRPORT_MRP_IN_OPEN`), one
    /// byte.
    MrpInOpen(bool),
    /// Most hosts that are tracked (`IFLA_BRPORT_MCAST_EHT_HOSTS_LIMIT`), little-endian.
    MulticastEhtHostsLimit(u32),
    /// How many hosts are tracked; read only (`IFLA_BRPORT_MCAST_EHT_HOSTS_CNT`), little-endian.
    MulticastEhtHostsCnt(u32),
    /// Whether frames of unknown addresses are dropped (`IFLA_BRPORT_LOCKED`), one byte.
    Locked(bool),
    /// Whether addresses are learned as locked ones (`IFLA_BRPORT_MAB`), one byte.
    Mab(bool),
    /// How many groups there are; read only (`IFLA_BRPORT_MCAST_N_GROUPS`), little-endian.
    MulticastNGroups(u32),
    /// Most groups that there can be (`IFLA_BRPORT_MCAST_MAX_GROUPS`), little-endian.
    MulticastMaxGroups(u32),
    /// Whether the bridge answers ARP and neighbor discovery by VLAN
    /// (`IFLA_BRPORT_NEIGH_VLAN_SUPPRESS`), one byte.
    NeighVlanSupress(OnOff),
    /// Next hop of frames that the port that takes over sends (`IFLA_BRPORT_BACKUP_NHID`),
    /// little-endian.
    BackupNextHopId(u32),
    /// Whether gratuitous ARP is forwarded nevertheless (`IFLA_BRPORT_NEIGH_FORWARD_GRAT`), one
    /// byte.
    NeighForwardGrat(OnOff),
    /// An opaque attribute, of a type that has no variant here, kept verbatim.
    Other(DefaultNla),
}

macro_rules! rows {
    ($body:ident $given:tt) => {
        $body! { InfoBridgePort $given;
            (1, u8, State as BridgePortState),
            (2, le16, Priority),
            (3, le32, Cost),
            (4, truth, HairpinMode),
            (5, truth, Guard),
            (6, truth, Protect),
            (7, truth, FastLeave),
            (8, truth, Learning),
            (9, truth, UnicastFlood),
            (10, truth, ProxyARP),
            (11, truth, LearningSync),
            (12, truth, ProxyARPWifi),
            (13, custom, RootId),
            (14, custom, BridgeId),
            (15, le16, DesignatedPort),
            (16, le16, DesignatedCost),
            (17, le16, PortId),
            (18, le16, PortNumber),
            (19, truth, TopologyChangeAck),
            (20, truth, ConfigPending),
            (21, le64, MessageAgeTimer),
            (22, le64, ForwardDelayTimer),
            (23, le64, HoldTimer),
            (24, mark, Flush),
            (25, u8, MulticastRouter as BridgeMulticastRouterType),
            (27, truth, MulticastFlood),
            (28, truth, MulticastToUnicast),
            (29, truth, VlanTunnel),
            (30, truth, BroadcastFlood),
            (31, le16, GroupFwdMask),
            (32, truth, NeighSupress),
            (33, truth, Isolated),
            (34, le32, BackupPort),
            (35, truth, MrpRingOpen),
            (36, truth, MrpInOpen),
            (37, le32, MulticastEhtHostsLimit),
            (38, le32, MulticastEhtHostsCnt),
            (39, truth, Locked),
            (40, truth, Mab),
            (41, le32, MulticastNGroups),
            (42, le32, MulticastMaxGroups),
            (43, u8, NeighVlanSupress as OnOff),
            (44, le32, BackupNextHopId),
            (45, u8, NeighForwardGrat as OnOff),
        }
    };
}

impl RowFamily for InfoBridgePort {
    type Context = ();

    const FAMILY: Family = Family::BridgePort;

    #[inline(always)]
    fn shape(_ctx: (), kind: u16) -> Lookup {
        typed_lookup(Family::BridgePort, kind)
    }

    #[inline(always)]
    fn store_decoded<P: Slot<InfoBridgePort>>(
        slot: &mut P,
        _ctx: (),
        decoded: Decoded<'_>,
    ) -> Result<(), AllocError> {
        rows!(store_by_rows(slot, decoded))
    }

    #[inline(always)]
    fn to_encodable(&self) -> Encodable<'_> {
        rows!(encodable_by_rows self)
    }
}

/// The row of `IFLA_BRPORT_ROOT_ID`. Wherever it is named, `T` is `()`.
pub struct RootIdRow<T> {
    of: PhantomData<T>,
}

impl<T> PayloadRow<InfoBridgePort> for RootIdRow<T> {
    type Payload = BridgeId;

    const NUMBER: u16 = 13;

    const NESTED: bool = false;

    fn wrap(payload: BridgeId) -> InfoBridgePort {
        InfoBridgePort::RootId(payload)
    }

    fn payload(value: &InfoBridgePort) -> Option<&BridgeId> {
        match value {
            InfoBridgePort::RootId(payload) => Some(payload),
            _ => None,
        }
    }
}

/// The row of `IFLA_BRPORT_BRIDGE_ID`. Wherever it is named, `T` is `()`.
pub struct BridgeIdRow<T> {
    of: PhantomData<T>,
}

impl<T> PayloadRow<InfoBridgePort> for BridgeIdRow<T> {
    type Payload = BridgeId;

    const NUMBER: u16 = 14;

    const NESTED: bool = false;

    fn wrap(payload: BridgeId) -> InfoBridgePort {
        InfoBridgePort::BridgeId(payload)
    }

    fn payload(value: &InfoBridgePort) -> Option<&BridgeId> {
        match value {
            InfoBridgePort::BridgeId(payload) => Some(payload),
            _ => None,
        }
    }
}

impl TableFamily for InfoBridgePort {
    type Custom = (RootIdRow<()>, (BridgeIdRow<()>, ()));

    const IS_SET: bool = false;
}

impl Nla for InfoBridgePort {
    #[inline]
    fn value_len(&self) -> usize {
        <InfoBridgePort as TableFamily>::Custom::value_len(self)
    }

    #[inline]
    fn kind(&self) -> u16 {
        <InfoBridgePort as TableFamily>::Custom::kind(self)
    }

    #[inline]
    fn emit_value(&self, buffer: &mut [u8]) {
        self.emit_payload(buffer);
    }

    #[inline]
    fn emit_payload(&self, buffer: &mut [u8]) -> usize {
        <InfoBridgePort as TableFamily>::Custom::emit(self, buffer)
    }

    #[inline]
    fn fit_len(&self) -> Option<usize> {
        <InfoBridgePort as TableFamily>::Custom::fit_len(self)
    }
}

/// Reads the attribute. A payload of invalid length is rejected as `(BridgePort, type, Length)`.
impl<'a> Parseable<NlaBuffer<'a>> for InfoBridgePort {
    #[inline]
    fn parse(buffer: &NlaBuffer<'a>) -> Result<InfoBridgePort, DecodeError> {
        <InfoBridgePort as LinkFamily>::read(buffer, (), &mut HeaderCount::new())
    }
}

impl ExactEq for InfoBridgePort {}
