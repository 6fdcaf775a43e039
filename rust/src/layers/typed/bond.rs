// @generated from crates/linkinfo_typed/src/bond.rt by rust/translate/run.

// Written by tables/generate from tables/bond.
//! Bonds.

use crate::compat::AllocError;
use crate::layers::nla_frame::{
    DecodeError, DefaultNla, ExactEq, Family, HeaderCount, Nla, NlaBuffer, Nlas, Parseable,
};
use crate::layers::numbers::{
    BondAdSelect, BondAllPortActive, BondArpAllTargets, BondArpValidate, BondFailOverMac,
    BondLacpRate, BondMode, BondPrimaryReselect, BondXmitHashPolicy, OnOff,
};
use crate::layers::payloads::Addresses;
use crate::layers::table::{
    Both, CustomRows, Decoded, Encodable, LinkFamily, Lookup, PayloadRow, RowFamily, Slot,
    TableFamily, encodable_by_rows, store_by_rows, typed_lookup,
};
use crate::layers::typed::bond_ad_info::BondAdInfo;
use core::marker::PhantomData;
use core::net::{Ipv4Addr, Ipv6Addr};

/// An attribute in the data of a `bond` link, a bond (include/uapi/linux/if_link.h).
#[derive(Debug, PartialEq, Eq, Hash, PartialOrd, Ord, Clone)]
pub enum InfoBond {
    /// Mode (`IFLA_BOND_MODE`), one byte.
    Mode(BondMode),
    /// Index of the active port (`IFLA_BOND_ACTIVE_SLAVE`), little-endian.
    ActivePort(u32),
    /// How often the ports are checked by MII, in milliseconds (`IFLA_BOND_MIIMON`), little-endian.
    MiiMon(u32),
    /// Delay until a port that is up is used, in milliseconds (`IFLA_BOND_UPDELAY`), little-endian.
    UpDelay(u32),
    /// Delay until a port that is down is left, in milliseconds (`IFLA_BOND_DOWNDELAY`),
    /// little-endian.
    DownDelay(u32),
    /// Whether the ports are checked by their carrier; obsolete (`IFLA_BOND_USE_CARRIER`), one
    /// byte.
    UseCarrier(OnOff),
    /// How often targets are checked by ARP, in milliseconds (`IFLA_BOND_ARP_INTERVAL`),
    /// little-endian.
    ArpInterval(u32),
    /// Addresses that are checked by ARP, of which the kernel takes 16 (`IFLA_BOND_ARP_IP_TARGET`),
    /// a nested list of addresses.
    ArpIpTarget(Addresses<Ipv4Addr>),
    /// Which ports have their ARP packets validated (`IFLA_BOND_ARP_VALIDATE`), little-endian.
    ArpValidate(BondArpValidate),
    /// Whether one target or all must be up (`IFLA_BOND_ARP_ALL_TARGETS`), little-endian.
    ArpAllTargets(BondArpAllTargets),
    /// Index of the primary port (`IFLA_BOND_PRIMARY`), little-endian.
    Primary(u32),
    /// When the primary port becomes active again (`IFLA_BOND_PRIMARY_RESELECT`), one byte.
    PrimaryReselect(BondPrimaryReselect),
    /// Which hardware addresses the ports have (`IFLA_BOND_FAIL_OVER_MAC`), one byte.
    FailOverMac(BondFailOverMac),
    /// What a port is chosen by for a packet (`IFLA_BOND_XMIT_HASH_POLICY`), one byte.
    XmitHashPolicy(BondXmitHashPolicy),
    /// Number of IGMP reports after a change of the active port (`IFLA_BOND_RESEND_IGMP`),
    /// little-endian.
    ResendIgmp(u32),
    /// Number of notifications after a change of the active port (`IFLA_BOND_NUM_PEER_NOTIF`), one
    /// byte.
    NumPeerNotif(u8),
    /// Whether frames that inactive ports receive are kept (`IFLA_BOND_ALL_SLAVES_ACTIVE`), one
    /// byte.
    AllPortsActive(BondAllPortActive),
    /// Number of active ports that the bond needs (`IFLA_BOND_MIN_LINKS`), little-endian.
    MinLinks(u32),
    /// How often learning packets are sent, in seconds (`IFLA_BOND_LP_INTERVAL`), little-endian.
    LpInterval(u32),
    /// Number of packets that a port sends before the next one (`IFLA_BOND_PACKETS_PER_SLAVE`),
    /// little-endian.
    PacketsPerPort(u32),
    /// How often the partner is to send LACP packets (`IFLA_BOND_AD_LACP_RATE`), one byte.
    AdLacpRate(BondLacpRate),
    /// What an aggregator is chosen by (`IFLA_BOND_AD_SELECT`), one byte.
    AdSelect(BondAdSelect),
    /// Active aggregator of LACP; read only (`IFLA_BOND_AD_INFO`), a nested list.
    AdInfo(Nlas<BondAdInfo>),
    /// Priority of the system in LACP (`IFLA_BOND_AD_ACTOR_SYS_PRIO`), little-endian.
    AdActorSysPrio(u16),
    /// Part of the key of ports that the user sets (`IFLA_BOND_AD_USER_PORT_KEY`), little-endian.
    AdUserPortKey(u16),
    /// Hardware address of the system in LACP (`IFLA_BOND_AD_ACTOR_SYSTEM`), six bytes.
    AdActorSystem([u8; 6]),
    /// Whether ports are chosen by their load (`IFLA_BOND_TLB_DYNAMIC_LB`), one byte.
    TlbDynamicLb(OnOff),
    /// Delay between notifications, in milliseconds (`IFLA_BOND_PEER_NOTIF_DELAY`), little-endian.
    PeerNotifDelay(u32),
    /// Whether LACP packets are sent unasked (`IFLA_BOND_AD_LACP_ACTIVE`), one byte.
    AdLacpActive(OnOff),
    /// Number of missed replies after which a port is down (`IFLA_BOND_MISSED_MAX`), one byte.
    MissedMax(u8),
    /// Addresses that are checked by neighbor solicitations, of which the kernel takes 16
    /// (`IFLA_BOND_NS_IP6_TARGET`), a nested list of addresses.
    NsIp6Target(Addresses<Ipv6Addr>),
    /// Whether collecting and distributing are controlled as one (`IFLA_BOND_COUPLED_CONTROL`), one
    /// byte.
    CoupledControl(OnOff),
    /// Whether neighbor requests are sent on all ports (`IFLA_BOND_BROADCAST_NEIGH`), one byte.
    BroadcastNeigh(OnOff),
    /// Whether a port without a partner of LACP is left unused (`IFLA_BOND_LACP_STRICT`), one byte.
    LacpStrict(OnOff),
    /// An opaque attribute, of a type that has no variant here, kept verbatim.
    Other(DefaultNla),
}

macro_rules! rows {
    ($body:ident $given:tt) => {
        $body! { InfoBond $given;
            (1, u8, Mode as BondMode),
            (2, le32, ActivePort),
            (3, le32, MiiMon),
            (4, le32, UpDelay),
            (5, le32, DownDelay),
            (6, u8, UseCarrier as OnOff),
            (7, le32, ArpInterval),
            (8, custom, ArpIpTarget),
            (9, le32, ArpValidate as BondArpValidate),
            (10, le32, ArpAllTargets as BondArpAllTargets),
            (11, le32, Primary),
            (12, u8, PrimaryReselect as BondPrimaryReselect),
            (13, u8, FailOverMac as BondFailOverMac),
            (14, u8, XmitHashPolicy as BondXmitHashPolicy),
            (15, le32, ResendIgmp),
            (16, u8, NumPeerNotif),
            (17, u8, AllPortsActive as BondAllPortActive),
            (18, le32, MinLinks),
            (19, le32, LpInterval),
            (20, le32, PacketsPerPort),
            (21, u8, AdLacpRate as BondLacpRate),
            (22, u8, AdSelect as BondAdSelect),
            (23, custom, AdInfo),
            (24, le16, AdActorSysPrio),
            (25, le16, AdUserPortKey),
            (26, mac, AdActorSystem),
            (27, u8, TlbDynamicLb as OnOff),
            (28, le32, PeerNotifDelay),
            (29, u8, AdLacpActive as OnOff),
            (30, u8, MissedMax),
            (31, custom, NsIp6Target),
            (32, u8, CoupledControl as OnOff),
            (33, u8, BroadcastNeigh as OnOff),
            (34, u8, LacpStrict as OnOff),
        }
    };
}

impl RowFamily for InfoBond {
    type Context = ();

    const FAMILY: Family = Family::Bond;

    #[inline(always)]
    fn shape(_ctx: (), kind: u16) -> Lookup {
        typed_lookup(Family::Bond, kind)
    }

    #[inline(always)]
    fn store_decoded<P: Slot<InfoBond>>(
        slot: &mut P,
        _ctx: (),
        decoded: Decoded<'_>,
    ) -> Result<(), AllocError> {
        rows!(store_by_rows(slot, decoded))
    }

    #[inline(always)]
    fn to_encodable(&self) -> Encodable<'_> {
        rows!(encodable_by_rows self)
    }
}

/// The row of `IFLA_BOND_ARP_IP_TARGET`. Wherever it is named, `T` is `()`.
pub struct ArpIpTargetRow<T> {
    of: PhantomData<T>,
}

impl<T> PayloadRow<InfoBond> for ArpIpTargetRow<T> {
    type Payload = Addresses<Ipv4Addr>;

    const NUMBER: u16 = 8;

    const NESTED: bool = false;

    fn wrap(payload: Addresses<Ipv4Addr>) -> InfoBond {
        InfoBond::ArpIpTarget(payload)
    }

    fn payload(value: &InfoBond) -> Option<&Addresses<Ipv4Addr>> {
        match value {
            InfoBond::ArpIpTarget(payload) => Some(payload),
            _ => None,
        }
    }
}

/// The row of `IFLA_BOND_AD_INFO`. Wherever it is named, `T` is `()`.
pub struct AdInfoRow<T> {
    of: PhantomData<T>,
}

impl<T> PayloadRow<InfoBond> for AdInfoRow<T> {
    type Payload = Nlas<BondAdInfo>;

    const NUMBER: u16 = 23;

    const NESTED: bool = false;

    fn wrap(payload: Nlas<BondAdInfo>) -> InfoBond {
        InfoBond::AdInfo(payload)
    }

    fn payload(value: &InfoBond) -> Option<&Nlas<BondAdInfo>> {
        match value {
            InfoBond::AdInfo(payload) => Some(payload),
            _ => None,
        }
    }
}

/// The row of `IFLA_BOND_NS_IP6_TARGET`. Wherever it is named, `T` is `()`.
pub struct NsIp6TargetRow<T> {
    of: PhantomData<T>,
}

impl<T> PayloadRow<InfoBond> for NsIp6TargetRow<T> {
    type Payload = Addresses<Ipv6Addr>;

    const NUMBER: u16 = 31;

    const NESTED: bool = true;

    fn wrap(payload: Addresses<Ipv6Addr>) -> InfoBond {
        InfoBond::NsIp6Target(payload)
    }

    fn payload(value: &InfoBond) -> Option<&Addresses<Ipv6Addr>> {
        match value {
            InfoBond::NsIp6Target(payload) => Some(payload),
            _ => None,
        }
    }
}

impl TableFamily for InfoBond {
    type Custom = Both<(ArpIpTargetRow<()>, ()), (AdInfoRow<()>, (NsIp6TargetRow<()>, ()))>;

    const IS_SET: bool = false;
}

impl Nla for InfoBond {
    #[inline]
    fn value_len(&self) -> usize {
        <InfoBond as TableFamily>::Custom::value_len(self)
    }

    #[inline]
    fn kind(&self) -> u16 {
        <InfoBond as TableFamily>::Custom::kind(self)
    }

    #[inline]
    fn emit_value(&self, buffer: &mut [u8]) {
        self.emit_payload(buffer);
    }

    #[inline]
    fn emit_payload(&self, buffer: &mut [u8]) -> usize {
        <InfoBond as TableFamily>::Custom::emit(self, buffer)
    }

    #[inline]
    fn fit_len(&self) -> Option<usize> {
        <InfoBond as TableFamily>::Custom::fit_len(self)
    }
}

/// Reads the attribute. A payload of invalid length is rejected as `(Bond, type, Length)`. A list
/// is rejected with the first error in it: that of an attribute inside, or `(Frame, 0, Header)`. So
/// is a list of addresses, in which an attribute of another length has the error `(Bond, type,
/// Length)` with the type of the list.
impl<'a> Parseable<NlaBuffer<'a>> for InfoBond {
    #[inline]
    fn parse(buffer: &NlaBuffer<'a>) -> Result<InfoBond, DecodeError> {
        <InfoBond as LinkFamily>::read(buffer, (), &mut HeaderCount::new())
    }
}

impl ExactEq for InfoBond {}
