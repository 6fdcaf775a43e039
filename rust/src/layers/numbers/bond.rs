// @generated from crates/linkinfo_numbers/src/bond.rt by rust/translate/run.

// Written by tables/generate from tables/numbers/bond.
//! Bonds and their ports.

use crate::layers::nla_frame::{DecodeError, ExactEq, Family};
use crate::layers::numbers::by_values::{
    number_of_value, value_of_number, value_of_word, write_word,
};
use crate::layers::numbers::flag_words::{FlagWords, bits_of_text};
use crate::layers::numbers::flags::KeepsEveryBit;
use crate::layers::numbers::word::word_error;
use bitflags::{Flag, Flags};
use core::fmt;
use core::str::FromStr;

/// The mode of a bond: `IFLA_BOND_MODE`, one byte (include/uapi/linux/if_bonding.h).
#[derive(Clone, Copy, Debug, PartialEq, Eq, Hash, PartialOrd, Ord)]
pub enum BondMode {
    /// `BOND_MODE_ROUNDROBIN`: frames go out of the ports in turn.
    BalanceRr,
    /// `BOND_MODE_ACTIVEBACKUP`: one port is used, the others stand by.
    ActiveBackup,
    /// `BOND_MODE_XOR`: a hash of the frame chooses the port.
    BalanceXor,
    /// `BOND_MODE_BROADCAST`: each frame goes out of all ports.
    Broadcast,
    /// `BOND_MODE_8023AD`: LACP, IEEE 802.3ad.
    Ieee8023Ad,
    /// `BOND_MODE_TLB`: sent frames are balanced by load.
    BalanceTlb,
    /// `BOND_MODE_ALB`: received frames are balanced, too.
    BalanceAlb,
    /// Any number without a name.
    Other(u8),
}

macro_rules! modes {
    ($body:ident $given:tt) => {
        $body! { BondMode $given;
            (BalanceRr, 0, "balance-rr"),
            (ActiveBackup, 1, "active-backup"),
            (BalanceXor, 2, "balance-xor"),
            (Broadcast, 3, "broadcast"),
            (Ieee8023Ad, 4, "802.3ad"),
            (BalanceTlb, 5, "balance-tlb"),
            (BalanceAlb, 6, "balance-alb"),
        }
    };
}

impl From<u8> for BondMode {
    fn from(number: u8) -> BondMode {
        modes!(value_of_number number)
    }
}

impl From<BondMode> for u8 {
    fn from(mode: BondMode) -> u8 {
        modes!(number_of_value mode)
    }
}

impl fmt::Display for BondMode {
    fn fmt(&self, f: &mut fmt::Formatter<'_>) -> fmt::Result {
        modes!(write_word(self, f))
    }
}

/// Every text that `Display` does not write is rejected as `(Bond, 0, Word)`.
impl FromStr for BondMode {
    type Err = DecodeError;

    fn from_str(word: &str) -> Result<BondMode, DecodeError> {
        modes!(value_of_word(word, Family::Bond))
    }
}

impl Default for BondMode {
    fn default() -> BondMode {
        BondMode::BalanceRr
    }
}

impl ExactEq for BondMode {}

/// Which ports of a bond have their ARP packets validated: `IFLA_BOND_ARP_VALIDATE`, a
/// little-endian 32-bit number (include/net/bonding.h).
#[derive(Clone, Copy, Debug, PartialEq, Eq, Hash, PartialOrd, Ord)]
pub enum BondArpValidate {
    /// `BOND_ARP_VALIDATE_NONE`: none.
    None,
    /// `BOND_ARP_VALIDATE_ACTIVE`: the active port.
    Active,
    /// `BOND_ARP_VALIDATE_BACKUP`: the ports that stand by.
    Backup,
    /// `BOND_ARP_VALIDATE_ALL`: all ports.
    All,
    /// `BOND_ARP_FILTER`: none; only ARP packets count.
    Filter,
    /// `BOND_ARP_FILTER_ACTIVE`: the active port; only ARP packets count.
    FilterActive,
    /// `BOND_ARP_FILTER_BACKUP`: the ports that stand by; only ARP packets count.
    FilterBackup,
    /// Any number without a name.
    Other(u32),
}

macro_rules! validates {
    ($body:ident $given:tt) => {
        $body! { BondArpValidate $given;
            (None, 0, "none"),
            (Active, 1, "active"),
            (Backup, 2, "backup"),
            (All, 3, "all"),
            (Filter, 4, "filter"),
            (FilterActive, 5, "filter_active"),
            (FilterBackup, 6, "filter_backup"),
        }
    };
}

impl From<u32> for BondArpValidate {
    fn from(number: u32) -> BondArpValidate {
        validates!(value_of_number number)
    }
}

impl From<BondArpValidate> for u32 {
    fn from(validate: BondArpValidate) -> u32 {
        validates!(number_of_value validate)
    }
}

impl fmt::Display for BondArpValidate {
    fn fmt(&self, f: &mut fmt::Formatter<'_>) -> fmt::Result {
        validates!(write_word(self, f))
    }
}

/// Every text that `Display` does not write is rejected as `(Bond, 0, Word)`.
impl FromStr for BondArpValidate {
    type Err = DecodeError;

    fn from_str(word: &str) -> Result<BondArpValidate, DecodeError> {
        validates!(value_of_word(word, Family::Bond))
    }
}

impl Default for BondArpValidate {
    fn default() -> BondArpValidate {
        BondArpValidate::None
    }
}

impl ExactEq for BondArpValidate {}

/// How many targets of ARP must answer: `IFLA_BOND_ARP_ALL_TARGETS`, a little-endian 32-bit number
/// (include/net/bonding.h).
#[derive(Clone, Copy, Debug, PartialEq, Eq, Hash, PartialOrd, Ord)]
pub enum BondArpAllTargets {
    /// `BOND_ARP_TARGETS_ANY`: one.
    Any,
    /// `BOND_ARP_TARGETS_ALL`: all.
    All,
    /// Any number without a name.
    Other(u32),
}

macro_rules! targets {
    ($body:ident $given:tt) => {
        $body! { BondArpAllTargets $given;
            (Any, 0, "any"),
            (All, 1, "all"),
        }
    };
}

impl From<u32> for BondArpAllTargets {
    fn from(number: u32) -> BondArpAllTargets {
        targets!(value_of_number number)
    }
}

impl From<BondArpAllTargets> for u32 {
    fn from(targets: BondArpAllTargets) -> u32 {
        targets!(number_of_value targets)
    }
}

impl fmt::Display for BondArpAllTargets {
    fn fmt(&self, f: &mut fmt::Formatter<'_>) -> fmt::Result {
        targets!(write_word(self, f))
    }
}

/// Every text that `Display` does not write is rejected as `(Bond, 0, Word)`.
impl FromStr for BondArpAllTargets {
    type Err = DecodeError;

    fn from_str(word: &str) -> Result<BondArpAllTargets, DecodeError> {
        targets!(value_of_word(word, Family::Bond))
    }
}

impl Default for BondArpAllTargets {
    fn default() -> BondArpAllTargets {
        BondArpAllTargets::Any
    }
}

impl ExactEq for BondArpAllTargets {}

/// When the primary port of a bond becomes active again: `IFLA_BOND_PRIMARY_RESELECT`, one byte
/// (include/net/bonding.h).
#[derive(Clone, Copy, Debug, PartialEq, Eq, Hash, PartialOrd, Ord)]
pub enum BondPrimaryReselect {
    /// `BOND_PRI_RESELECT_ALWAYS`: as soon as it is up.
    Always,
    /// `BOND_PRI_RESELECT_BETTER`: if it is faster than the active port.
    Better,
    /// `BOND_PRI_RESELECT_FAILURE`: if the active port fails.
    Failure,
    /// Any number without a name.
    Other(u8),
}

macro_rules! reselects {
    ($body:ident $given:tt) => {
        $body! { BondPrimaryReselect $given;
            (Always, 0, "always"),
            (Better, 1, "better"),
            (Failure, 2, "failure"),
        }
    };
}

impl From<u8> for BondPrimaryReselect {
    fn from(number: u8) -> BondPrimaryReselect {
        reselects!(value_of_number number)
    }
}

impl From<BondPrimaryReselect> for u8 {
    fn from(reselect: BondPrimaryReselect) -> u8 {
        reselects!(number_of_value reselect)
    }
}

impl fmt::Display for BondPrimaryReselect {
    fn fmt(&self, f: &mut fmt::Formatter<'_>) -> fmt::Result {
        reselects!(write_word(self, f))
    }
}

/// Every text that `Display` does not write is rejected as `(Bond, 0, Word)`.
impl FromStr for BondPrimaryReselect {
    type Err = DecodeError;

    fn from_str(word: &str) -> Result<BondPrimaryReselect, DecodeError> {
        reselects!(value_of_word(word, Family::Bond))
    }
}

impl Default for BondPrimaryReselect {
    fn default() -> BondPrimaryReselect {
        BondPrimaryReselect::Always
    }
}

impl ExactEq for BondPrimaryReselect {}

/// Which hardware addresses a bond and its ports have: `IFLA_BOND_FAIL_OVER_MAC`, one byte
/// (include/net/bonding.h).
#[derive(Clone, Copy, Debug, PartialEq, Eq, Hash, PartialOrd, Ord)]
pub enum BondFailOverMac {
    /// `BOND_FOM_NONE`: all have that of the bond.
    None,
    /// `BOND_FOM_ACTIVE`: the bond has that of the active port.
    Active,
    /// `BOND_FOM_FOLLOW`: a port gets that of the bond as it becomes active.
    Follow,
    /// Any number without a name.
    Other(u8),
}

macro_rules! fail_overs {
    ($body:ident $given:tt) => {
        $body! { BondFailOverMac $given;
            (None, 0, "none"),
            (Active, 1, "active"),
            (Follow, 2, "follow"),
        }
    };
}

impl From<u8> for BondFailOverMac {
    fn from(number: u8) -> BondFailOverMac {
        fail_overs!(value_of_number number)
    }
}

impl From<BondFailOverMac> for u8 {
    fn from(fail_over: BondFailOverMac) -> u8 {
        fail_overs!(number_of_value fail_over)
    }
}

impl fmt::Display for BondFailOverMac {
    fn fmt(&self, f: &mut fmt::Formatter<'_>) -> fmt::Result {
        fail_overs!(write_word(self, f))
    }
}

/// Every text that `Display` does not write is rejected as `(Bond, 0, Word)`.
impl FromStr for BondFailOverMac {
    type Err = DecodeError;

    fn from_str(word: &str) -> Result<BondFailOverMac, DecodeError> {
        fail_overs!(value_of_word(word, Family::Bond))
    }
}

impl Default for BondFailOverMac {
    fn default() -> BondFailOverMac {
        BondFailOverMac::None
    }
}

impl ExactEq for BondFailOverMac {}

/// What the port of a frame is chosen by: `IFLA_BOND_XMIT_HASH_POLICY`, one byte
/// (include/uapi/linux/if_bonding.h).
#[derive(Clone, Copy, Debug, PartialEq, Eq, Hash, PartialOrd, Ord)]
pub enum BondXmitHashPolicy {
    /// `BOND_XMIT_POLICY_LAYER2`: hardware addresses.
    Layer2,
    /// `BOND_XMIT_POLICY_LAYER34`: IP addresses and ports.
    Layer34,
    /// `BOND_XMIT_POLICY_LAYER23`: hardware and IP addresses.
    Layer23,
    /// `BOND_XMIT_POLICY_ENCAP23`: as `layer2+3`, inside tunnels.
    Encap23,
    /// `BOND_XMIT_POLICY_ENCAP34`: as `layer3+4`, inside tunnels.
    Encap34,
    /// `BOND_XMIT_POLICY_VLAN_SRCMAC`: VLAN and source address.
    VlanSrcMac,
    /// Any number without a name.
    Other(u8),
}

macro_rules! policies {
    ($body:ident $given:tt) => {
        $body! { BondXmitHashPolicy $given;
            (Layer2, 0, "layer2"),
            (Layer34, 1, "layer3+4"),
            (Layer23, 2, "layer2+3"),
            (Encap23, 3, "encap2+3"),
            (Encap34, 4, "encap3+4"),
            (VlanSrcMac, 5, "vlan+srcmac"),
        }
    };
}

impl From<u8> for BondXmitHashPolicy {
    fn from(number: u8) -> BondXmitHashPolicy {
        policies!(value_of_number number)
    }
}

impl From<BondXmitHashPolicy> for u8 {
    fn from(policy: BondXmitHashPolicy) -> u8 {
        policies!(number_of_value policy)
    }
}

impl fmt::Display for BondXmitHashPolicy {
    fn fmt(&self, f: &mut fmt::Formatter<'_>) -> fmt::Result {
        policies!(write_word(self, f))
    }
}

/// Every text that `Display` does not write is rejected as `(Bond, 0, Word)`.
impl FromStr for BondXmitHashPolicy {
    type Err = DecodeError;

    fn from_str(word: &str) -> Result<BondXmitHashPolicy, DecodeError> {
        policies!(value_of_word(word, Family::Bond))
    }
}

impl Default for BondXmitHashPolicy {
    fn default() -> BondXmitHashPolicy {
        BondXmitHashPolicy::Layer2
    }
}

impl ExactEq for BondXmitHashPolicy {}

/// What becomes of frames that inactive ports receive: `IFLA_BOND_ALL_SLAVES_ACTIVE`, one byte
/// (include/uapi/linux/if_link.h).
#[derive(Clone, Copy, Debug, PartialEq, Eq, Hash, PartialOrd, Ord)]
pub enum BondAllPortActive {
    /// They are dropped (0).
    Dropped,
    /// They are delivered (1).
    Delivered,
    /// Any number without a name.
    Other(u8),
}

macro_rules! all_actives {
    ($body:ident $given:tt) => {
        $body! { BondAllPortActive $given;
            (Dropped, 0),
            (Delivered, 1),
        }
    };
}

impl From<u8> for BondAllPortActive {
    fn from(number: u8) -> BondAllPortActive {
        all_actives!(value_of_number number)
    }
}

impl From<BondAllPortActive> for u8 {
    fn from(all_active: BondAllPortActive) -> u8 {
        all_actives!(number_of_value all_active)
    }
}

impl ExactEq for BondAllPortActive {}

/// How often the partner is to send LACP packets: `IFLA_BOND_AD_LACP_RATE`, one byte
/// (include/net/bond_3ad.h).
#[derive(Clone, Copy, Debug, PartialEq, Eq, Hash, PartialOrd, Ord)]
pub enum BondLacpRate {
    /// `AD_LACP_SLOW`: every 30 seconds.
    Slow,
    /// `AD_LACP_FAST`: every second.
    Fast,
    /// Any number without a name.
    Other(u8),
}

macro_rules! rates {
    ($body:ident $given:tt) => {
        $body! { BondLacpRate $given;
            (Slow, 0, "slow"),
            (Fast, 1, "fast"),
        }
    };
}

impl From<u8> for BondLacpRate {
    fn from(number: u8) -> BondLacpRate {
        rates!(value_of_number number)
    }
}

impl From<BondLacpRate> for u8 {
    fn from(rate: BondLacpRate) -> u8 {
        rates!(number_of_value rate)
    }
}

impl fmt::Display for BondLacpRate {
    fn fmt(&self, f: &mut fmt::Formatter<'_>) -> fmt::Result {
        rates!(write_word(self, f))
    }
}

/// Every text that `Display` does not write is rejected as `(Bond, 0, Word)`.
impl FromStr for BondLacpRate {
    type Err = DecodeError;

    fn from_str(word: &str) -> Result<BondLacpRate, DecodeError> {
        rates!(value_of_word(word, Family::Bond))
    }
}

impl Default for BondLacpRate {
    fn default() -> BondLacpRate {
        BondLacpRate::Slow
    }
}

impl ExactEq for BondLacpRate {}

/// What the active aggregator is chosen by: `IFLA_BOND_AD_SELECT`, one byte
/// (include/net/bond_3ad.h).
#[derive(Clone, Copy, Debug, PartialEq, Eq, Hash, PartialOrd, Ord)]
pub enum BondAdSelect {
    /// `BOND_AD_STABLE`: bandwidth, when the active one fails.
    Stable,
    /// `BOND_AD_BANDWIDTH`: bandwidth.
    Bandwidth,
    /// `BOND_AD_COUNT`: number of ports.
    Count,
    /// `BOND_AD_PRIO`: priorities of ports.
    ActorPortPrio,
    /// Any number without a name.
    Other(u8),
}

macro_rules! selects {
    ($body:ident $given:tt) => {
        $body! { BondAdSelect $given;
            (Stable, 0, "stable"),
            (Bandwidth, 1, "bandwidth"),
            (Count, 2, "count"),
            (ActorPortPrio, 3, "actor_port_prio"),
        }
    };
}

impl From<u8> for BondAdSelect {
    fn from(number: u8) -> BondAdSelect {
        selects!(value_of_number number)
    }
}

impl From<BondAdSelect> for u8 {
    fn from(select: BondAdSelect) -> u8 {
        selects!(number_of_value select)
    }
}

impl fmt::Display for BondAdSelect {
    fn fmt(&self, f: &mut fmt::Formatter<'_>) -> fmt::Result {
        selects!(write_word(self, f))
    }
}

/// Every text that `Display` does not write is rejected as `(Bond, 0, Word)`.
impl FromStr for BondAdSelect {
    type Err = DecodeError;

    fn from_str(word: &str) -> Result<BondAdSelect, DecodeError> {
        selects!(value_of_word(word, Family::Bond))
    }
}

impl Default for BondAdSelect {
    fn default() -> BondAdSelect {
        BondAdSelect::Stable
    }
}

impl ExactEq for BondAdSelect {}

/// Whether a port of a bond is used: `IFLA_BOND_SLAVE_STATE`, one byte
/// (include/uapi/linux/if_bonding.h).
#[derive(Clone, Copy, Debug, PartialEq, Eq, Hash, PartialOrd, Ord)]
pub enum BondPortState {
    /// `BOND_STATE_ACTIVE`: it sends and receives.
    Active,
    /// `BOND_STATE_BACKUP`: it stands by.
    Backup,
    /// Any number without a name.
    Other(u8),
}

macro_rules! states {
    ($body:ident $given:tt) => {
        $body! { BondPortState $given;
            (Active, 0, "ACTIVE"),
            (Backup, 1, "BACKUP"),
        }
    };
}

impl From<u8> for BondPortState {
    fn from(number: u8) -> BondPortState {
        states!(value_of_number number)
    }
}

impl From<BondPortState> for u8 {
    fn from(state: BondPortState) -> u8 {
        states!(number_of_value state)
    }
}

impl fmt::Display for BondPortState {
    fn fmt(&self, f: &mut fmt::Formatter<'_>) -> fmt::Result {
        states!(write_word(self, f))
    }
}

/// Every text that `Display` does not write is rejected as `(BondPort, 0, Word)`.
impl FromStr for BondPortState {
    type Err = DecodeError;

    fn from_str(word: &str) -> Result<BondPortState, DecodeError> {
        states!(value_of_word(word, Family::BondPort))
    }
}

impl ExactEq for BondPortState {}

/// What the monitor of a bond says of a port's link: `IFLA_BOND_SLAVE_MII_STATUS`, one byte
/// (include/uapi/linux/if_bonding.h).
#[derive(Clone, Copy, Debug, PartialEq, Eq, Hash, PartialOrd, Ord)]
pub enum MiiStatus {
    /// `BOND_LINK_UP`: it is up.
    Up,
    /// `BOND_LINK_FAIL`: it went down just now.
    GoingDown,
    /// `BOND_LINK_DOWN`: it is down.
    Down,
    /// `BOND_LINK_BACK`: it is coming up.
    GoingBack,
    /// Any number without a name.
    Other(u8),
}

macro_rules! statuses {
    ($body:ident $given:tt) => {
        $body! { MiiStatus $given;
            (Up, 0, "UP"),
            (GoingDown, 1, "GOING_DOWN"),
            (Down, 2, "DOWN"),
            (GoingBack, 3, "GOING_BACK"),
        }
    };
}

impl From<u8> for MiiStatus {
    fn from(number: u8) -> MiiStatus {
        statuses!(value_of_number number)
    }
}

impl From<MiiStatus> for u8 {
    fn from(status: MiiStatus) -> u8 {
        statuses!(number_of_value status)
    }
}

impl fmt::Display for MiiStatus {
    fn fmt(&self, f: &mut fmt::Formatter<'_>) -> fmt::Result {
        statuses!(write_word(self, f))
    }
}

/// Every text that `Display` does not write is rejected as `(BondPort, 0, Word)`.
impl FromStr for MiiStatus {
    type Err = DecodeError;

    fn from_str(word: &str) -> Result<MiiStatus, DecodeError> {
        statuses!(value_of_word(word, Family::BondPort))
    }
}

impl ExactEq for MiiStatus {}

/// What the churn machine of LACP says of a port: `IFLA_BOND_SLAVE_AD_CHURN_ACTOR_STATE` and
/// `IFLA_BOND_SLAVE_AD_CHURN_PARTNER_STATE`, one byte (include/net/bond_3ad.h).
#[derive(Clone, Copy, Debug, PartialEq, Eq, Hash, PartialOrd, Ord)]
pub enum ChurnState {
    /// `AD_CHURN_MONITOR`: whether the port gets in sync is watched.
    Monitor,
    /// `AD_CHURN`: the port does not get in sync.
    Churn,
    /// `AD_NO_CHURN`: the port is in sync.
    NoChurn,
    /// Any number without a name.
    Other(u8),
}

macro_rules! churns {
    ($body:ident $given:tt) => {
        $body! { ChurnState $given;
            (Monitor, 0, "MONITOR"),
            (Churn, 1, "CHURN"),
            (NoChurn, 2, "NO_CHURN"),
        }
    };
}

impl From<u8> for ChurnState {
    fn from(number: u8) -> ChurnState {
        churns!(value_of_number number)
    }
}

impl From<ChurnState> for u8 {
    fn from(churn: ChurnState) -> u8 {
        churns!(number_of_value churn)
    }
}

impl fmt::Display for ChurnState {
    fn fmt(&self, f: &mut fmt::Formatter<'_>) -> fmt::Result {
        churns!(write_word(self, f))
    }
}

/// Every text that `Display` does not write is rejected as `(BondPort, 0, Word)`.
impl FromStr for ChurnState {
    type Err = DecodeError;

    fn from_str(word: &str) -> Result<ChurnState, DecodeError> {
        churns!(value_of_word(word, Family::BondPort))
    }
}

impl ExactEq for ChurnState {}

/// The state of a port by LACP: `IFLA_BOND_SLAVE_AD_ACTOR_OPER_PORT_STATE`, one byte
/// (include/uapi/linux/if_bonding.h). Every 8-bit number is a valid set.
#[derive(Clone, Copy, Debug, PartialEq, Eq, Hash, PartialOrd, Ord)]
pub struct LacpState(u8);

impl LacpState {
    /// `LACP_STATE_LACP_ACTIVITY`: LACP is active.
    pub const Activity: LacpState = LacpState(0x01);

    /// `LACP_STATE_LACP_TIMEOUT`: timeouts are short.
    pub const Timeout: LacpState = LacpState(0x02);

    /// `LACP_STATE_AGGREGATION`: the port can be aggregated.
    pub const Aggregation: LacpState = LacpState(0x04);

    /// `LACP_STATE_SYNCHRONIZATION`: the port is in sync.
    pub const Synchronization: LacpState = LacpState(0x08);

    /// `LACP_STATE_COLLECTING`: frames are received.
    pub const Collecting: LacpState = LacpState(0x10);

    /// `LACP_STATE_DISTRIBUTING`: frames are sent.
    pub const Distributing: LacpState = LacpState(0x20);

    /// `LACP_STATE_DEFAULTED`: the partner is the default one.
    pub const Defaulted: LacpState = LacpState(0x40);

    /// `LACP_STATE_EXPIRED`: the partner was not heard of in time.
    pub const Expired: LacpState = LacpState(0x80);

    const TABLE: &'static [Flag<LacpState>] = &[
        Flag::new("Activity", LacpState::Activity),
        Flag::new("Timeout", LacpState::Timeout),
        Flag::new("Aggregation", LacpState::Aggregation),
        Flag::new("Synchronization", LacpState::Synchronization),
        Flag::new("Collecting", LacpState::Collecting),
        Flag::new("Distributing", LacpState::Distributing),
        Flag::new("Defaulted", LacpState::Defaulted),
        Flag::new("Expired", LacpState::Expired),
        Flag::new("", LacpState(u8::MAX)),
    ];

    const WORDS: &'static [(u32, &'static str)] = &[
        (0x01, "active"),
        (0x02, "short_timeout"),
        (0x04, "aggregating"),
        (0x08, "in_sync"),
        (0x10, "collecting"),
        (0x20, "distributing"),
        (0x40, "defaulted"),
        (0x80, "expired"),
    ];
}

impl Flags for LacpState {
    type Bits = u8;

    const FLAGS: &'static [Flag<LacpState>] = LacpState::TABLE;

    fn bits(&self) -> u8 {
        self.0
    }

    fn from_bits_retain(bits: u8) -> LacpState {
        LacpState(bits)
    }
}

/// Every number is a set.
impl From<u8> for LacpState {
    fn from(bits: u8) -> LacpState {
        LacpState(bits)
    }
}

impl From<LacpState> for u8 {
    fn from(set: LacpState) -> u8 {
        set.0
    }
}

impl KeepsEveryBit for LacpState {}

/// Writes the words of the flags, and other bits in hex, with commas between them; of the empty set
/// nothing.
impl fmt::Display for LacpState {
    fn fmt(&self, f: &mut fmt::Formatter<'_>) -> fmt::Result {
        let set = FlagWords {
            bits: u32::from(self.0),
            known: 0xff,
            words: LacpState::WORDS,
        };
        fmt::Display::fmt(&set, f)
    }
}

/// Reads words, and numbers in hex as `0x20`, with commas between them; the empty text is the empty
/// set. Any other text, and a number of more than 8 bits, is rejected as `(BondPort, 0, Word)`.
impl FromStr for LacpState {
    type Err = DecodeError;

    fn from_str(text: &str) -> Result<LacpState, DecodeError> {
        let Some(bits) = bits_of_text(text, LacpState::WORDS) else {
            return Err(word_error(Family::BondPort));
        };
        match u8::try_from(bits) {
            Ok(bits) => Ok(LacpState(bits)),
            Err(_) => Err(word_error(Family::BondPort)),
        }
    }
}

/// The default is the empty set.
impl Default for LacpState {
    fn default() -> LacpState {
        LacpState(0)
    }
}

impl ExactEq for LacpState {}

/// The state of a partner's port by LACP, of which eight bits are used:
/// `IFLA_BOND_SLAVE_AD_PARTNER_OPER_PORT_STATE`, a little-endian 16-bit number
/// (include/uapi/linux/if_bonding.h). Every 16-bit number is a valid set.
#[derive(Clone, Copy, Debug, PartialEq, Eq, Hash, PartialOrd, Ord)]
pub struct LacpState16(u16);

impl LacpState16 {
    /// `LACP_STATE_LACP_ACTIVITY`: LACP is active.
    pub const Activity: LacpState16 = LacpState16(0x01);

    /// `LACP_STATE_LACP_TIMEOUT`: timeouts are short.
    pub const Timeout: LacpState16 = LacpState16(0x02);

    /// `LACP_STATE_AGGREGATION`: the port can be aggregated.
    pub const Aggregation: LacpState16 = LacpState16(0x04);

    /// `LACP_STATE_SYNCHRONIZATION`: the port is in sync.
    pub const Synchronization: LacpState16 = LacpState16(0x08);

    /// `LACP_STATE_COLLECTING`: frames are received.
    pub const Collecting: LacpState16 = LacpState16(0x10);

    /// `LACP_STATE_DISTRIBUTING`: frames are sent.
    pub const Distributing: LacpState16 = LacpState16(0x20);

    /// `LACP_STATE_DEFAULTED`: the partner is the default one.
    pub const Defaulted: LacpState16 = LacpState16(0x40);

    /// `LACP_STATE_EXPIRED`: the partner was not heard of in time.
    pub const Expired: LacpState16 = LacpState16(0x80);

    const TABLE: &'static [Flag<LacpState16>] = &[
        Flag::new("Activity", LacpState16::Activity),
        Flag::new("Timeout", LacpState16::Timeout),
        Flag::new("Aggregation", LacpState16::Aggregation),
        Flag::new("Synchronization", LacpState16::Synchronization),
        Flag::new("Collecting", LacpState16::Collecting),
        Flag::new("Distributing", LacpState16::Distributing),
        Flag::new("Defaulted", LacpState16::Defaulted),
        Flag::new("Expired", LacpState16::Expired),
        Flag::new("", LacpState16(u16::MAX)),
    ];

    const WORDS: &'static [(u32, &'static str)] = &[
        (0x01, "active"),
        (0x02, "short_timeout"),
        (0x04, "aggregating"),
        (0x08, "in_sync"),
        (0x10, "collecting"),
        (0x20, "distributing"),
        (0x40, "defaulted"),
        (0x80, "expired"),
    ];
}

impl Flags for LacpState16 {
    type Bits = u16;

    const FLAGS: &'static [Flag<LacpState16>] = LacpState16::TABLE;

    fn bits(&self) -> u16 {
        self.0
    }

    fn from_bits_retain(bits: u16) -> LacpState16 {
        LacpState16(bits)
    }
}

/// Every number is a set.
impl From<u16> for LacpState16 {
    fn from(bits: u16) -> LacpState16 {
        LacpState16(bits)
    }
}

impl From<LacpState16> for u16 {
    fn from(set: LacpState16) -> u16 {
        set.0
    }
}

impl KeepsEveryBit for LacpState16 {}

/// Writes the words of the flags, and other bits in hex, with commas between them; of the empty set
/// nothing.
impl fmt::Display for LacpState16 {
    fn fmt(&self, f: &mut fmt::Formatter<'_>) -> fmt::Result {
        let set = FlagWords {
            bits: u32::from(self.0),
            known: 0xff,
            words: LacpState16::WORDS,
        };
        fmt::Display::fmt(&set, f)
    }
}

/// Reads words, and numbers in hex as `0x20`, with commas between them; the empty text is the empty
/// set. Any other text, and a number of more than 16 bits, is rejected as `(BondPort, 0, Word)`.
impl FromStr for LacpState16 {
    type Err = DecodeError;

    fn from_str(text: &str) -> Result<LacpState16, DecodeError> {
        let Some(bits) = bits_of_text(text, LacpState16::WORDS) else {
            return Err(word_error(Family::BondPort));
        };
        match u16::try_from(bits) {
            Ok(bits) => Ok(LacpState16(bits)),
            Err(_) => Err(word_error(Family::BondPort)),
        }
    }
}

/// The default is the empty set.
impl Default for LacpState16 {
    fn default() -> LacpState16 {
        LacpState16(0)
    }
}

impl ExactEq for LacpState16 {}

/// Whether something is on, where the kernel takes no other numbers, as `IFLA_BOND_AD_LACP_ACTIVE`,
/// one byte (include/uapi/linux/if_link.h).
#[derive(Clone, Copy, Debug, PartialEq, Eq, Hash, PartialOrd, Ord)]
pub enum OnOff {
    /// It is off (0).
    Off,
    /// It is on (1).
    On,
    /// Any number without a name.
    Other(u8),
}

macro_rules! switches {
    ($body:ident $given:tt) => {
        $body! { OnOff $given;
            (Off, 0, "off"),
            (On, 1, "on"),
        }
    };
}

impl From<u8> for OnOff {
    fn from(number: u8) -> OnOff {
        switches!(value_of_number number)
    }
}

impl From<OnOff> for u8 {
    fn from(switch: OnOff) -> u8 {
        switches!(number_of_value switch)
    }
}

/// True is [`On`], false is [`Off`].
///
/// [`On`]: crate::layers::numbers::OnOff::On
/// [`Off`]: crate::layers::numbers::OnOff::Off
impl From<bool> for OnOff {
    fn from(truth: bool) -> OnOff {
        if truth { OnOff::On } else { OnOff::Off }
    }
}

impl fmt::Display for OnOff {
    fn fmt(&self, f: &mut fmt::Formatter<'_>) -> fmt::Result {
        switches!(write_word(self, f))
    }
}

/// Every text that `Display` does not write is rejected as `(Bond, 0, Word)`.
impl FromStr for OnOff {
    type Err = DecodeError;

    fn from_str(word: &str) -> Result<OnOff, DecodeError> {
        switches!(value_of_word(word, Family::Bond))
    }
}

impl Default for OnOff {
    fn default() -> OnOff {
        OnOff::Off
    }
}

impl ExactEq for OnOff {}
