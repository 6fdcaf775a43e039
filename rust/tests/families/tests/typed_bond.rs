// @generated from crates/linkinfo_families_tests/src/tests/typed_bond.rt by rust/translate/run.

//! Typed attributes of `bond` links, two of which are lists of addresses, and those of the active
//! aggregator of LACP in another one.

use super::lengths::{has_elements, has_lists, has_only_length};
use super::rows::{
    Differing, HEADER, HasExample, HoldsOthers, NotMet, UNLISTED, assert_is, compare_lists,
    has_rows_and_others, has_shapes, is_parsed, is_reply, list_is_written_as, lists_are_read,
    lists_are_rejected, lists_differ, meet_requests,
};
use crate::support::*;
use linkinfo::layers::nla_frame::{Cause, DecodeError, DefaultNla, Family, Nla, Nlas};
use linkinfo::layers::payloads::Addresses;
use linkinfo::layers::table::{Shape, list_error};
use linkinfo::layers::typed::{BondAdInfo, InfoBond};
use std::net::{Ipv4Addr, Ipv6Addr};

/// Types, and the shapes of their rows.
const SHAPES: &[(u16, Shape)] = &[
    (1, Shape::U8),
    (2, Shape::Le32),
    (3, Shape::Le32),
    (4, Shape::Le32),
    (5, Shape::Le32),
    (6, Shape::U8),
    (7, Shape::Le32),
    (8, Shape::V4List),
    (9, Shape::Le32),
    (10, Shape::Le32),
    (11, Shape::Le32),
    (12, Shape::U8),
    (13, Shape::U8),
    (14, Shape::U8),
    (15, Shape::Le32),
    (16, Shape::U8),
    (17, Shape::U8),
    (18, Shape::Le32),
    (19, Shape::Le32),
    (20, Shape::Le32),
    (21, Shape::U8),
    (22, Shape::U8),
    (23, Shape::Nested(Family::BondAdInfo)),
    (24, Shape::Le16),
    (25, Shape::Le16),
    (26, Shape::Mac),
    (27, Shape::U8),
    (28, Shape::Le32),
    (29, Shape::U8),
    (30, Shape::U8),
    (31, Shape::V6List),
    (32, Shape::U8),
    (33, Shape::U8),
    (34, Shape::U8),
];

/// Canonical attributes of all rows without a list, and their values as `Debug` writes them.
const ROWS: &[(&[u8], &str)] = &[
    (&[5, 0, 1, 0, 4, 0, 0, 0], "Mode(Ieee8023Ad)"),
    (&[5, 0, 1, 0, 9, 0, 0, 0], "Mode(Other(9))"),
    (&[8, 0, 2, 0, 4, 3, 2, 1], "ActivePort(16909060)"),
    (&[8, 0, 3, 0, 4, 3, 2, 1], "MiiMon(16909060)"),
    (&[8, 0, 4, 0, 4, 3, 2, 1], "UpDelay(16909060)"),
    (&[8, 0, 5, 0, 4, 3, 2, 1], "DownDelay(16909060)"),
    (&[5, 0, 6, 0, 1, 0, 0, 0], "UseCarrier(On)"),
    (&[5, 0, 6, 0, 2, 0, 0, 0], "UseCarrier(Other(2))"),
    (&[8, 0, 7, 0, 4, 3, 2, 1], "ArpInterval(16909060)"),
    (&[8, 0, 9, 0, 6, 0, 0, 0], "ArpValidate(FilterBackup)"),
    (&[8, 0, 9, 0, 4, 3, 2, 1], "ArpValidate(Other(16909060))"),
    (&[8, 0, 10, 0, 1, 0, 0, 0], "ArpAllTargets(All)"),
    (&[8, 0, 11, 0, 4, 3, 2, 1], "Primary(16909060)"),
    (&[5, 0, 12, 0, 2, 0, 0, 0], "PrimaryReselect(Failure)"),
    (&[5, 0, 13, 0, 2, 0, 0, 0], "FailOverMac(Follow)"),
    (&[5, 0, 14, 0, 5, 0, 0, 0], "XmitHashPolicy(VlanSrcMac)"),
    (&[8, 0, 15, 0, 4, 3, 2, 1], "ResendIgmp(16909060)"),
    (&[5, 0, 16, 0, 7, 0, 0, 0], "NumPeerNotif(7)"),
    (&[5, 0, 17, 0, 1, 0, 0, 0], "AllPortsActive(Delivered)"),
    (&[8, 0, 18, 0, 4, 3, 2, 1], "MinLinks(16909060)"),
    (&[8, 0, 19, 0, 4, 3, 2, 1], "LpInterval(16909060)"),
    (&[8, 0, 20, 0, 4, 3, 2, 1], "PacketsPerPort(16909060)"),
    (&[5, 0, 21, 0, 1, 0, 0, 0], "AdLacpRate(Fast)"),
    (&[5, 0, 22, 0, 3, 0, 0, 0], "AdSelect(ActorPortPrio)"),
    (&[6, 0, 24, 0, 2, 1, 0, 0], "AdActorSysPrio(258)"),
    (&[6, 0, 25, 0, 2, 1, 0, 0], "AdUserPortKey(258)"),
    (
        &[10, 0, 26, 0, 1, 2, 3, 4, 5, 6, 0, 0],
        "AdActorSystem([1, 2, 3, 4, 5, 6])",
    ),
    (&[5, 0, 27, 0, 0, 0, 0, 0], "TlbDynamicLb(Off)"),
    (&[8, 0, 28, 0, 4, 3, 2, 1], "PeerNotifDelay(16909060)"),
    (&[5, 0, 29, 0, 1, 0, 0, 0], "AdLacpActive(On)"),
    (&[5, 0, 30, 0, 2, 0, 0, 0], "MissedMax(2)"),
    (&[5, 0, 32, 0, 1, 0, 0, 0], "CoupledControl(On)"),
    (&[5, 0, 33, 0, 0, 0, 0, 0], "BroadcastNeigh(Off)"),
    (&[5, 0, 34, 0, 1, 0, 0, 0], "LacpStrict(On)"),
];

/// Types inside `IFLA_BOND_AD_INFO`, and the shapes of their rows.
const AD_INFO_SHAPES: &[(u16, Shape)] = &[
    (1, Shape::Le16),
    (2, Shape::Le16),
    (3, Shape::Le16),
    (4, Shape::Le16),
    (5, Shape::Mac),
];

/// Canonical attributes inside `IFLA_BOND_AD_INFO`, and their values as `Debug` writes them.
const AD_INFO_ROWS: &[(&[u8], &str)] = &[
    (&[6, 0, 1, 0, 2, 1, 0, 0], "Aggregator(258)"),
    (&[6, 0, 2, 0, 2, 1, 0, 0], "NumPorts(258)"),
    (&[6, 0, 3, 0, 2, 1, 0, 0], "ActorKey(258)"),
    (&[6, 0, 4, 0, 2, 1, 0, 0], "PartnerKey(258)"),
    (
        &[10, 0, 5, 0, 1, 2, 3, 4, 5, 6, 0, 0],
        "PartnerMac([1, 2, 3, 4, 5, 6])",
    ),
];

impl HoldsOthers for InfoBond {
    fn from_other(nla: DefaultNla) -> InfoBond {
        InfoBond::Other(nla)
    }
}

impl HasExample for InfoBond {
    fn example() -> InfoBond {
        InfoBond::MinLinks(258)
    }
}

impl HoldsOthers for BondAdInfo {
    fn from_other(nla: DefaultNla) -> BondAdInfo {
        BondAdInfo::Other(nla)
    }
}

impl HasExample for BondAdInfo {
    fn example() -> BondAdInfo {
        BondAdInfo::PartnerMac([2, 0, 0, 0, 0, 1])
    }
}

#[test]
fn rows_of_bonds() {
    has_shapes::<InfoBond>((), SHAPES);
    let example = [8, 0, 18, 0, 2, 1, 0, 0];
    has_rows_and_others::<InfoBond>(ROWS, UNLISTED, &example);
}

#[test]
fn rows_of_aggregators() {
    has_shapes::<BondAdInfo>((), AD_INFO_SHAPES);
    let example = [10, 0, 5, 0, 2, 0, 0, 0, 0, 1, 0, 0];
    has_rows_and_others::<BondAdInfo>(AD_INFO_ROWS, UNLISTED, &example);
}

/// Two targets, with the types 9 and 3, the second one with flag bits.
const TARGETS: &[u8] = &[
    20, 0, 8, 0, 8, 0, 9, 0, 10, 0, 0, 1, 8, 0, 3, 0x80, 10, 0, 0, 2,
];

/// The same targets in canonical form.
const CANONICAL: &[u8] = &[
    20, 0, 8, 0, 8, 0, 0, 0, 10, 0, 0, 1, 8, 0, 1, 0, 10, 0, 0, 2,
];

/// One target of neighbor solicitations, without `NLA_F_NESTED`.
const SOLICITED: &[u8] = &[
    24, 0, 31, 0, 20, 0, 5, 0, 0xfe, 0x80, 0, 0, 0, 0, 0, 0, 0, 0, 0, 0, 0, 0, 0, 1,
];

/// The same in canonical form, with `NLA_F_NESTED`.
const NESTED: &[u8] = &[
    24, 0, 31, 0x80, 20, 0, 0, 0, 0xfe, 0x80, 0, 0, 0, 0, 0, 0, 0, 0, 0, 0, 0, 0, 0, 1,
];

/// The aggregator in a reply of a kernel.
const AGGREGATOR: &[u8] = &[
    48, 0, 23, 0, 6, 0, 1, 0, 1, 0, 0, 0, 6, 0, 2, 0, 1, 0, 0, 0, 6, 0, 3, 0, 79, 2, 0, 0, 6, 0, 4,
    0, 15, 0, 0, 0, 10, 0, 5, 0, 226, 164, 33, 151, 204, 53, 0, 0,
];

/// The number of an aggregator, with flag bits in both types, and an attribute without a row.
const FLAGGED: &[u8] = &[17, 0, 23, 0xc0, 6, 0, 1, 0x80, 2, 1, 0, 0, 5, 0, 6, 0x80, 7];

/// `FLAGGED` in canonical form.
const UNFLAGGED: &[u8] = &[
    20, 0, 23, 0, 6, 0, 1, 0, 2, 1, 0, 0, 5, 0, 6, 0x80, 7, 0, 0, 0,
];

/// Lists, their values as `Debug` writes them, the headers examined, and the canonical lists.
const LISTS: &[(&[u8], &str, usize, &[u8])] = &[
    (TARGETS, TARGETS_TEXT, 3, CANONICAL),
    (CANONICAL, TARGETS_TEXT, 3, CANONICAL),
    (SOLICITED, SOLICITED_TEXT, 2, NESTED),
    (NESTED, SOLICITED_TEXT, 2, NESTED),
    (SIXTEEN, SIXTEEN_TEXT, 17, SIXTEEN),
    (
        AGGREGATOR,
        "[AdInfo(Nlas { items: [Aggregator(1), NumPorts(1), ActorKey(591), PartnerKey(15), \
         PartnerMac([226, 164, 33, 151, 204, 53])] })]",
        6,
        AGGREGATOR,
    ),
    // Flag bits of an attribute inside of a type without a row are kept.
    (
        FLAGGED,
        "[AdInfo(Nlas { items: [Aggregator(258), \
         Other(DefaultNla { kind: 32774, value: Bytes { bytes: [7] } })] })]",
        3,
        UNFLAGGED,
    ),
    // The list of nothing stays there, and has the flag bit of its row.
    (
        &[4, 0, 8, 0x80],
        "[ArpIpTarget(Addresses { items: [] })]",
        1,
        &[4, 0, 8, 0],
    ),
    (
        &[4, 0, 31, 0],
        "[NsIp6Target(Addresses { items: [] })]",
        1,
        &[4, 0, 31, 0x80],
    ),
    (
        &[4, 0, 23, 0x80],
        "[AdInfo(Nlas { items: [] })]",
        1,
        &[4, 0, 23, 0],
    ),
];

/// `TARGETS` as `Debug` writes them.
const TARGETS_TEXT: &str = "[ArpIpTarget(Addresses { items: [10.0.0.1, 10.0.0.2] })]";

/// `SOLICITED` as `Debug` writes it.
const SOLICITED_TEXT: &str = "[NsIp6Target(Addresses { items: [fe80::1] })]";

#[test]
fn lists_in_bonds() {
    lists_are_read::<InfoBond>(LISTS);
    list_is_written_as::<InfoBond>((), TARGETS, CANONICAL);
    list_is_written_as::<InfoBond>((), SOLICITED, NESTED);
    list_is_written_as::<InfoBond>((), FLAGGED, UNFLAGGED);
    list_is_written_as::<InfoBond>((), &[4, 0, 31, 0], &[4, 0, 31, 0x80]);
}

/// As many targets as the kernel takes (`BOND_MAX_ARP_TARGETS`, include/net/bonding.h).
const SIXTEEN: &[u8] = &[
    132, 0, 8, 0, 8, 0, 0, 0, 10, 0, 0, 0, 8, 0, 1, 0, 10, 0, 0, 1, 8, 0, 2, 0, 10, 0, 0, 2, 8, 0,
    3, 0, 10, 0, 0, 3, 8, 0, 4, 0, 10, 0, 0, 4, 8, 0, 5, 0, 10, 0, 0, 5, 8, 0, 6, 0, 10, 0, 0, 6,
    8, 0, 7, 0, 10, 0, 0, 7, 8, 0, 8, 0, 10, 0, 0, 8, 8, 0, 9, 0, 10, 0, 0, 9, 8, 0, 10, 0, 10, 0,
    0, 10, 8, 0, 11, 0, 10, 0, 0, 11, 8, 0, 12, 0, 10, 0, 0, 12, 8, 0, 13, 0, 10, 0, 0, 13, 8, 0,
    14, 0, 10, 0, 0, 14, 8, 0, 15, 0, 10, 0, 0, 15,
];

/// `SIXTEEN` as `Debug` writes them.
const SIXTEEN_TEXT: &str = "[ArpIpTarget(Addresses { items: [10.0.0.0, 10.0.0.1, 10.0.0.2, \
                            10.0.0.3, 10.0.0.4, 10.0.0.5, 10.0.0.6, 10.0.0.7, 10.0.0.8, 10.0.0.9, \
                            10.0.0.10, 10.0.0.11, 10.0.0.12, 10.0.0.13, 10.0.0.14, 10.0.0.15] })]";

/// The data of a bond of the mode 802.3ad, as a kernel returns it.
const REPLY: &[u8] = &[
    5, 0, 1, 0, 4, 0, 0, 0, 8, 0, 3, 0, 100, 0, 0, 0, 8, 0, 4, 0, 0, 0, 0, 0, 8, 0, 5, 0, 0, 0, 0,
    0, 8, 0, 28, 0, 0, 0, 0, 0, 5, 0, 6, 0, 1, 0, 0, 0, 8, 0, 7, 0, 0, 0, 0, 0, 8, 0, 9, 0, 0, 0,
    0, 0, 8, 0, 10, 0, 0, 0, 0, 0, 5, 0, 12, 0, 0, 0, 0, 0, 5, 0, 13, 0, 0, 0, 0, 0, 5, 0, 14, 0,
    0, 0, 0, 0, 8, 0, 15, 0, 1, 0, 0, 0, 5, 0, 16, 0, 1, 0, 0, 0, 5, 0, 17, 0, 0, 0, 0, 0, 8, 0,
    18, 0, 0, 0, 0, 0, 8, 0, 19, 0, 1, 0, 0, 0, 8, 0, 20, 0, 1, 0, 0, 0, 5, 0, 29, 0, 1, 0, 0, 0,
    5, 0, 21, 0, 1, 0, 0, 0, 5, 0, 22, 0, 0, 0, 0, 0, 5, 0, 27, 0, 1, 0, 0, 0, 5, 0, 30, 0, 2, 0,
    0, 0, 5, 0, 32, 0, 1, 0, 0, 0, 5, 0, 33, 0, 0, 0, 0, 0, 5, 0, 34, 0, 0, 0, 0, 0, 6, 0, 24, 0,
    7, 0, 0, 0, 6, 0, 25, 0, 9, 0, 0, 0, 10, 0, 26, 0, 2, 0, 0, 0, 0, 170, 0, 0, 48, 0, 23, 0, 6,
    0, 1, 0, 1, 0, 0, 0, 6, 0, 2, 0, 1, 0, 0, 0, 6, 0, 3, 0, 79, 2, 0, 0, 6, 0, 4, 0, 15, 0, 0, 0,
    10, 0, 5, 0, 226, 164, 33, 151, 204, 53, 0, 0,
];

#[test]
fn reply_of_a_kernel() {
    // 29 values without a list, and that of the aggregator with five.
    is_reply::<InfoBond>(REPLY, (30, 35));
}

#[test]
fn values_of_addresses() {
    let mut items = Vec::new();
    items.try_push(Ipv4Addr::new(10, 0, 0, 1)).expect("memory");
    items.try_push(Ipv4Addr::new(10, 0, 0, 2)).expect("memory");
    let value = InfoBond::ArpIpTarget(Addresses::new(items));
    assert_is(
        "kind, length",
        (value.kind(), value.fit_len()),
        (8, Some(16)),
    );
    is_parsed(TARGETS, &value);
    let mut items = Vec::new();
    items
        .try_push(Ipv6Addr::new(0xfe80, 0, 0, 0, 0, 0, 0, 1))
        .expect("memory");
    let value = InfoBond::NsIp6Target(Addresses::new(items));
    assert_is(
        "kind, length",
        (value.kind(), value.fit_len()),
        (0x801f, Some(20)),
    );
    is_parsed(SOLICITED, &value);
}

#[test]
fn values_of_aggregators() {
    let mut items = Vec::new();
    items.try_push(BondAdInfo::NumPorts(258)).expect("memory");
    let value = InfoBond::AdInfo(Nlas::new(items));
    assert_is(
        "kind, length",
        (value.kind(), value.fit_len()),
        (23, Some(8)),
    );
    let bytes = [12, 0, 23, 0x80, 6, 0, 2, 0x80, 2, 1, 0, 0];
    is_parsed(&bytes, &value);
}

/// Asserts whether so many addresses fit.
fn fits(number: usize, wanted: Option<usize>) {
    let mut items = Vec::new();
    for _ in 0..number {
        items.try_push(Ipv4Addr::new(0, 0, 0, 0)).expect("memory");
    }
    let value = InfoBond::ArpIpTarget(Addresses::new(items));
    assert_is(("addresses", number), value.fit_len(), wanted);
}

#[test]
fn most_addresses() {
    fits(8191, Some(65528));
    fits(8192, None);
}

/// The error of an address of another length.
const OF_TARGET: DecodeError = DecodeError {
    family: Family::Bond,
    kind: 8,
    cause: Cause::Length,
};

/// The error of a target of neighbor solicitations of another length.
const OF_SOLICITED: DecodeError = DecodeError {
    family: Family::Bond,
    kind: 31,
    cause: Cause::Length,
};

/// The error of the hardware address of a partner of another length.
const OF_PARTNER: DecodeError = DecodeError {
    family: Family::BondAdInfo,
    kind: 5,
    cause: Cause::Length,
};

/// Lists that are rejected, the errors, the headers examined, and the offsets of the errors: of an
/// address of another length that of the attribute whose list it is in, otherwise that of the
/// attribute inside, or of the bytes that are no header.
const REJECTED: &[(&[u8], DecodeError, usize, usize)] = &[
    // Five bytes after an address, and three before one; both before a stray byte.
    (&[13, 0, 8, 0, 9, 0, 3, 0, 10, 0, 0, 1, 0], OF_TARGET, 2, 0),
    (
        &[17, 0, 8, 0, 7, 0, 0, 0, 1, 2, 3, 0, 8, 0, 1, 0, 1],
        OF_TARGET,
        2,
        0,
    ),
    // An address, and a stray byte.
    (&[13, 0, 8, 0, 8, 0, 0, 0, 10, 0, 0, 1, 1], HEADER, 2, 12),
    // An IPv4 address where IPv6 addresses are.
    (
        &[12, 0, 31, 0x80, 8, 0, 0, 0, 10, 0, 0, 1],
        OF_SOLICITED,
        2,
        0,
    ),
    // A header that is longer than the list.
    (&[8, 0, 8, 0, 9, 0, 0, 0], HEADER, 2, 4),
    // The same after an attribute of eight bytes.
    (
        &[
            5, 0, 1, 0, 1, 0, 0, 0, 13, 0, 8, 0, 9, 0, 3, 0, 10, 0, 0, 1, 0,
        ],
        OF_TARGET,
        3,
        8,
    ),
    (
        &[
            5, 0, 1, 0, 1, 0, 0, 0, 13, 0, 8, 0, 8, 0, 0, 0, 10, 0, 0, 1, 1,
        ],
        HEADER,
        3,
        20,
    ),
    (
        &[
            5, 0, 1, 0, 1, 0, 0, 0, 12, 0, 31, 0x80, 8, 0, 0, 0, 10, 0, 0, 1,
        ],
        OF_SOLICITED,
        3,
        8,
    ),
    (
        &[5, 0, 1, 0, 1, 0, 0, 0, 8, 0, 8, 0, 9, 0, 0, 0],
        HEADER,
        3,
        12,
    ),
    // An address, an attribute with three bytes, and a stray byte.
    (
        &[
            5, 0, 1, 0, 1, 0, 0, 0, 21, 0, 8, 0, 8, 0, 0, 0, 10, 0, 0, 1, 7, 0, 0, 0, 1, 2, 3, 0, 1,
        ],
        OF_TARGET,
        4,
        8,
    ),
    // A partner of five bytes, with flag bits of both types, also after a number and before a stray
    // byte.
    (
        &[13, 0, 23, 0x80, 9, 0, 5, 0x80, 1, 2, 3, 4, 5],
        OF_PARTNER,
        2,
        4,
    ),
    (
        &[
            5, 0, 1, 0, 1, 0, 0, 0, 25, 0, 23, 0, 6, 0, 1, 0, 1, 0, 0, 0, 9, 0, 5, 0, 1, 2, 3, 4,
            5, 0, 0, 0, 1,
        ],
        OF_PARTNER,
        4,
        20,
    ),
    // A number, and a stray byte.
    (&[13, 0, 23, 0, 6, 0, 1, 0, 1, 0, 0, 0, 1], HEADER, 2, 12),
];

#[test]
fn rejected_lists() {
    lists_are_rejected::<InfoBond>(REJECTED);
    let found = list_error::<InfoBond>(CANONICAL, ());
    assert_is(CANONICAL, found, None);
}

/// Types whose payloads have one length, and that length.
const LENGTHS: &[(u8, u8)] = &[
    (1, 1),
    (2, 4),
    (3, 4),
    (4, 4),
    (5, 4),
    (6, 1),
    (7, 4),
    (9, 4),
    (10, 4),
    (11, 4),
    (12, 1),
    (13, 1),
    (14, 1),
    (15, 4),
    (16, 1),
    (17, 1),
    (18, 4),
    (19, 4),
    (20, 4),
    (21, 1),
    (22, 1),
    (24, 2),
    (25, 2),
    (26, 6),
    (27, 1),
    (28, 4),
    (29, 1),
    (30, 1),
    (32, 1),
    (33, 1),
    (34, 1),
];

#[test]
fn every_length() {
    for (kind, length) in LENGTHS {
        has_only_length::<InfoBond>(*kind, *length);
    }
    for (kind, length) in [(1, 2), (2, 2), (3, 2), (4, 2), (5, 6)] {
        has_only_length::<BondAdInfo>(kind, length);
    }
    for kind in [8, 23, 31] {
        has_lists::<InfoBond>(kind);
    }
    has_elements::<InfoBond>(8, 4);
    has_elements::<InfoBond>(31, 16);
}

/// Pairs of lists, and the headers examined if they are equivalent.
const PAIRS: &[(&[u8], &[u8], Option<usize>)] = &[
    // Types and flag bits, those of the row and those of addresses.
    (TARGETS, CANONICAL, Some(6)),
    (SOLICITED, NESTED, Some(4)),
    // The other order.
    (
        CANONICAL,
        &[
            20, 0, 8, 0, 8, 0, 1, 0, 10, 0, 0, 2, 8, 0, 0, 0, 10, 0, 0, 1,
        ],
        None,
    ),
    // One address less.
    (CANONICAL, &[12, 0, 8, 0, 8, 0, 0, 0, 10, 0, 0, 1], None),
    // The list of nothing, and no list.
    (&[4, 0, 8, 0], &[4, 0, 8, 0x80], Some(2)),
    (&[4, 0, 8, 0], &[], None),
    (&[4, 0, 23, 0], &[4, 0, 23, 0x80], Some(2)),
    (&[4, 0, 23, 0], &[], None),
    // Flag bits and padding inside.
    (FLAGGED, UNFLAGGED, Some(6)),
    // Flag bits inside of a type without a row.
    (
        UNFLAGGED,
        &[17, 0, 23, 0, 6, 0, 1, 0, 2, 1, 0, 0, 5, 0, 6, 0, 7],
        None,
    ),
];

#[test]
fn lists_are_compared() {
    compare_lists::<InfoBond>((), PAIRS);
}

/// Pairs of lists, and their first difference: of addresses the attribute whose list they are in;
/// of an aggregator the attribute inside, of which the second list may have none.
const DIFFERENT: &[(&[u8], &[u8], Option<Differing>)] = &[
    (TARGETS, CANONICAL, None),
    (
        CANONICAL,
        &[12, 0, 8, 0, 8, 0, 0, 0, 10, 0, 0, 1],
        Some((Family::Bond, 8, Some(0), Some(0))),
    ),
    (FLAGGED, UNFLAGGED, None),
    (
        UNFLAGGED,
        &[
            20, 0, 23, 0, 6, 0, 1, 0, 2, 1, 0, 0, 5, 0, 6, 0x80, 8, 0, 0, 0,
        ],
        Some((Family::BondAdInfo, 6, Some(12), Some(12))),
    ),
    (
        UNFLAGGED,
        &[12, 0, 23, 0, 6, 0, 1, 0x40, 2, 1, 0, 0],
        Some((Family::BondAdInfo, 6, Some(12), None)),
    ),
];

/// Lists, requests, and what the lists do not meet of the requests.
const REQUESTS: &[(&[u8], &[u8], Option<NotMet>)] = &[
    // One key of an aggregator that has other attributes too; and another key.
    (
        AGGREGATOR,
        &[12, 0, 23, 0x80, 6, 0, 3, 0x80, 79, 2, 0, 0],
        None,
    ),
    (
        AGGREGATOR,
        &[12, 0, 23, 0, 6, 0, 3, 0, 80, 2, 0, 0],
        Some((Family::BondAdInfo, 3, 4, Some(20))),
    ),
    // Of two keys the last one counts.
    (
        AGGREGATOR,
        &[
            20, 0, 23, 0, 6, 0, 3, 0, 80, 2, 0, 0, 6, 0, 3, 0, 79, 2, 0, 0,
        ],
        None,
    ),
    // An attribute that the aggregator does not have, and no aggregator at all.
    (
        AGGREGATOR,
        &[9, 0, 23, 0, 5, 0, 6, 0, 7],
        Some((Family::BondAdInfo, 6, 4, None)),
    ),
    (
        CANONICAL,
        &[4, 0, 23, 0x80],
        Some((Family::Bond, 23, 0, None)),
    ),
    // Addresses as a whole.
    (CANONICAL, TARGETS, None),
    (
        CANONICAL,
        &[12, 0, 8, 0, 8, 0, 0, 0, 10, 0, 0, 1],
        Some((Family::Bond, 8, 0, Some(0))),
    ),
];

#[test]
fn differences_and_requests() {
    lists_differ::<InfoBond>((), DIFFERENT);
    meet_requests::<InfoBond>((), REQUESTS);
}
