// @generated from crates/linkinfo_families_tests/src/tests/typed_bridge.rt by rust/translate/run.

//! Typed attributes of `bridge` links, and those of the multicast queriers in one of them.

use super::lengths::{has_lists, has_multiples, has_only_length};
use super::rows::{
    Differing, HEADER, HasExample, HoldsOthers, NotMet, UNLISTED, assert_is, compare_lists,
    has_marks, has_rows_and_others, has_shapes, is_parsed, is_reply, list_is_written_as,
    lists_are_read, lists_are_rejected, lists_differ, meet_requests,
};
use linkinfo::layers::nla_frame::{Cause, DecodeError, DefaultNla, Family, Nla, Nlas};
use linkinfo::layers::payloads::BridgeId;
use linkinfo::layers::table::Shape;
use linkinfo::layers::typed::{BridgeQuerierState, InfoBridge};

/// Types, and the shapes of their rows.
const SHAPES: &[(u16, Shape)] = &[
    (1, Shape::Le32),
    (2, Shape::Le32),
    (3, Shape::Le32),
    (4, Shape::Le32),
    (5, Shape::Le32),
    (6, Shape::Le16),
    (7, Shape::Truth),
    (8, Shape::Be16),
    (9, Shape::Le16),
    (10, Shape::BridgeId),
    (11, Shape::BridgeId),
    (12, Shape::Le16),
    (13, Shape::Le32),
    (14, Shape::U8),
    (15, Shape::U8),
    (16, Shape::Le64),
    (17, Shape::Le64),
    (18, Shape::Le64),
    (19, Shape::Le64),
    (20, Shape::Mac),
    (21, Shape::Mark),
    (22, Shape::U8),
    (23, Shape::Truth),
    (24, Shape::Truth),
    (25, Shape::Truth),
    (26, Shape::Le32),
    (27, Shape::Le32),
    (28, Shape::Le32),
    (29, Shape::Le32),
    (30, Shape::Le64),
    (31, Shape::Le64),
    (32, Shape::Le64),
    (33, Shape::Le64),
    (34, Shape::Le64),
    (35, Shape::Le64),
    (36, Shape::Truth),
    (37, Shape::Truth),
    (38, Shape::Truth),
    (39, Shape::Le16),
    (41, Shape::U8),
    (42, Shape::Truth),
    (43, Shape::U8),
    (44, Shape::U8),
    (45, Shape::U8),
    (46, Shape::FlagPair),
    (47, Shape::Nested(Family::BridgeQuerierState)),
    (48, Shape::Le32),
    (49, Shape::Le32),
    (50, Shape::Le32),
];

/// Canonical attributes of all rows without a list and with a payload, and their values as `Debug`
/// writes them.
const ROWS: &[(&[u8], &str)] = &[
    (&[8, 0, 1, 0, 4, 3, 2, 1], "ForwardDelay(16909060)"),
    (&[8, 0, 2, 0, 4, 3, 2, 1], "HelloTime(16909060)"),
    (&[8, 0, 3, 0, 4, 3, 2, 1], "MaxAge(16909060)"),
    (&[8, 0, 4, 0, 4, 3, 2, 1], "AgeingTime(16909060)"),
    (&[8, 0, 5, 0, 2, 0, 0, 0], "StpState(UserStp)"),
    (&[8, 0, 5, 0, 4, 3, 2, 1], "StpState(Other(16909060))"),
    (&[6, 0, 6, 0, 2, 1, 0, 0], "Priority(258)"),
    (&[5, 0, 7, 0, 1, 0, 0, 0], "VlanFiltering(true)"),
    (&[6, 0, 8, 0, 0x88, 0xa8, 0, 0], "VlanProtocol(Ieee8021Ad)"),
    (&[6, 0, 8, 0, 0x81, 0, 0, 0], "VlanProtocol(Ieee8021Q)"),
    (&[6, 0, 8, 0, 0, 0x81, 0, 0], "VlanProtocol(Other(129))"),
    (&[6, 0, 9, 0, 2, 1, 0, 0], "GroupFwdMask(258)"),
    (
        &[12, 0, 10, 0, 128, 1, 2, 0, 0, 0, 0, 7],
        "RootId(BridgeId { priority: 32769, address: [2, 0, 0, 0, 0, 7] })",
    ),
    (
        &[12, 0, 11, 0, 128, 1, 2, 0, 0, 0, 0, 7],
        "BridgeId(BridgeId { priority: 32769, address: [2, 0, 0, 0, 0, 7] })",
    ),
    (&[6, 0, 12, 0, 2, 1, 0, 0], "RootPort(258)"),
    (&[8, 0, 13, 0, 4, 3, 2, 1], "RootPathCost(16909060)"),
    (&[5, 0, 14, 0, 1, 0, 0, 0], "TopologyChange(1)"),
    (&[5, 0, 15, 0, 1, 0, 0, 0], "TopologyChangeDetected(1)"),
    (
        &[12, 0, 16, 0, 8, 7, 6, 5, 4, 3, 2, 1],
        "HelloTimer(72623859790382856)",
    ),
    (
        &[12, 0, 17, 0, 8, 7, 6, 5, 4, 3, 2, 1],
        "TcnTimer(72623859790382856)",
    ),
    (
        &[12, 0, 18, 0, 8, 7, 6, 5, 4, 3, 2, 1],
        "TopologyChangeTimer(72623859790382856)",
    ),
    (
        &[12, 0, 19, 0, 8, 7, 6, 5, 4, 3, 2, 1],
        "GcTimer(72623859790382856)",
    ),
    (
        &[10, 0, 20, 0, 1, 2, 3, 4, 5, 6, 0, 0],
        "GroupAddr([1, 2, 3, 4, 5, 6])",
    ),
    (&[5, 0, 22, 0, 2, 0, 0, 0], "MulticastRouter(Permanent)"),
    (&[5, 0, 22, 0, 4, 0, 0, 0], "MulticastRouter(Other(4))"),
    (&[5, 0, 23, 0, 1, 0, 0, 0], "MulticastSnooping(true)"),
    (&[5, 0, 24, 0, 1, 0, 0, 0], "MulticastQueryUseIfaddr(true)"),
    (&[5, 0, 25, 0, 0, 0, 0, 0], "MulticastQuerier(false)"),
    (
        &[8, 0, 26, 0, 4, 3, 2, 1],
        "MulticastHashElasticity(16909060)",
    ),
    (&[8, 0, 27, 0, 4, 3, 2, 1], "MulticastHashMax(16909060)"),
    (
        &[8, 0, 28, 0, 4, 3, 2, 1],
        "MulticastLastMemberCount(16909060)",
    ),
    (
        &[8, 0, 29, 0, 4, 3, 2, 1],
        "MulticastStartupQueryCount(16909060)",
    ),
    (
        &[12, 0, 30, 0, 8, 7, 6, 5, 4, 3, 2, 1],
        "MulticastLastMemberInterval(72623859790382856)",
    ),
    (
        &[12, 0, 31, 0, 8, 7, 6, 5, 4, 3, 2, 1],
        "MulticastMembershipInterval(72623859790382856)",
    ),
    (
        &[12, 0, 32, 0, 8, 7, 6, 5, 4, 3, 2, 1],
        "MulticastQuerierInterval(72623859790382856)",
    ),
    (
        &[12, 0, 33, 0, 8, 7, 6, 5, 4, 3, 2, 1],
        "MulticastQueryInterval(72623859790382856)",
    ),
    (
        &[12, 0, 34, 0, 8, 7, 6, 5, 4, 3, 2, 1],
        "MulticastQueryResponseInterval(72623859790382856)",
    ),
    (
        &[12, 0, 35, 0, 8, 7, 6, 5, 4, 3, 2, 1],
        "MulticastStartupQueryInterval(72623859790382856)",
    ),
    (&[5, 0, 36, 0, 1, 0, 0, 0], "NfCallIpTables(true)"),
    (&[5, 0, 37, 0, 1, 0, 0, 0], "NfCallIp6Tables(true)"),
    (&[5, 0, 38, 0, 1, 0, 0, 0], "NfCallArpTables(true)"),
    (&[6, 0, 39, 0, 2, 1, 0, 0], "VlanDefaultPvid(258)"),
    (&[5, 0, 41, 0, 1, 0, 0, 0], "VlanStatsEnabled(On)"),
    (&[5, 0, 41, 0, 2, 0, 0, 0], "VlanStatsEnabled(Other(2))"),
    (&[5, 0, 42, 0, 1, 0, 0, 0], "MulticastStatsEnabled(true)"),
    (&[5, 0, 43, 0, 3, 0, 0, 0], "MulticastIgmpVersion(3)"),
    (&[5, 0, 44, 0, 2, 0, 0, 0], "MulticastMldVersion(2)"),
    (&[5, 0, 45, 0, 0, 0, 0, 0], "VlanStatsPerPort(Off)"),
    (
        &[12, 0, 46, 0, 17, 0, 0, 0, 31, 0, 0, 0],
        "MultiBoolOpt(BridgeBooleanOptions { value: BridgeBooleanOptionFlags(17), \
         mask: BridgeBooleanOptionFlags(31) })",
    ),
    (&[8, 0, 48, 0, 4, 3, 2, 1], "FdbNLearned(16909060)"),
    (&[8, 0, 49, 0, 4, 3, 2, 1], "FdbMaxLearned(16909060)"),
    (&[8, 0, 50, 0, 2, 0, 0, 0], "StpMode(Kernel)"),
];

/// A presence flag, as `Debug` writes it.
const MARKS: &[(&[u8; 4], &str)] = &[(&[4, 0, 21, 0], "FdbFlush")];

/// Types inside `IFLA_BR_MCAST_QUERIER_STATE`, and the shapes of their rows.
const QUERIER_SHAPES: &[(u16, Shape)] = &[
    (1, Shape::V4),
    (2, Shape::Le32),
    (3, Shape::Le64),
    (5, Shape::V6),
    (6, Shape::Le32),
    (7, Shape::Le64),
];

/// Canonical attributes inside `IFLA_BR_MCAST_QUERIER_STATE`, and their values as `Debug` writes
/// them.
const QUERIER_ROWS: &[(&[u8], &str)] = &[
    (&[8, 0, 1, 0, 10, 1, 2, 3], "Ipv4Address(10.1.2.3)"),
    (&[8, 0, 2, 0, 4, 3, 2, 1], "Ipv4Port(16909060)"),
    (
        &[12, 0, 3, 0, 8, 7, 6, 5, 4, 3, 2, 1],
        "Ipv4OtherTimer(72623859790382856)",
    ),
    (
        &[
            20, 0, 5, 0, 0xfe, 0x80, 0, 0, 0, 0, 0, 0, 0, 0, 0, 0, 0, 0, 0, 1,
        ],
        "Ipv6Address(fe80::1)",
    ),
    (&[8, 0, 6, 0, 4, 3, 2, 1], "Ipv6Port(16909060)"),
    (
        &[12, 0, 7, 0, 8, 7, 6, 5, 4, 3, 2, 1],
        "Ipv6OtherTimer(72623859790382856)",
    ),
];

impl HoldsOthers for InfoBridge {
    fn from_other(nla: DefaultNla) -> InfoBridge {
        InfoBridge::Other(nla)
    }
}

impl HasExample for InfoBridge {
    fn example() -> InfoBridge {
        InfoBridge::RootId(BridgeId {
            priority: 0x8001,
            address: [2, 0, 0, 0, 0, 7],
        })
    }
}

impl HoldsOthers for BridgeQuerierState {
    fn from_other(nla: DefaultNla) -> BridgeQuerierState {
        BridgeQuerierState::Other(nla)
    }
}

impl HasExample for BridgeQuerierState {
    fn example() -> BridgeQuerierState {
        BridgeQuerierState::Ipv4Port(258)
    }
}

#[test]
fn rows_of_bridges() {
    has_shapes::<InfoBridge>((), SHAPES);
    let example = [12, 0, 10, 0, 0x80, 1, 2, 0, 0, 0, 0, 7];
    has_rows_and_others::<InfoBridge>(ROWS, UNLISTED, &example);
    has_marks::<InfoBridge>(MARKS);
}

#[test]
fn rows_of_queriers() {
    has_shapes::<BridgeQuerierState>((), QUERIER_SHAPES);
    let example = [8, 0, 2, 0, 2, 1, 0, 0];
    has_rows_and_others::<BridgeQuerierState>(QUERIER_ROWS, UNLISTED, &example);
}

/// The queriers in a reply of a kernel, both behind the port 12.
const QUERIERS: &[u8] = &[
    72, 0, 47, 0x80, 8, 0, 1, 0, 10, 1, 1, 1, 12, 0, 3, 0, 162, 97, 0, 0, 0, 0, 0, 0, 8, 0, 2, 0,
    12, 0, 0, 0, 20, 0, 5, 0, 0xfe, 0x80, 0, 0, 0, 0, 0, 0, 0xfc, 0x7a, 0x4f, 0xff, 0xfe, 0x94,
    0x23, 0x88, 12, 0, 7, 0, 162, 97, 0, 0, 0, 0, 0, 0, 8, 0, 6, 0, 12, 0, 0, 0,
];

/// A port without `NLA_F_NESTED` of the row, and with flag bits of its own; and padding, which has
/// no row.
const FLAGGED: &[u8] = &[17, 0, 47, 0x40, 8, 0, 2, 0xc0, 2, 1, 0, 0, 5, 0, 4, 0x40, 7];

/// `FLAGGED` in canonical form.
const UNFLAGGED: &[u8] = &[
    20, 0, 47, 0x80, 8, 0, 2, 0, 2, 1, 0, 0, 5, 0, 4, 0x40, 7, 0, 0, 0,
];

/// Padding in data, which has no row.
const PADDING: &[u8] = &[7, 0, 40, 0x80, 1, 2, 3];

/// Lists, their values as `Debug` writes them, the headers examined, and the canonical lists.
const LISTS: &[(&[u8], &str, usize, &[u8])] = &[
    (
        QUERIERS,
        "[MulticastQuerierState(Nlas { items: [Ipv4Address(10.1.1.1), Ipv4OtherTimer(24994), \
         Ipv4Port(12), Ipv6Address(fe80::fc7a:4fff:fe94:2388), Ipv6OtherTimer(24994), \
         Ipv6Port(12)] })]",
        7,
        QUERIERS,
    ),
    (
        FLAGGED,
        "[MulticastQuerierState(Nlas { items: [Ipv4Port(258), \
         Other(DefaultNla { kind: 16388, value: Bytes { bytes: [7] } })] })]",
        3,
        UNFLAGGED,
    ),
    // The list of nothing stays there, with the flag bit of its row.
    (
        &[4, 0, 47, 0],
        "[MulticastQuerierState(Nlas { items: [] })]",
        1,
        &[4, 0, 47, 0x80],
    ),
    (
        PADDING,
        "[Other(DefaultNla { kind: 32808, value: Bytes { bytes: [1, 2, 3] } })]",
        1,
        &[7, 0, 40, 0x80, 1, 2, 3, 0],
    ),
    (&[8, 0, 21, 0, 1, 2, 3, 4], "[FdbFlush]", 1, &[4, 0, 21, 0]),
    (
        &[5, 0, 7, 0, 255],
        "[VlanFiltering(true)]",
        1,
        &[5, 0, 7, 0, 1, 0, 0, 0],
    ),
];

#[test]
fn lists_in_bridges() {
    lists_are_read::<InfoBridge>(LISTS);
    list_is_written_as::<InfoBridge>((), FLAGGED, UNFLAGGED);
    list_is_written_as::<InfoBridge>((), PADDING, &[7, 0, 40, 0x80, 1, 2, 3, 0]);
    for flags in [0, 0x40, 0x80, 0xc0] {
        list_is_written_as::<InfoBridge>((), &[4, 0, 47, flags], &[4, 0, 47, 0x80]);
    }
}

/// The data of a bridge that knows another querier, as a kernel returns it.
const REPLY: &[u8] = &[
    12, 0, 16, 0, 0, 0, 0, 0, 0, 0, 0, 0, 12, 0, 17, 0, 0, 0, 0, 0, 0, 0, 0, 0, 12, 0, 18, 0, 0, 0,
    0, 0, 0, 0, 0, 0, 12, 0, 19, 0, 25, 113, 0, 0, 0, 0, 0, 0, 8, 0, 1, 0, 220, 5, 0, 0, 8, 0, 2,
    0, 200, 0, 0, 0, 8, 0, 3, 0, 208, 7, 0, 0, 8, 0, 4, 0, 48, 117, 0, 0, 8, 0, 5, 0, 0, 0, 0, 0,
    6, 0, 6, 0, 0, 128, 0, 0, 5, 0, 7, 0, 0, 0, 0, 0, 6, 0, 9, 0, 0, 0, 0, 0, 12, 0, 11, 0, 128, 0,
    114, 21, 178, 136, 217, 50, 12, 0, 10, 0, 128, 0, 114, 21, 178, 136, 217, 50, 6, 0, 12, 0, 0,
    0, 0, 0, 8, 0, 13, 0, 0, 0, 0, 0, 5, 0, 14, 0, 0, 0, 0, 0, 5, 0, 15, 0, 0, 0, 0, 0, 10, 0, 20,
    0, 1, 128, 194, 0, 0, 0, 0, 0, 12, 0, 46, 0, 0, 0, 0, 0, 31, 0, 0, 0, 8, 0, 48, 0, 1, 0, 0, 0,
    8, 0, 49, 0, 0, 0, 0, 0, 8, 0, 50, 0, 0, 0, 0, 0, 6, 0, 8, 0, 129, 0, 0, 0, 6, 0, 39, 0, 1, 0,
    0, 0, 5, 0, 41, 0, 0, 0, 0, 0, 5, 0, 45, 0, 0, 0, 0, 0, 5, 0, 22, 0, 1, 0, 0, 0, 5, 0, 23, 0,
    1, 0, 0, 0, 5, 0, 24, 0, 0, 0, 0, 0, 5, 0, 25, 0, 0, 0, 0, 0, 5, 0, 42, 0, 0, 0, 0, 0, 8, 0,
    26, 0, 16, 0, 0, 0, 8, 0, 27, 0, 0, 16, 0, 0, 8, 0, 28, 0, 2, 0, 0, 0, 8, 0, 29, 0, 2, 0, 0, 0,
    5, 0, 43, 0, 2, 0, 0, 0, 72, 0, 47, 128, 8, 0, 1, 0, 10, 1, 1, 1, 12, 0, 3, 0, 162, 97, 0, 0,
    0, 0, 0, 0, 8, 0, 2, 0, 12, 0, 0, 0, 20, 0, 5, 0, 254, 128, 0, 0, 0, 0, 0, 0, 252, 122, 79,
    255, 254, 148, 35, 136, 12, 0, 7, 0, 162, 97, 0, 0, 0, 0, 0, 0, 8, 0, 6, 0, 12, 0, 0, 0, 5, 0,
    44, 0, 1, 0, 0, 0, 12, 0, 30, 0, 100, 0, 0, 0, 0, 0, 0, 0, 12, 0, 31, 0, 144, 101, 0, 0, 0, 0,
    0, 0, 12, 0, 32, 0, 156, 99, 0, 0, 0, 0, 0, 0, 12, 0, 33, 0, 212, 48, 0, 0, 0, 0, 0, 0, 12, 0,
    34, 0, 232, 3, 0, 0, 0, 0, 0, 0, 12, 0, 35, 0, 52, 12, 0, 0, 0, 0, 0, 0, 5, 0, 36, 0, 0, 0, 0,
    0, 5, 0, 37, 0, 0, 0, 0, 0, 5, 0, 38, 0, 0, 0, 0, 0,
];

#[test]
fn reply_of_a_kernel() {
    // Of 48 values, a list of six.
    is_reply::<InfoBridge>(REPLY, (48, 54));
}

#[test]
fn values_of_queriers() {
    let items = try_vec![BridgeQuerierState::Ipv4Port(258)].expect("memory");
    let value = InfoBridge::MulticastQuerierState(Nlas::new(items));
    assert_is(
        "kind, length",
        (value.kind(), value.fit_len()),
        (0x802f, Some(8)),
    );
    let bytes = [12, 0, 47, 0, 8, 0, 2, 0x40, 2, 1, 0, 0];
    is_parsed(&bytes, &value);
}

/// The error of the index of a port of another length.
const OF_PORT: DecodeError = DecodeError {
    family: Family::BridgeQuerierState,
    kind: 2,
    cause: Cause::Length,
};

/// The error of an IPv6 address of another length.
const OF_ADDRESS: DecodeError = DecodeError {
    family: Family::BridgeQuerierState,
    kind: 5,
    cause: Cause::Length,
};

/// The error of an identifier of another length.
const OF_ID: DecodeError = DecodeError {
    family: Family::Bridge,
    kind: 11,
    cause: Cause::Length,
};

/// Lists that are rejected, the errors, the headers examined, and the offsets of the errors.
const REJECTED: &[(&[u8], DecodeError, usize, usize)] = &[
    (&[11, 0, 47, 0x80, 7, 0, 2, 0, 1, 2, 3], OF_PORT, 2, 4),
    (&[8, 0, 47, 0x80, 4, 0, 5, 0], OF_ADDRESS, 2, 4),
    (&[11, 0, 11, 0, 0, 0, 0, 0, 0, 0, 0], OF_ID, 1, 0),
    // After padding of a byte; and a stray byte after it.
    (
        &[19, 0, 47, 0, 5, 0, 4, 0, 7, 0, 0, 0, 7, 0, 2, 0x80, 1, 2, 3],
        OF_PORT,
        3,
        12,
    ),
    (&[13, 0, 47, 0, 5, 0, 4, 0, 7, 0, 0, 0, 1], HEADER, 2, 12),
    // Before an error of the outer list, and after one.
    (
        &[11, 0, 47, 0, 7, 0, 2, 0, 1, 2, 3, 0, 7, 0, 11, 0, 1, 2, 3],
        OF_PORT,
        2,
        4,
    ),
    (
        &[7, 0, 11, 0, 1, 2, 3, 0, 11, 0, 47, 0, 7, 0, 2, 0, 1, 2, 3],
        OF_ID,
        1,
        0,
    ),
];

#[test]
fn rejected_lists() {
    lists_are_rejected::<InfoBridge>(REJECTED);
}

/// Types whose payloads have one length, and that length.
const LENGTHS: &[(u8, u8)] = &[
    (1, 4),
    (2, 4),
    (3, 4),
    (4, 4),
    (5, 4),
    (6, 2),
    (7, 1),
    (8, 2),
    (9, 2),
    (10, 8),
    (11, 8),
    (12, 2),
    (13, 4),
    (14, 1),
    (15, 1),
    (16, 8),
    (17, 8),
    (18, 8),
    (19, 8),
    (20, 6),
    (22, 1),
    (23, 1),
    (24, 1),
    (25, 1),
    (26, 4),
    (27, 4),
    (28, 4),
    (29, 4),
    (30, 8),
    (31, 8),
    (32, 8),
    (33, 8),
    (34, 8),
    (35, 8),
    (36, 1),
    (37, 1),
    (38, 1),
    (39, 2),
    (41, 1),
    (42, 1),
    (43, 1),
    (44, 1),
    (45, 1),
    (46, 8),
    (48, 4),
    (49, 4),
    (50, 4),
];

#[test]
fn every_length() {
    for (kind, length) in LENGTHS {
        has_only_length::<InfoBridge>(*kind, *length);
    }
    for (kind, length) in [(1, 4), (2, 4), (3, 8), (5, 16), (6, 4), (7, 8)] {
        has_only_length::<BridgeQuerierState>(kind, length);
    }
    has_lists::<InfoBridge>(47);
    // A command, and padding, have any length.
    has_multiples::<InfoBridge>(21, 1);
    has_multiples::<InfoBridge>(40, 1);
    has_multiples::<BridgeQuerierState>(4, 1);
}

/// Pairs of lists, and the headers examined if they are equivalent.
const PAIRS: &[(&[u8], &[u8], Option<usize>)] = &[
    (QUERIERS, QUERIERS, Some(14)),
    // Flag bits of the row and inside, and padding; flag bits inside of a type without a row.
    (FLAGGED, UNFLAGGED, Some(6)),
    (
        UNFLAGGED,
        &[17, 0, 47, 0x80, 8, 0, 2, 0, 2, 1, 0, 0, 5, 0, 4, 0, 7],
        None,
    ),
    // The list of nothing, and no list.
    (&[4, 0, 47, 0], &[4, 0, 47, 0x80], Some(2)),
    (&[4, 0, 47, 0x80], &[], None),
    // A byte that is not 0, and a command with any payload.
    (
        &[5, 0, 7, 0, 2, 0, 0, 0, 4, 0, 21, 0],
        &[5, 0, 7, 0, 1, 0, 0, 0, 6, 0, 21, 0, 1, 2],
        Some(4),
    ),
    // Where only 0 and 1 are taken, other numbers are kept.
    (&[5, 0, 41, 0, 2], &[5, 0, 41, 0, 1], None),
];

#[test]
fn lists_are_compared() {
    compare_lists::<InfoBridge>((), PAIRS);
}

/// Pairs of lists, and their first difference, inside a list that of its attributes.
const DIFFERENT: &[(&[u8], &[u8], Option<Differing>)] = &[
    (FLAGGED, UNFLAGGED, None),
    (
        QUERIERS,
        &[
            20, 0, 47, 0, 8, 0, 1, 0, 10, 1, 1, 1, 8, 0, 2, 0, 12, 0, 0, 0,
        ],
        Some((Family::BridgeQuerierState, 3, Some(12), Some(12))),
    ),
    (
        QUERIERS,
        &[12, 0, 47, 0, 8, 0, 1, 0, 10, 1, 1, 1],
        Some((Family::BridgeQuerierState, 3, Some(12), None)),
    ),
    (
        &[4, 0, 40, 0, 4, 0, 47, 0],
        &[4, 0, 40, 0, 4, 0, 40, 0],
        Some((Family::Bridge, 47, Some(4), Some(4))),
    ),
];

/// Lists, requests, and what the lists do not meet of the requests.
const REQUESTS: &[(&[u8], &[u8], Option<NotMet>)] = &[
    // One port of a reply that has addresses, too, with flag bits of both types; and another one.
    (QUERIERS, &[12, 0, 47, 0, 8, 0, 2, 0x80, 12, 0, 0, 0], None),
    (
        QUERIERS,
        &[
            20, 0, 47, 0x80, 8, 0, 6, 0, 12, 0, 0, 0, 8, 0, 2, 0, 13, 0, 0, 0,
        ],
        Some((Family::BridgeQuerierState, 2, 12, Some(24))),
    ),
    // Of two ports the last one counts.
    (
        QUERIERS,
        &[
            20, 0, 47, 0x80, 8, 0, 2, 0, 13, 0, 0, 0, 8, 0, 2, 0, 12, 0, 0, 0,
        ],
        None,
    ),
    // Padding that the list does not have, and no list at all.
    (
        QUERIERS,
        &[8, 0, 47, 0x80, 4, 0, 4, 0],
        Some((Family::BridgeQuerierState, 4, 4, None)),
    ),
    (PADDING, QUERIERS, Some((Family::Bridge, 47, 0, None))),
];

#[test]
fn differences_and_requests() {
    lists_differ::<InfoBridge>((), DIFFERENT);
    meet_requests::<InfoBridge>((), REQUESTS);
}
