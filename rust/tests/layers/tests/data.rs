// @generated from crates/linkinfo_layers_tests/src/tests/data.rt by rust/translate/run.

//! How a family reads data.

use super::assertions::assert_is;
use linkinfo::layers::nla_frame::is_equal;
use linkinfo::layers::shapes::{Datum, Shape};
use std::net::{IpAddr, Ipv4Addr, Ipv6Addr};

#[test]
fn reads_numbers_of_data() {
    let numbers = [
        u64::from(Datum::Number(255).u8_or_zero()),
        u64::from(Datum::Number(65535).u16_or_zero()),
        u64::from(Datum::Number(0xffff_ffff).u32_or_zero()),
        Datum::Number(u64::MAX).u64_or_zero(),
    ];
    assert_is("unsigned", numbers, [255, 65535, 0xffff_ffff, u64::MAX]);
    assert_is(
        "i32, bool",
        (
            Datum::Signed(-2).i32_or_zero(),
            Datum::Truth(true).bool_or_false(),
        ),
        (-2, true),
    );
    assert_is(
        "pairs",
        (
            Datum::Pair(65535, 1).u16_pair_or_zeros(),
            Datum::Pair(65536, 1).u32_pair_or_zeros(),
        ),
        ((65535, 1), (65536, 1)),
    );
    assert_is(
        "byte_or_none",
        [Datum::Number(0).byte_or_none(), Datum::Empty.byte_or_none()],
        [Some(0), None],
    );
}

#[test]
fn reads_addresses_and_bytes_of_data() {
    let v4 = Ipv4Addr::new(10, 0, 0, 1);
    let v6 = Ipv6Addr::new(0x2001, 0x0db8, 0, 0, 0, 0, 0, 1);
    assert_is(
        "IPv4, IPv6",
        (
            Datum::V4(v4).ipv4_or_unspecified(),
            Datum::V6(v6).ipv6_or_unspecified(),
        ),
        (v4, v6),
    );
    assert_is(
        "IP",
        [
            Datum::V4(v4).ip_or_unspecified(),
            Datum::V6(v6).ip_or_unspecified(),
        ],
        [IpAddr::V4(v4), IpAddr::V6(v6)],
    );
    let mac = [2, 0, 0, 0, 0, 1];
    assert_is("hardware", Datum::Mac(mac).mac_or_zeros(), mac);
    assert_is(
        "text, bytes",
        (
            Datum::Text("a").text_or_empty(),
            Datum::Bytes(&[7]).bytes_or_empty(),
        ),
        ("a", [7].as_slice()),
    );
}

#[test]
fn shapes_are_compared() {
    assert_is(
        "is_equal",
        [
            is_equal(&Shape::Raw, &Shape::Raw),
            is_equal(&Shape::Raw, &Shape::Name),
        ],
        [true, false],
    );
}

/// The numbers that a family reads from a datum: of 8, 16 and 32 bits, and signed.
fn numbers_of(datum: Datum<'_>) -> [i64; 4] {
    [
        i64::from(datum.u8_or_zero()),
        i64::from(datum.u16_or_zero()),
        i64::from(datum.u32_or_zero()),
        i64::from(datum.i32_or_zero()),
    ]
}

/// Data that hold no number, pair, address or bytes of the expected shape.
const OTHER_DATA: &[Datum<'_>] = &[Datum::Empty, Datum::Number(1 << 40), Datum::Truth(false)];

/// Asserts that a datum of another shape is read as zeros, or as nothing.
fn has_default_numbers(datum: Datum<'_>) {
    assert_is(
        ("numbers", datum),
        (
            numbers_of(datum),
            datum.u16_pair_or_zeros(),
            datum.byte_or_none(),
        ),
        ([0; 4], (0, 0), None),
    );
}

/// Asserts that a datum of another shape is read as false, empty text and no bytes.
fn has_default_bytes(datum: Datum<'_>) {
    assert_is(
        ("truth, text, bytes", datum),
        (
            datum.bool_or_false(),
            datum.text_or_empty(),
            datum.bytes_or_empty(),
        ),
        (false, "", [].as_slice()),
    );
}

/// Asserts that a datum of another shape is read as the unspecified addresses.
fn has_default_addresses(datum: Datum<'_>) {
    assert_is(
        ("addresses", datum),
        (
            datum.ipv4_or_unspecified(),
            datum.ipv6_or_unspecified(),
            datum.mac_or_zeros(),
        ),
        (Ipv4Addr::UNSPECIFIED, Ipv6Addr::UNSPECIFIED, [0; 6]),
    );
}

#[test]
fn reads_defaults_of_other_data() {
    for datum in OTHER_DATA {
        has_default_numbers(*datum);
        has_default_bytes(*datum);
        has_default_addresses(*datum);
    }
    let nothing = Datum::Empty;
    assert_is(
        "u64, pair of u32, IP",
        (
            nothing.u64_or_zero(),
            nothing.u32_pair_or_zeros(),
            nothing.ip_or_unspecified(),
        ),
        (0, (0, 0), IpAddr::V6(Ipv6Addr::UNSPECIFIED)),
    );
}
