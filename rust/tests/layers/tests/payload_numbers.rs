// @generated from crates/linkinfo_layers_tests/src/tests/payload_numbers.rt by rust/translate/run.

//! Numbers and addresses in payloads.

use super::assertions::assert_is;
use linkinfo::layers::nla_frame::*;
use std::net::{IpAddr, Ipv4Addr, Ipv6Addr};

#[test]
fn parses_numbers() {
    let bytes = [0x81, 2, 3, 4, 5, 6, 7, 0x88];
    assert_is("u8", parse_u8(&bytes[..1]), Ok(0x81));
    let found = [parse_u16(&bytes[..2]), parse_u16_be(&bytes[..2])];
    assert_is("u16, both orders", found, [Ok(0x0281), Ok(0x8102)]);
    let found = [parse_u32(&bytes[..4]), parse_u32_be(&bytes[..4])];
    let wanted = [Ok(0x0403_0281), Ok(0x8102_0304)];
    assert_is("u32, both orders", found, wanted);
    let found = [parse_u64(&bytes), parse_u64_be(&bytes)];
    let wanted = [Ok(0x8807_0605_0403_0281), Ok(0x8102_0304_0506_0788)];
    assert_is("u64, both orders", found, wanted);
    assert_is(
        "i32",
        [parse_i32(&[255, 255, 255, 255]), parse_i32(&[0, 0, 0, 128])],
        [Ok(-1), Ok(i32::MIN)],
    );
}

#[test]
fn parses_addresses() {
    let mac = [0x81, 2, 3, 4, 5, 6];
    assert_is("hardware", parse_mac(&mac), Ok(mac));
    let four = [10, 0, 0, 1];
    let v4 = Ipv4Addr::new(10, 0, 0, 1);
    let sixteen = [0x20, 1, 0x0d, 0xb8, 0, 0, 0, 0, 0, 0, 0, 0, 0, 0, 0, 1];
    let v6 = Ipv6Addr::new(0x2001, 0x0db8, 0, 0, 0, 0, 0, 1);
    assert_is("IPv4", parse_ipv4_addr(&four), Ok(v4));
    assert_is("IPv6", parse_ipv6_addr(&sixteen), Ok(v6));
    assert_is(
        "IP",
        [parse_ip(&four), parse_ip(&sixteen)],
        [Ok(IpAddr::V4(v4)), Ok(IpAddr::V6(v6))],
    );
}

/// Whether the payload is accepted as u8, u16, u32, u64, i32, big-endian u16, u32 and u64, hardware
/// address, IP, IPv4 and IPv6 address.
fn accepted(payload: &[u8]) -> [bool; 12] {
    [
        parse_u8(payload).is_ok(),
        parse_u16(payload).is_ok(),
        parse_u32(payload).is_ok(),
        parse_u64(payload).is_ok(),
        parse_i32(payload).is_ok(),
        parse_u16_be(payload).is_ok(),
        parse_u32_be(payload).is_ok(),
        parse_u64_be(payload).is_ok(),
        parse_mac(payload).is_ok(),
        parse_ip(payload).is_ok(),
        parse_ipv4_addr(payload).is_ok(),
        parse_ipv6_addr(payload).is_ok(),
    ]
}

#[test]
fn rejects_other_lengths() {
    let bytes = [0; 17];
    for len in 0..=17 {
        let (two, four, eight, sixteen) = (len == 2, len == 4, len == 8, len == 16);
        let wanted = [
            len == 1,
            two,
            four,
            eight,
            four,
            two,
            four,
            eight,
            len == 6,
            four || sixteen,
            four,
            sixteen,
        ];
        assert_is(len, accepted(&bytes[..len]), wanted);
    }
    assert_is("u32", parse_u32(&bytes[..3]), Err(Cause::Length));
    assert_is("IP", parse_ip(&bytes[..5]), Err(Cause::Length));
}

#[test]
fn emits_numbers() {
    let mut buffers = [[255; 9]; 7];
    emit_u16(&mut buffers[0], 0x0102);
    emit_u16_be(&mut buffers[1], 0x0102);
    emit_u32(&mut buffers[2], 0x0102_0304);
    emit_u32_be(&mut buffers[3], 0x0102_0304);
    emit_i32(&mut buffers[4], -2);
    emit_u64(&mut buffers[5], 0x0102_0304_0506_0708);
    emit_u64_be(&mut buffers[6], 0x0102_0304_0506_0708);
    let wanted = [
        [2, 1, 255, 255, 255, 255, 255, 255, 255],
        [1, 2, 255, 255, 255, 255, 255, 255, 255],
        [4, 3, 2, 1, 255, 255, 255, 255, 255],
        [1, 2, 3, 4, 255, 255, 255, 255, 255],
        [254, 255, 255, 255, 255, 255, 255, 255, 255],
        [8, 7, 6, 5, 4, 3, 2, 1, 255],
        [1, 2, 3, 4, 5, 6, 7, 8, 255],
    ];
    assert_is("each emitter", buffers, wanted);
}

#[test]
fn strips_one_nul_from_a_name() {
    let names: [&[u8]; 4] = [
        without_nul(b"vrf\0"),
        without_nul(b"vrf\0\0"),
        without_nul(b"vrf"),
        without_nul(b""),
    ];
    let wanted: [&[u8]; 4] = [b"vrf", b"vrf\0", b"vrf", b""];
    assert_is("names", names, wanted);
}
