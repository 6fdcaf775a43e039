// @generated from crates/linkinfo_families_tests/src/tests/payloads.rt by rust/translate/run.

//! Payloads with types of their own: records, and arrays of numbers.

use super::rows::assert_is;
use crate::support::*;
use linkinfo::layers::nla_frame::{Cause, DecodeError, Family, HeaderCount};
use linkinfo::layers::payloads::{
    BridgeId, CanBerrCounter, CanBitTiming, CanBitTimingConst, Numbers,
};
use linkinfo::layers::table::LinkPayload;
use std::fmt::Debug;

/// The error of a payload of another length, of an attribute of the type 1 of can links.
const OF_LENGTH: DecodeError = DecodeError {
    family: Family::Can,
    kind: 1,
    cause: Cause::Length,
};

/// Asserts that the payload is read as the value, and that the value is as long and is written as
/// these bytes.
fn is_payload<T: LinkPayload + Debug>(payload: &[u8], value: &T) {
    assert!(payload.len() <= 100);
    let mut count = HeaderCount::new();
    let read = T::read(payload, Family::Can, 1, &mut count).expect("a payload");
    assert!(read == *value, "payload {payload:?}");
    let len = value.fit_len().expect("a payload that fits");
    assert_is(payload.len(), len, payload.len());
    let mut buffer = [0xff; 100];
    assert!(len <= 100);
    value.emit(&mut buffer);
    assert_is("written", buffer.get(..len), Some(payload));
}

/// Asserts that zeros of each length up to 70 are a payload if they are as long as one, whose
/// length is from `least` to `most` and a multiple of `step`, and that any other length is rejected
/// with the cause Length.
fn has_lengths<T: LinkPayload>(least: usize, most: usize, step: usize) {
    assert!(step > 0);
    let zeros = [0; 70];
    for len in 0..=70 {
        let payload = zeros.get(..len).expect("zeros");
        let mut count = HeaderCount::new();
        let checked = T::check(payload, Family::Can, 1, &mut count);
        let wanted = if least <= len && len <= most && len % step == 0 {
            Ok(())
        } else {
            Err(OF_LENGTH)
        };
        assert_is(len, checked, wanted);
        assert_is(len, count.get(), 0);
    }
}

#[test]
fn records() {
    let id = BridgeId {
        priority: 0x8001,
        address: [2, 0, 0, 0, 0, 7],
    };
    is_payload(&[0x80, 1, 2, 0, 0, 0, 0, 7], &id);
    let counters = CanBerrCounter {
        txerr: 258,
        rxerr: 7,
    };
    is_payload(&[2, 1, 7, 0], &counters);
    let timing = CanBitTiming {
        bitrate: 16_909_060,
        sample_point: 2,
        tq: 3,
        prop_seg: 4,
        phase_seg1: 5,
        phase_seg2: 6,
        sjw: 7,
        brp: 8,
    };
    let bytes = [
        4, 3, 2, 1, 2, 0, 0, 0, 3, 0, 0, 0, 4, 0, 0, 0, 5, 0, 0, 0, 6, 0, 0, 0, 7, 0, 0, 0, 8, 0,
        0, 0,
    ];
    is_payload(&bytes, &timing);
}

#[test]
fn limits_with_a_name() {
    // The bytes after the first NUL of the name count.
    let limits = CanBitTimingConst {
        name: *b"mcp\0\x01\0\0\0\0\0\0\0\0\0\0\x02",
        tseg1_min: 1,
        tseg1_max: 2,
        tseg2_min: 3,
        tseg2_max: 4,
        sjw_max: 5,
        brp_min: 6,
        brp_max: 7,
        brp_inc: 16_909_060,
    };
    let bytes = [
        b'm', b'c', b'p', 0, 1, 0, 0, 0, 0, 0, 0, 0, 0, 0, 0, 2, 1, 0, 0, 0, 2, 0, 0, 0, 3, 0, 0,
        0, 4, 0, 0, 0, 5, 0, 0, 0, 6, 0, 0, 0, 7, 0, 0, 0, 4, 3, 2, 1,
    ];
    is_payload(&bytes, &limits);
}

/// Forty numbers of 16 bits, each 258, little-endian.
const FORTY: [u8; 80] = [
    2, 1, 2, 1, 2, 1, 2, 1, 2, 1, 2, 1, 2, 1, 2, 1, 2, 1, 2, 1, 2, 1, 2, 1, 2, 1, 2, 1, 2, 1, 2, 1,
    2, 1, 2, 1, 2, 1, 2, 1, 2, 1, 2, 1, 2, 1, 2, 1, 2, 1, 2, 1, 2, 1, 2, 1, 2, 1, 2, 1, 2, 1, 2, 1,
    2, 1, 2, 1, 2, 1, 2, 1, 2, 1, 2, 1, 2, 1, 2, 1,
];

#[test]
fn arrays() {
    let mut items = Vec::new();
    for _ in 0..40 {
        items.try_push(258_u16).expect("memory");
    }
    is_payload(&FORTY, &Numbers::new(items));
    let mut items = Vec::new();
    items.try_push(16_909_060_u32).expect("memory");
    items.try_push(5).expect("memory");
    is_payload(&[4, 3, 2, 1, 5, 0, 0, 0], &Numbers::new(items));
    is_payload(&[], &Numbers::<u32>::new(Vec::new()));
}

#[test]
fn lengths() {
    has_lengths::<BridgeId>(8, 8, 1);
    has_lengths::<CanBerrCounter>(4, 4, 1);
    has_lengths::<CanBitTiming>(32, 32, 1);
    has_lengths::<CanBitTimingConst>(48, 48, 1);
    has_lengths::<Numbers<u16>>(0, 70, 2);
    has_lengths::<Numbers<u32>>(0, 70, 4);
}
