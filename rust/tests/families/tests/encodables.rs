// @generated from crates/linkinfo_families_tests/src/tests/encodables.rt by rust/translate/run.

//! The canonical attributes of values, by a function for each shape.

use super::rows::is_text;
use linkinfo::layers::table::encodables;
use std::fmt::Debug;
use std::net::{IpAddr, Ipv4Addr, Ipv6Addr};

/// Asserts that `Debug` writes each value as the text with the same index.
fn have_texts<T: Debug>(values: &[T], texts: &[&str]) {
    assert!(values.len() == texts.len());
    for (value, text) in values.iter().zip(texts) {
        is_text("a canonical attribute", value, text);
    }
}

/// Canonical attributes of numbers, as `Debug` writes them.
const NUMBERS: &[&str] = &[
    "Typed(1, U8, Number(7))",
    "Typed(2, Le16, Number(258))",
    "Typed(3, Le32, Number(16909060))",
    "Typed(4, Le64, Number(18446744073709551615))",
    "Typed(5, Be16, Number(258))",
    "Typed(6, Be32, Number(16909060))",
    "Typed(7, Be64, Number(18446744073709551615))",
    "Typed(8, I32, Signed(-2))",
];

#[test]
fn numbers_of_encodables() {
    let values = [
        encodables::u8(1, 7),
        encodables::le16(2, 0x0102),
        encodables::le32(3, 0x0102_0304),
        encodables::le64(4, u64::MAX),
        encodables::be16(5, 0x0102),
        encodables::be32(6, 0x0102_0304),
        encodables::be64(7, u64::MAX),
        encodables::i32(8, -2),
    ];
    have_texts(values.as_slice(), NUMBERS);
}

/// Canonical attributes of truth values, presence flags and texts, as `Debug` writes them.
const TRUTHS_AND_TEXTS: &[&str] = &[
    "Typed(1, Truth, Truth(true))",
    "Typed(2, TruthOne, Truth(false))",
    "Typed(3, Scrub, Truth(true))",
    "Typed(4, Mark, Empty)",
    "Typed(5, Name, Text(\"ab\"))",
    "Typed(6, EmptyOrByte, Empty)",
    "Typed(7, EmptyOrByte, Number(9))",
];

#[test]
fn truths_and_texts_of_encodables() {
    let values = [
        encodables::truth(1, true),
        encodables::truth_one(2, false),
        encodables::scrub(3, true),
        encodables::mark(4),
        encodables::name(5, "ab"),
        encodables::empty_or_byte(6, None),
        encodables::empty_or_byte(7, Some(9)),
    ];
    have_texts(values.as_slice(), TRUTHS_AND_TEXTS);
}

/// Canonical attributes of addresses and pairs, as `Debug` writes them.
const ADDRESSES_AND_PAIRS: &[&str] = &[
    "Typed(1, V4, V4(192.0.2.1))",
    "Typed(2, V6, V6(102:304:506:708:90a:b0c:d0e:f10))",
    "Typed(3, GeneveV4, V4(192.0.2.1))",
    "Typed(4, GeneveV6, V6(102:304:506:708:90a:b0c:d0e:f10))",
    "Typed(5, Ip, V4(192.0.2.1))",
    "Typed(6, Ip, V6(102:304:506:708:90a:b0c:d0e:f10))",
    "Typed(7, Mac, Mac([1, 2, 3, 4, 5, 6]))",
    "Typed(8, BePair, Pair(1, 2))",
    "Typed(9, FlagPair, Pair(3, 4294967295))",
];

#[test]
fn addresses_and_pairs_of_encodables() {
    let four = Ipv4Addr::from([192, 0, 2, 1]);
    let six = Ipv6Addr::from([1, 2, 3, 4, 5, 6, 7, 8, 9, 10, 11, 12, 13, 14, 15, 16]);
    let values = [
        encodables::v4(1, four),
        encodables::v6(2, six),
        encodables::geneve_v4(3, four),
        encodables::geneve_v6(4, six),
        encodables::ip(5, IpAddr::V4(four)),
        encodables::ip(6, IpAddr::V6(six)),
        encodables::mac(7, [1, 2, 3, 4, 5, 6]),
        encodables::be_pair(8, (1, 2)),
        encodables::flag_pair(9, (3, u32::MAX)),
    ];
    have_texts(values.as_slice(), ADDRESSES_AND_PAIRS);
}
