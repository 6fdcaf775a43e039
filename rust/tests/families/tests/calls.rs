// @generated from crates/linkinfo_families_tests/src/tests/calls.rt by rust/translate/run.

//! The calls that a family defined by rows is made of, each with the family `xfrm`: reading,
//! checking, comparing and writing by the row of a type, and the slots for values.

use super::rows::{assert_is, attribute, error, kept};
use linkinfo::layers::devices::InfoXfrm;
use linkinfo::layers::nla_frame::{
    Cause, DecodeError, ExactEq, Family, HeaderCount, NlaBuffer, is_equal,
};
use linkinfo::layers::table::{
    Datum, Decoded, Encodable, LinkFamily, Lookup, RowFamily, Shape, Slot, row_check,
    row_emit_payload, row_emit_value, row_fit_len, row_kind, row_read, row_same, row_store,
    row_value_len, table_lookup, typed_lookup,
};

/// The interface index 0x01020304.
const LINK: &[u8] = &[8, 0, 1, 0, 4, 3, 2, 1];

/// `LINK` with a flag bit in its type.
const MARKED: &[u8] = &[8, 0, 1, 0x80, 4, 3, 2, 1];

/// Another interface index.
const OTHER_LINK: &[u8] = &[8, 0, 1, 0, 5, 3, 2, 1];

/// An interface index of one byte.
const SHORT: &[u8] = &[5, 0, 1, 0, 4];

/// Whether the list has two values, and both are equal to the value.
fn are_equal<F: ExactEq>(list: &[F], value: &F) -> bool {
    match list {
        [first, second] => is_equal(first, value) && is_equal(second, value),
        _ => false,
    }
}

/// Asserts that the attribute is read as the value by its row and by its family, alone and into a
/// list.
fn is_read_by_row(bytes: &[u8], value: &InfoXfrm) {
    let nla = &attribute(bytes);
    let read = row_read::<InfoXfrm>(nla, ()).expect("a value");
    let mut count = HeaderCount::new();
    let again = InfoXfrm::read(nla, (), &mut count).expect("a value");
    let mut list = Vec::new();
    row_store::<InfoXfrm, Vec<InfoXfrm>>(&mut list, nla, ()).expect("a value");
    InfoXfrm::push(&mut list, nla, (), &mut count).expect("a value");
    assert_is(
        ("row_read, read, row_store and push", bytes),
        [
            is_equal(&read, value),
            is_equal(&again, value),
            are_equal(&list, value),
        ],
        [true; 3],
    );
}

/// Asserts that the attribute is rejected with this error by its row.
fn is_rejected_by_row(bytes: &[u8], expected: DecodeError) {
    let nla = &attribute(bytes);
    let found = [
        row_read::<InfoXfrm>(nla, ()).err(),
        row_check::<InfoXfrm>(nla, ()).err(),
        InfoXfrm::check_value(nla, (), &mut HeaderCount::new()).err(),
    ];
    assert_is(("rejected", bytes), found, [Some(expected); 3]);
}

#[test]
fn reads_by_rows() {
    let value = InfoXfrm::Link(0x0102_0304);
    is_read_by_row(LINK, &value);
    is_read_by_row(MARKED, &value);
    let other = InfoXfrm::Other(kept(0x8003, &[7]));
    is_read_by_row(&[5, 0, 3, 0x80, 7], &other);
    let expected = error(Family::Xfrm, 1, Cause::Length);
    is_rejected_by_row(SHORT, expected);
}

/// The attribute of the bytes, which its row accepts.
fn accepted<'a>(bytes: &'a [u8]) -> NlaBuffer<'a> {
    let nla = attribute(bytes);
    InfoXfrm::check_value(&nla, (), &mut HeaderCount::new()).expect("an accepted attribute");
    row_check::<InfoXfrm>(&nla, ()).expect("an accepted attribute");
    nla
}

/// Whether two accepted attributes are equivalent, by their row and by their family.
fn same_by_row(a: &[u8], b: &[u8]) -> [bool; 2] {
    let a = accepted(a);
    let b = accepted(b);
    let mut count = HeaderCount::new();
    [
        row_same::<InfoXfrm>(&a, &b, ()),
        InfoXfrm::same_value(&a, &b, (), &mut count),
    ]
}

#[test]
fn compares_by_rows() {
    assert_is(
        "same_by_row",
        [
            same_by_row(LINK, LINK),
            same_by_row(LINK, MARKED),
            same_by_row(LINK, OTHER_LINK),
        ],
        [[true; 2], [true; 2], [false; 2]],
    );
}

/// Asserts that the value is written with this type and this payload of four bytes by its row, also
/// to a buffer of six 255s.
fn is_written_by_row(value: &InfoXfrm, kind: u16, payload: &[u8], buffer: &[u8]) {
    let len = row_fit_len(value).expect("a value that fits");
    assert_is(
        ("kind, fit_len, value_len of type", kind),
        (row_kind(value), [len, row_value_len(value)]),
        (kind, [4; 2]),
    );
    assert!(len == 4);
    let mut exact = [255; 4];
    row_emit_value(value, &mut exact);
    let mut longer = [255; 6];
    let taken = row_emit_payload(value, &mut longer);
    assert_is(
        ("emit_value, emit_payload of type", kind),
        (taken, [exact.as_slice(), longer.as_slice()]),
        (4, [payload, buffer]),
    );
}

#[test]
fn writes_by_rows() {
    let link = InfoXfrm::Link(0x0102_0304);
    is_written_by_row(&link, 1, &[4, 3, 2, 1], &[4, 3, 2, 1, 255, 255]);
    let kept = InfoXfrm::Other(kept(0x8003, &[7, 8, 9, 10]));
    is_written_by_row(&kept, 0x8003, &[7, 8, 9, 10], &[7, 8, 9, 10, 255, 255]);
}

/// Families and types, and what the table of all families gives for them.
const LOOKUPS: &[(Family, u16, Lookup)] = &[
    (Family::Xfrm, 1, Lookup::Is(Shape::Le32)),
    (Family::Xfrm, 3, Lookup::Unknown),
    (Family::Geneve, 2, Lookup::Is(Shape::GeneveV4)),
    (Family::BatAdv, 1, Lookup::Is(Shape::Name)),
    (Family::Tun, 1, Lookup::Unknown),
    (Family::Vlan, 1, Lookup::Unknown),
    (Family::Bridge, 1, Lookup::Unknown),
    (Family::BondPort, 1, Lookup::Unknown),
    (Family::BridgePort, 1, Lookup::Unknown),
];

/// Families and types, and what the table of the typed layer gives for them.
const TYPED_LOOKUPS: &[(Family, u16, Lookup)] = &[
    (Family::Xfrm, 1, Lookup::Is(Shape::Le32)),
    (Family::Vlan, 1, Lookup::Is(Shape::Le16)),
    (
        Family::Vlan,
        4,
        Lookup::Is(Shape::Nested(Family::VlanQosMapping)),
    ),
    (Family::Vlan, 6, Lookup::Unknown),
    (Family::VlanQosMapping, 1, Lookup::Is(Shape::FlagPair)),
    (
        Family::Bond,
        23,
        Lookup::Is(Shape::Nested(Family::BondAdInfo)),
    ),
    (Family::BondAdInfo, 5, Lookup::Is(Shape::Mac)),
    (Family::BondPort, 4, Lookup::Is(Shape::Raw)),
    (
        Family::Bridge,
        47,
        Lookup::Is(Shape::Nested(Family::BridgeQuerierState)),
    ),
    (Family::Bridge, 40, Lookup::Unknown),
    (Family::BridgeQuerierState, 5, Lookup::Is(Shape::V6)),
    (Family::BridgeQuerierState, 4, Lookup::Unknown),
    (Family::BridgePort, 45, Lookup::Is(Shape::U8)),
    (Family::BridgePort, 26, Lookup::Unknown),
    (Family::Can, 21, Lookup::Is(Shape::Nested(Family::CanTdc))),
    (Family::CanTdc, 9, Lookup::Is(Shape::Le32)),
    (Family::CanCtrlModeExt, 1, Lookup::Is(Shape::Le32)),
    (Family::CanPwm, 9, Lookup::Is(Shape::Le32)),
];

#[test]
fn tables_give_shapes() {
    for (family, kind, answer) in LOOKUPS {
        let found = table_lookup(*family, *kind);
        assert_is((*family, *kind), found, *answer);
    }
    for (family, kind, answer) in TYPED_LOOKUPS {
        let found = typed_lookup(*family, *kind);
        assert_is((*family, *kind), found, *answer);
    }
}

#[test]
fn values_are_stored_in_slots() {
    let mut list = try_vec![1u8].expect("memory");
    list.store(2).expect("memory");
    let mut alone = Some(1u8);
    alone.store(2).expect("no memory");
    assert_is(
        "a list, an option",
        (list.as_slice(), alone),
        ([1, 2].as_slice(), Some(2)),
    );

    let mut slot = None;
    let decoded = Decoded::Typed(2, Datum::Number(7));
    <InfoXfrm as RowFamily>::store_decoded(&mut slot, (), decoded).expect("no memory");
    let value = slot.expect("a value");
    assert!(is_equal(&value, &InfoXfrm::IfId(7)));
    assert_is(
        "to_encodable",
        <InfoXfrm as RowFamily>::to_encodable(&value),
        Encodable::Typed(2, Shape::Le32, Datum::Number(7)),
    );
}
