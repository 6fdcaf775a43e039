// @generated from crates/linkinfo_tests/src/tests/assertions.rt by rust/translate/run.

//! Assertions on one byte string or one value.

use crate::support::*;
use linkinfo::layers::link::{
    Bytes, CanonError, CanonIntoError, Cause, DecodeError, DefaultNla, Family, HeaderCount,
    InfoData, InfoKind, LinkInfo, LinkInfoItem, LinkInfoWalk, Nla, Nlas, Text, VecLinkInfo,
    VecLinkInfoOf, canon, canon_into, check, check_counted, emit_nlas, nlas_buffer_len,
    nlas_fit_len, same,
};
use std::fmt::Debug;

/// Asserts that two values are equal; if they are not, prints the case and both values.
pub fn assert_equal<C: Debug, T: Debug + PartialEq>(case: &C, found: &T, wanted: &T) {
    assert_eq!(found, wanted, "{case:?}");
}

/// Asserts that a condition holds; if it does not, prints the case.
pub fn assert_holds<C: Debug>(case: &C, holds: bool) {
    assert!(holds, "{case:?}");
}

/// Asserts that what was parsed or made is this value, by `==`.
///
/// The type is a parameter, so that no drop of a large enum has an arm for each variant here.
pub fn assert_parsed<C: Debug, T: PartialEq, E: Debug>(case: &C, found: Result<T, E>, wanted: T) {
    assert_holds(case, found.is_ok());
    let found = found.expect("a value");
    assert_holds(case, found == wanted);
}

/// Asserts that what was parsed is equal to a value, by `==`, as `assert_parsed` does.
pub fn assert_parses<C: Debug, T: PartialEq>(case: &C, found: Result<T, DecodeError>, wanted: &T) {
    assert_holds(case, found.is_ok());
    let found = found.expect("a value");
    assert_holds(case, found == *wanted);
}

/// Asserts that a payload parses as this data of a link of the kind.
pub fn assert_data(payload: &[u8], kind: InfoKind, data: InfoData) {
    let found = InfoData::parse_with_param(payload, &kind);
    assert_parsed(&payload, found, data);
}

/// The error of a header that is not accepted.
pub const HEADER_ERROR: DecodeError = DecodeError {
    family: Family::Frame,
    kind: 0,
    cause: Cause::Header,
};

/// The error of data without a kind before it.
pub const DATA_ORDER: DecodeError = DecodeError {
    family: Family::LinkInfo,
    kind: 2,
    cause: Cause::Order,
};

/// The error of statistics without a kind before them.
pub const XSTATS_ORDER: DecodeError = DecodeError {
    family: Family::LinkInfo,
    kind: 3,
    cause: Cause::Order,
};

/// The error of port data without a port kind before it.
pub const PORT_DATA_ORDER: DecodeError = DecodeError {
    family: Family::LinkInfo,
    kind: 5,
    cause: Cause::Order,
};

/// The error of a kind whose name is not UTF-8.
pub const NAME_ERROR: DecodeError = DecodeError {
    family: Family::LinkInfo,
    kind: 1,
    cause: Cause::Utf8,
};

/// An error of an attribute of the list itself.
pub fn link_error(kind: u16, cause: Cause) -> DecodeError {
    DecodeError {
        family: Family::LinkInfo,
        kind,
        cause,
    }
}

/// The value of a character of the text, which must be a hex digit.
fn digit_of(text: &str, character: u8) -> u8 {
    match character {
        b'0'..=b'9' => character - b'0',
        b'a'..=b'f' => character - b'a' + 10,
        _ => panic!("a digit in {text}"),
    }
}

/// Appends the byte whose high digit came before this one, or returns this one as a high digit.
fn push_digit(bytes: &mut Vec<u8>, high: Option<u8>, digit: u8) -> Option<u8> {
    let Some(high) = high else {
        return Some(digit);
    };
    bytes.try_push((high << 4) | digit).expect("memory");
    None
}

/// The bytes of a text in hex digits, with or without spaces between them.
pub fn bytes_of(text: &str) -> Vec<u8> {
    let mut bytes = Vec::new();
    let mut high = None;
    for character in text.as_bytes() {
        if *character != b' ' {
            high = push_digit(&mut bytes, high, digit_of(text, *character));
        }
    }
    assert!(high.is_none(), "an even number of digits in {text}");
    bytes
}

/// The first field of a row of a table in text, and the fields after it. Each is a line.
pub fn first_field<'a>(row: &'a str) -> (&'a str, &'a str) {
    assert!(row.contains('\n'), "a further field after {row}");
    row.split_once('\n').expect("a further field")
}

/// A list of attributes of a family.
pub fn nlas<T, const N: usize>(items: [T; N]) -> Nlas<T> {
    Nlas::new(Vec::try_from_array(items).expect("memory"))
}

/// The number of bytes that the value is written as, if it fits.
pub fn len_of<T: Nla>(value: T) -> Option<usize> {
    value.fit_len()
}

/// A copy of the bytes.
pub fn copied(bytes: &[u8]) -> Bytes {
    Bytes::copy_of(bytes).expect("memory")
}

/// A copy of the text.
pub fn text_of(text: &str) -> Text {
    Text::copy_of(text).expect("memory")
}

/// An attribute of a type and a payload, kept verbatim.
pub fn default_nla(kind: u16, payload: &[u8]) -> DefaultNla {
    DefaultNla::new(kind, payload.try_to_vec().expect("memory"))
}

/// The byte this many times.
pub fn repeated(byte: u8, count: usize) -> Vec<u8> {
    try_vec![byte; count].expect("memory")
}

/// The list that a byte string parses as.
pub fn parsed(bytes: &[u8]) -> VecLinkInfo {
    VecLinkInfo::parse(bytes).expect("a list")
}

/// A link of a kind with its data.
pub fn link(kind: InfoKind, data: InfoData) -> [LinkInfo; 2] {
    [LinkInfo::Kind(kind), LinkInfo::Data(data)]
}

/// A list of these attributes.
pub fn list_of<const N: usize>(items: [LinkInfo; N]) -> VecLinkInfo {
    VecLinkInfoOf(nlas(items))
}

/// Asserts that the buffer begins with the encoding, and that the three bytes after it are 255, as
/// before.
fn assert_written(buffer: &[u8], string: &[u8]) {
    let len = string.len();
    assert_equal(&string, &buffer.get(..len), &Some(string));
    assert_equal(&string, &buffer.get(len..), &Some([255; 3].as_slice()));
}

/// Asserts that the list is written as the encoding into a longer buffer, whose last three bytes
/// are unchanged.
pub fn assert_emitted<T: Nla>(items: &[T], string: &[u8]) {
    let fit = nlas_fit_len(items).expect("a list that fits");
    let len = nlas_buffer_len(items);
    assert_equal(&string, &fit, &string.len());
    assert_equal(&string, &len, &string.len());
    assert!(len <= 100_000);
    let mut buffer = try_vec![255u8; len + 3].expect("memory");
    emit_nlas(items, &mut buffer);
    assert_written(&buffer, string);
}

/// Asserts that the list of these attributes is written as the encoding.
pub fn assert_built<T: Nla, const N: usize>(items: [T; N], string: &[u8]) {
    assert_emitted(items.as_slice(), string);
}

/// Returns whether two byte strings parse as equal lists.
pub fn reads_equal(a: &[u8], b: &[u8]) -> bool {
    let first = parsed(a);
    let second = parsed(b);
    first == second
}

/// Asserts that a byte string parses as the list of these attributes.
pub fn assert_read_as<const N: usize>(bytes: &[u8], items: [LinkInfo; N]) {
    assert_read(bytes, &list_of(items));
}

/// Asserts that the canonical encoding of the bytes is not written into a buffer of this many
/// bytes, which is unchanged.
pub fn assert_not_written(bytes: &[u8], room: usize, rejected: CanonIntoError) {
    let mut buffer = repeated(255, room);
    let case = (bytes, room);
    assert_equal(&case, &canon_into(bytes, &mut buffer), &Err(rejected));
    assert_equal(&case, &buffer, &repeated(255, room));
}

/// Asserts that the canonical encoding of the bytes is written into each buffer that has room for
/// it, whose rest is unchanged, and into no shorter one.
pub fn assert_canon_into(bytes: &[u8], canonical: &[u8]) {
    let len = canonical.len();
    for room in 0..len {
        assert_not_written(bytes, room, CanonIntoError::Short(len));
    }
    let mut exact = repeated(255, len);
    assert_equal(&bytes, &canon_into(bytes, &mut exact), &Ok(len));
    assert_equal(&bytes, &exact.as_slice(), &canonical);
    assert!(len <= 100_000);
    let mut longer = repeated(255, len + 3);
    assert_equal(&bytes, &canon_into(bytes, &mut longer), &Ok(len));
    assert_written(&longer, canonical);
}

/// Asserts that the bytes are accepted, that they are equivalent to the canonical encoding in
/// either order, and that `canon` returns this encoding.
fn assert_accepted(bytes: &[u8], canonical: &[u8]) {
    let string = canon(bytes).expect("a canonical string");
    assert_equal(&bytes, &check(bytes), &Ok(()));
    assert_equal(&bytes, &same(bytes, canonical), &Ok(true));
    assert_equal(&bytes, &same(canonical, bytes), &Ok(true));
    assert_equal(&bytes, &string.as_slice(), &canonical);
}

/// The next item of a walk. If it has none, prints the case.
pub fn next_item<'a, C: Debug>(case: &C, walk: &mut LinkInfoWalk<'a>) -> LinkInfoItem<'a> {
    let Some(Ok(item)) = walk.next() else {
        panic!("an item: {case:?}");
    };
    item
}

/// Asserts that the next item of a walk over the bytes is this attribute, at its offset.
fn assert_next(bytes: &[u8], walk: &mut LinkInfoWalk<'_>, wanted: &LinkInfo) {
    let item = next_item(&bytes, walk);
    let (found, wanted) = (item.raw_kind & 0x3fff, wanted.kind() & 0x3fff);
    assert_equal(&bytes, &found, &wanted);
    let after = bytes.get(item.place..).unwrap_or_default();
    let payload = after.get(4..4 + item.value.len());
    assert_equal(&bytes, &payload, &Some(item.value));
}

/// Asserts that a walk returns each attribute of the list in order, at its offset, and ends at the
/// end of the bytes.
fn assert_walked(bytes: &[u8], list: &VecLinkInfo) {
    let mut walk = LinkInfoWalk::new(bytes);
    for wanted in list.iter() {
        assert_next(bytes, &mut walk, wanted);
    }
    assert_holds(&bytes, walk.next().is_none());
    assert_equal(&bytes, &walk.place(), &bytes.len());
}

/// Asserts that the bytes parse as the list, whether headers are counted or not.
fn assert_read(bytes: &[u8], wanted: &VecLinkInfo) {
    let mut count = HeaderCount::new();
    let counted = VecLinkInfo::parse_counted(bytes, &mut count);
    assert_parses(&bytes, counted, wanted);
    assert_parses(&bytes, VecLinkInfo::parse(bytes), wanted);
    assert_walked(bytes, wanted);
}

/// Asserts that the bytes of the text parse as the list, and that the list is written as its
/// canonical encoding, which parses as the same list.
fn assert_list(text: &str, list: &VecLinkInfo, canonical: &str) {
    let string = bytes_of(canonical);
    let bytes = bytes_of(text);
    assert_emitted(list.as_slice(), &string);
    assert_read(&bytes, list);
    assert_read(&string, list);
    assert_accepted(&bytes, &string);
    assert_accepted(&string, &string);
    assert_canon_into(&bytes, &string);
    assert_canon_into(&string, &string);
}

/// Asserts that the bytes of the text parse as the list of these attributes, which is written as
/// its canonical encoding.
pub fn assert_reads<const N: usize>(text: &str, items: [LinkInfo; N], canonical: &str) {
    assert_list(text, &list_of(items), canonical);
}

/// Asserts that the bytes of the text parse as the value, which is given as `Debug` writes it, and
/// which is written as the canonical encoding.
pub fn assert_value(text: &str, canonical: &str, value: &str) {
    let read = parsed(&bytes_of(text));
    let written = try_format!("{:?}", read.as_slice()).expect("memory");
    assert_equal(&text, &written.as_str(), &value);
    assert_list(text, &read, canonical);
}

/// Asserts that each call rejects the bytes with this error.
pub fn assert_refused(bytes: &[u8], error: DecodeError) {
    let read = VecLinkInfo::parse(bytes).err();
    let rewritten = canon(bytes).err();
    assert_equal(&bytes, &check(bytes), &Err(error));
    assert_equal(&bytes, &read, &Some(error));
    assert_equal(&bytes, &same(bytes, &[]), &Err(error));
    assert_equal(&bytes, &same(&[], bytes), &Err(error));
    assert_equal(&bytes, &rewritten, &Some(CanonError::Refused(error)));
    assert_not_written(bytes, 0, CanonIntoError::Refused(error));
    assert_not_written(bytes, 100, CanonIntoError::Refused(error));
}

/// Asserts that validating and parsing the bytes each examine this many headers, and return this
/// error or none.
pub fn assert_headers(bytes: &[u8], error: Option<DecodeError>, headers: usize) {
    let mut checking = HeaderCount::new();
    let checked = check_counted(bytes, &mut checking);
    let mut reading = HeaderCount::new();
    let read = VecLinkInfo::parse_counted(bytes, &mut reading).err();
    assert_equal(&bytes, &checked.err(), &error);
    assert_equal(&bytes, &read, &error);
    assert_equal(&bytes, &checking.get(), &headers);
    assert_equal(&bytes, &reading.get(), &headers);
}

/// Asserts that the payload of the attribute, written by itself, is what follows the header in the
/// encoding.
fn assert_payload<T: Nla>(value: &T, string: &[u8]) {
    let len = value.fit_len().expect("a value that fits");
    assert!(len <= 65_531);
    let mut buffer = try_vec![255u8; len].expect("memory");
    let payload_len = value.value_len();
    value.emit_value(&mut buffer);
    assert_equal(&string, &payload_len, &len);
    assert_equal(&string, &string.get(4..4 + len), &Some(buffer.as_slice()));
    let mut longer = try_vec![255u8; len + 3].expect("memory");
    let taken = value.emit_payload(&mut longer);
    assert_equal(&string, &taken, &len);
    assert_written(&longer, &buffer);
}

/// Asserts that the attribute is written as the encoding, with its type, and its payload by itself.
pub fn assert_attribute<T: Nla>(value: &T, string: &[u8]) {
    assert_payload(value, string);
    assert!(value.fit_len().is_some());
    let len = value.buffer_len();
    assert_equal(&string, &len, &string.len());
    assert_equal(
        &string,
        &string.get(2..4),
        &Some(value.kind().to_le_bytes().as_slice()),
    );
    assert!(len <= 100_000);
    let mut buffer = try_vec![255u8; len + 3].expect("memory");
    value.emit(&mut buffer);
    assert_written(&buffer, string);
}
