// @generated from crates/linkinfo_families_tests/src/tests/rows.rt by rust/translate/run.

//! Assertions on attributes, values and lists for the tests of families.

use crate::support::*;
use linkinfo::layers::nla_frame::{
    Cause, DecodeError, DefaultNla, ExactEq, Family, HeaderCount, Nla, NlaBuffer, Parseable,
    emit_nlas, is_equal, nlas_buffer_len, nlas_fit_len,
};
use linkinfo::layers::table::{
    Difference, LinkFamily, Lookup, Shape, Unmet, first_check, first_measure, first_read,
    first_same, first_write_canonical, list_check, list_difference, list_error, list_measure,
    list_read, list_same, list_unmet, list_write_canonical,
};
use std::fmt::Debug;

/// Asserts that the actual value of this case is the expected one.
pub(super) fn assert_is<T: PartialEq + Debug>(case: impl Debug, found: T, wanted: T) {
    assert_eq!(found, wanted, "case {case:?}");
}

/// An attribute with one byte, of a type that no family here defines, flag bits included.
pub(super) const UNLISTED: &[u8] = &[5, 0, 0xff, 0x80, 1, 0, 0, 0];

/// An opaque attribute of a type and a payload.
pub(super) fn kept(kind: u16, payload: &[u8]) -> DefaultNla {
    DefaultNla::new(kind, payload.try_to_vec().expect("memory"))
}

/// `UNLISTED` as an opaque attribute.
pub(super) fn unlisted() -> DefaultNla {
    kept(0x80ff, &[1])
}

/// A family that keeps opaque attributes. The helpers make such a value by this call, and no test
/// passes one to them.
pub(super) trait HoldsOthers: Sized {
    /// The value of an opaque attribute.
    fn from_other(nla: DefaultNla) -> Self;
}

/// A family with rows.
pub(super) trait HasExample: HoldsOthers {
    /// A value of a row.
    fn example() -> Self;
}

/// The error of a header, and of stray bytes.
pub(super) const HEADER: DecodeError = DecodeError {
    family: Family::Frame,
    kind: 0,
    cause: Cause::Header,
};

/// The result of a check, and the headers examined.
pub(super) type Checked = (Result<(), DecodeError>, usize);

/// The first attribute of the bytes.
pub(super) fn attribute<'a>(bytes: &'a [u8]) -> NlaBuffer<'a> {
    NlaBuffer::new_checked(bytes).expect("an attribute")
}

pub(super) fn error(family: Family, kind: u16, cause: Cause) -> DecodeError {
    DecodeError {
        family,
        kind,
        cause,
    }
}

/// The shape that these rows give to a type, if one is of the type.
fn shape_in(rows: &[(u16, Shape)], kind: u16) -> Lookup {
    for (number, shape) in rows {
        if *number == kind {
            return Lookup::Is(*shape);
        }
    }
    Lookup::Unknown
}

/// Asserts that the family has the shape that these rows give to a type.
fn has_shape<F: LinkFamily>(ctx: F::Context, rows: &[(u16, Shape)], kind: u16) {
    assert_is(
        ("shape of type", kind),
        F::shape(ctx, kind),
        shape_in(rows, kind),
    );
}

/// Asserts that the family has these shapes by type without flag bits, and no other row up to 63.
pub(super) fn has_shapes<F: LinkFamily>(ctx: F::Context, rows: &[(u16, Shape)]) {
    for kind in 0..64 {
        has_shape::<F>(ctx, rows, kind);
    }
}

/// The error of checking the attribute, if any, and the headers examined inside it.
fn checked<F: LinkFamily>(ctx: F::Context, bytes: &[u8]) -> (Option<DecodeError>, usize) {
    let nla = attribute(bytes);
    let mut count = HeaderCount::new();
    let checked = F::check_value(&nla, ctx, &mut count);
    (checked.err(), count.get())
}

/// Asserts that the attribute is read as the value, with no header examined inside.
pub(super) fn is_read<F: LinkFamily + ExactEq>(ctx: F::Context, bytes: &[u8], value: &F) {
    let nla = attribute(bytes);
    let read = F::read(&nla, ctx, &mut HeaderCount::new()).expect("a value");
    assert_is(
        ("read and checked", bytes),
        (is_equal(&read, value), checked::<F>(ctx, bytes)),
        (true, (None, 0)),
    );
}

/// The error of reading the attribute, if any, and the headers examined inside it.
fn read_error<F: LinkFamily>(ctx: F::Context, bytes: &[u8]) -> (Option<DecodeError>, usize) {
    let nla = attribute(bytes);
    let mut count = HeaderCount::new();
    let read = F::read(&nla, ctx, &mut count);
    (read.err(), count.get())
}

/// Asserts that the attribute is rejected with this cause, under the name of the family and its
/// type, with no header examined inside.
pub(super) fn is_rejected<F: LinkFamily>(ctx: F::Context, bytes: &[u8], cause: Cause) {
    let expected = Some(error(F::FAMILY, attribute(bytes).kind(), cause));
    assert_is(
        ("rejected", bytes),
        [checked::<F>(ctx, bytes), read_error::<F>(ctx, bytes)],
        [(expected, 0); 2],
    );
}

/// Asserts that these bytes are written to a buffer of 255s, and the bytes after them are
/// unchanged.
fn begins_with(buffer: &[u8; 27], bytes: &[u8]) {
    let len = bytes.len();
    let buffer = buffer.as_slice();
    assert_is(
        "front, rest",
        (buffer.get(..len), buffer.get(len..)),
        (Some(bytes), [255; 27].as_slice().get(len..)),
    );
}

/// Asserts that the value is emitted as these bytes, and the bytes after them are unchanged.
pub(super) fn is_emitted<F: Nla>(value: &F, bytes: &[u8]) {
    let nla = attribute(bytes);
    let payload = nla.value().len();
    let len = value.fit_len().expect("a value that fits");
    let written = value.buffer_len();
    assert!(written <= 24);
    let mut front = [255; 27];
    assert_is(
        ("kind, lengths", bytes),
        (
            value.kind(),
            [
                written,
                len,
                value.value_len(),
                value.emit_payload(&mut front),
            ],
        ),
        (nla.raw_kind(), [bytes.len(), payload, payload, payload]),
    );
    begins_with(&front, nla.value());
    let mut buffer = [255; 27];
    value.emit(&mut buffer);
    begins_with(&buffer, bytes);
}

/// The attribute of the bytes, which is accepted.
fn accepted<'a, F: LinkFamily>(ctx: F::Context, bytes: &'a [u8]) -> NlaBuffer<'a> {
    let nla = attribute(bytes);
    F::check_value(&nla, ctx, &mut HeaderCount::new()).expect("an accepted attribute");
    nla
}

/// Writes the canonical encoding of the accepted attribute, at most 24 bytes, and returns its
/// length.
fn rewritten<F: LinkFamily>(ctx: F::Context, bytes: &[u8], buffer: &mut [u8; 27]) -> usize {
    let nla = accepted::<F>(ctx, bytes);
    let len = F::canonical_len(&nla, ctx).expect("an attribute that fits");
    assert!(len <= 20);
    F::write_canonical(&nla, ctx, buffer)
}

/// Asserts that the accepted attribute is re-encoded as these bytes, and the bytes after them are
/// unchanged.
pub(super) fn is_written_as<F: LinkFamily>(ctx: F::Context, bytes: &[u8], canonical: &[u8]) {
    let mut buffer = [255; 27];
    assert_is(
        ("length written for", bytes),
        rewritten::<F>(ctx, bytes, &mut buffer),
        canonical.len(),
    );
    begins_with(&buffer, canonical);
}

/// Whether two accepted attributes are equivalent. Requires that they are accepted.
pub(super) fn are_same<F: LinkFamily>(ctx: F::Context, a: &[u8], b: &[u8]) -> bool {
    let a = accepted::<F>(ctx, a);
    let b = accepted::<F>(ctx, b);
    F::same_value(&a, &b, ctx, &mut HeaderCount::new())
}

/// Asserts of each pair of accepted attributes whether they are equivalent.
pub(super) fn compare<F: LinkFamily>(ctx: F::Context, pairs: &[(&[u8], &[u8], bool)]) {
    for (a, b, wanted) in pairs {
        let same = are_same::<F>(ctx, a, b);
        assert_is(("same", a, b), same, *wanted);
    }
}

/// Whether the attribute is equivalent to itself with other flag bits in its type. Requires that it
/// is accepted.
pub(super) fn same_with_flags<F: LinkFamily>(ctx: F::Context, bytes: &[u8]) -> bool {
    let len = bytes.len();
    assert!(len <= 24);
    let mut marked = [0; 24];
    marked[..len].copy_from_slice(bytes);
    marked[3] ^= 0x40;
    are_same::<F>(ctx, bytes, &marked)
}

/// Asserts that the attribute is the canonical one of a row's datum, whose flag bits do not matter.
pub(super) fn is_row<F: LinkFamily + ExactEq>(ctx: F::Context, bytes: &[u8], value: &F) {
    is_read(ctx, bytes, value);
    let same = same_with_flags::<F>(ctx, bytes);
    assert_is(("same with flags", bytes), same, true);
    is_emitted(value, bytes);
    is_written_as::<F>(ctx, bytes, bytes);
}

/// Asserts that the attribute with one payload byte more, and with one less, is rejected with the
/// cause Length.
pub(super) fn has_one_length<F: LinkFamily>(ctx: F::Context, bytes: &[u8]) {
    let len = bytes.len();
    assert!(len <= 24);
    let mut attribute = [0; 28];
    attribute[..len].copy_from_slice(bytes);
    let length = attribute[0];
    attribute[0] = length.saturating_sub(1);
    is_rejected::<F>(ctx, &attribute, Cause::Length);
    attribute[0] = length.saturating_add(1);
    is_rejected::<F>(ctx, &attribute, Cause::Length);
}

/// Asserts a presence flag: its canonical attribute is empty, and any payload is equivalent.
pub(super) fn is_mark<F: LinkFamily + ExactEq>(ctx: F::Context, bytes: &[u8; 4], value: &F) {
    is_row(ctx, bytes, value);
    let longer = [5, 0, bytes[2], 0, 7, 0, 0, 0];
    is_read(ctx, &longer, value);
    is_written_as::<F>(ctx, &longer, bytes);
}

/// Asserts that the attribute is read as the value, whose canonical attribute is the other one.
pub(super) fn has_canonical<'a, F>(bytes: &'a [u8], value: &F, canonical: &[u8])
where
    F: LinkFamily<Context = ()> + Parseable<NlaBuffer<'a>> + ExactEq + Clone,
{
    is_parsed(bytes, value);
    is_read((), bytes, value);
    let found = [
        same_with_flags::<F>((), bytes),
        are_same::<F>((), bytes, canonical),
        are_same::<F>((), canonical, bytes),
        is_equal(&value.try_clone().expect("memory"), value),
    ];
    assert_is(("flag bits, same, a clone", bytes), found, [true; 4]);
    is_emitted(value, canonical);
}

/// Asserts that the attribute `UNLISTED` is the value, an opaque attribute whose flag bits matter,
/// and that a clone is equal.
pub(super) fn is_kept<F: LinkFamily + ExactEq + Clone>(
    ctx: F::Context,
    unlisted: &[u8],
    value: &F,
) {
    is_read(ctx, unlisted, value);
    let same = same_with_flags::<F>(ctx, unlisted);
    assert_is(
        "a clone, flag bits",
        (is_equal(&value.try_clone().expect("memory"), value), same),
        (true, false),
    );
    is_emitted(value, unlisted);
}

/// Asserts that `parse` reads the attribute as the value.
pub(super) fn is_parsed<'a, F: Parseable<NlaBuffer<'a>> + ExactEq>(bytes: &'a [u8], value: &F) {
    let read = F::parse(&attribute(bytes)).expect("a value");
    assert_is(("parsed", bytes), is_equal(&read, value), true);
}

/// Asserts that the attribute is the canonical one of the value and is parsed as it, and that
/// payloads of other lengths are rejected.
fn has_row<'a, F>(bytes: &'a [u8], value: &F)
where
    F: LinkFamily<Context = ()> + Parseable<NlaBuffer<'a>> + ExactEq,
{
    is_parsed(bytes, value);
    is_row((), bytes, value);
    has_one_length::<F>((), bytes);
}

/// Reads the attribute, and asserts that `Debug` writes its value as this text. In many texts the
/// number is 258, which is 0x0102, or 16909060, which is 0x01020304: it shows the order of bytes.
pub(super) fn value_of<F: LinkFamily + Debug>(ctx: F::Context, bytes: &[u8], text: &str) -> F {
    let nla = attribute(bytes);
    let value = F::read(&nla, ctx, &mut HeaderCount::new()).expect("a value");
    is_text(bytes, &value, text);
    value
}

/// Asserts that `Debug` writes the value of this case as this text.
pub(super) fn is_text<T: Debug>(case: impl Debug, value: &T, text: &str) {
    let found = try_format!("{value:?}").expect("memory");
    assert_is(case, found.as_str(), text);
}

/// Asserts that each attribute is the canonical one of the value that `Debug` writes as its text.
pub(super) fn has_rows<'a, F>(rows: &[(&'a [u8], &str)])
where
    F: LinkFamily<Context = ()> + Parseable<NlaBuffer<'a>> + ExactEq + Debug,
{
    for (bytes, text) in rows {
        let value: F = value_of((), bytes, text);
        has_row(bytes, &value);
    }
}

/// Asserts that each attribute is the canonical one of the presence flag that `Debug` writes as its
/// text, and is parsed as it.
pub(super) fn has_marks<'a, F>(rows: &[(&'a [u8; 4], &str)])
where
    F: LinkFamily<Context = ()> + Parseable<NlaBuffer<'a>> + ExactEq + Debug,
{
    for (bytes, text) in rows {
        let value: F = value_of((), bytes.as_slice(), text);
        is_parsed(bytes.as_slice(), &value);
        is_mark((), bytes, &value);
    }
}

/// Asserts that the attribute `UNLISTED` is parsed as an opaque attribute.
pub(super) fn keeps_unlisted<'a, F>(ctx: F::Context, unlisted_bytes: &'a [u8])
where
    F: HoldsOthers + LinkFamily + Parseable<NlaBuffer<'a>> + ExactEq + Clone,
{
    let value = F::from_other(unlisted());
    is_parsed(unlisted_bytes, &value);
    is_kept(ctx, unlisted_bytes, &value);
}

/// Asserts that each attribute is the canonical one of the value that `Debug` writes as its text,
/// that the attribute `UNLISTED` is parsed as an opaque attribute, and that the last attribute is
/// the canonical one of the example.
pub(super) fn has_rows_and_others<'a, F>(
    rows: &[(&'a [u8], &str)],
    unlisted_bytes: &'a [u8],
    example: &'a [u8],
) where
    F: HasExample + LinkFamily<Context = ()> + Parseable<NlaBuffer<'a>> + ExactEq + Clone + Debug,
{
    has_rows::<F>(rows);
    keeps_unlisted::<F>((), unlisted_bytes);
    has_row(example, &F::example());
}

/// Asserts that the attribute is parsed as an opaque attribute of this type and payload.
pub(super) fn keeps_other<'a, F>(bytes: &'a [u8], kind: u16, payload: &[u8])
where
    F: HoldsOthers + Parseable<NlaBuffer<'a>> + ExactEq,
{
    let value = F::from_other(kept(kind, payload));
    is_parsed(bytes, &value);
}

/// Asserts that the attribute is parsed as the value that `Debug` writes as this text, which is
/// emitted as the canonical attribute.
pub(super) fn is_rewritten<'a, F>(bytes: &'a [u8], text: &str, canonical: &[u8])
where
    F: Parseable<NlaBuffer<'a>> + Nla + Debug,
{
    let value = F::parse(&attribute(bytes)).expect("a value");
    is_text(bytes, &value, text);
    is_emitted(&value, canonical);
}

/// Asserts that the attribute is parsed and read as the value that `Debug` writes as this text.
pub(super) fn reads<'a, F>(bytes: &'a [u8], text: &str)
where
    F: LinkFamily<Context = ()> + Parseable<NlaBuffer<'a>> + ExactEq + Debug,
{
    let value: F = value_of((), bytes, text);
    is_parsed(bytes, &value);
    is_read((), bytes, &value);
}

/// Asserts that `parse` rejects the attribute with this error.
pub(super) fn is_not_parsed<'a, F: Parseable<NlaBuffer<'a>>>(
    bytes: &'a [u8],
    expected: DecodeError,
) {
    let read = F::parse(&attribute(bytes));
    assert_is(("not parsed", bytes), read.err(), Some(expected));
}

/// Asserts the result of `list_check`, and the headers examined.
pub(super) fn checks_list<F: LinkFamily>(ctx: F::Context, bytes: &[u8], wanted: Checked) {
    let mut count = HeaderCount::new();
    let checked = list_check::<F>(bytes, ctx, &mut count);
    assert_is(("list_check", bytes), (checked, count.get()), wanted);
}

/// Asserts that `list_read` returns this error, with this number of headers examined.
pub(super) fn refuses_list<F: LinkFamily>(
    ctx: F::Context,
    bytes: &[u8],
    wanted: (DecodeError, usize),
) {
    let (expected, headers) = wanted;
    let mut count = HeaderCount::new();
    let read: Result<Vec<F>, DecodeError> = list_read(bytes, ctx, &mut count);
    assert_is(
        ("list_read", bytes),
        (read.err(), count.get()),
        (Some(expected), headers),
    );
}

/// Asserts the result of `first_check`, and the headers examined.
pub(super) fn checks_first<F: LinkFamily>(ctx: F::Context, bytes: &[u8], wanted: Checked) {
    let mut count = HeaderCount::new();
    let checked = first_check::<F>(bytes, ctx, &mut count);
    assert_is(("first_check", bytes), (checked, count.get()), wanted);
}

/// Asserts that the list is accepted.
fn is_accepted<F: LinkFamily>(ctx: F::Context, bytes: &[u8]) {
    list_check::<F>(bytes, ctx, &mut HeaderCount::new()).expect("an accepted list");
}

/// Asserts that the accepted list, of at most 24 bytes, is re-encoded as these bytes, and the bytes
/// after them are unchanged.
pub(super) fn list_is_written_as<F: LinkFamily>(ctx: F::Context, bytes: &[u8], canonical: &[u8]) {
    is_accepted::<F>(ctx, bytes);
    let len = list_measure::<F>(bytes, ctx)
        .expect("an accepted list")
        .expect("a list that fits");
    assert!(len <= 24);
    let mut buffer = [255; 27];
    assert_is(
        ("length, length written for list", bytes),
        [len, list_write_canonical::<F>(bytes, ctx, &mut buffer)],
        [canonical.len(); 2],
    );
    begins_with(&buffer, canonical);
}

/// Asserts that the first attribute is accepted.
fn first_is_accepted<F: LinkFamily>(ctx: F::Context, bytes: &[u8]) {
    first_check::<F>(bytes, ctx, &mut HeaderCount::new()).expect("an accepted attribute");
}

/// Asserts that the first attribute of the bytes is read as the value, with one header examined.
pub(super) fn is_first<F: LinkFamily + ExactEq>(ctx: F::Context, bytes: &[u8], value: &F) {
    let mut count = HeaderCount::new();
    let read = first_read::<F>(bytes, ctx, &mut count).expect("a value");
    assert_is(
        ("first_read", bytes),
        (is_equal(&read, value), count.get()),
        (true, 1),
    );
}

/// Whether the accepted first attributes of two byte strings are equivalent, and the headers
/// examined.
pub(super) fn firsts_same<F: LinkFamily>(ctx: F::Context, a: &[u8], b: &[u8]) -> (bool, usize) {
    first_is_accepted::<F>(ctx, a);
    first_is_accepted::<F>(ctx, b);
    let mut count = HeaderCount::new();
    let same = first_same::<F>(a, b, ctx, &mut count);
    (same, count.get())
}

/// Asserts that the first attribute alone is re-encoded as these bytes, at most 24, and the bytes
/// after them are unchanged.
pub(super) fn first_is_written_as<F: LinkFamily>(ctx: F::Context, bytes: &[u8], canonical: &[u8]) {
    first_is_accepted::<F>(ctx, bytes);
    let len = first_measure::<F>(bytes, ctx)
        .expect("an accepted attribute")
        .expect("an attribute that fits");
    assert!(len <= 24);
    let mut buffer = [255; 27];
    assert_is(
        ("length, length written for first", bytes),
        [len, first_write_canonical::<F>(bytes, ctx, &mut buffer)],
        [canonical.len(); 2],
    );
    begins_with(&buffer, canonical);
}

/// Asserts that two accepted lists are equivalent, with this number of headers examined, or are
/// not.
pub(super) fn compare_two_lists<F: LinkFamily>(
    ctx: F::Context,
    a: &[u8],
    b: &[u8],
    wanted: Option<usize>,
) {
    is_accepted::<F>(ctx, a);
    is_accepted::<F>(ctx, b);
    let mut count = HeaderCount::new();
    let same = list_same::<F>(a, b, ctx, &mut count);
    assert_is(
        ("lists, headers", a, b),
        same.then_some(count.get()),
        wanted,
    );
}

/// Asserts of each pair of accepted lists that they are equivalent, with this number of headers
/// examined, or are not.
pub(super) fn compare_lists<F: LinkFamily>(
    ctx: F::Context,
    pairs: &[(&[u8], &[u8], Option<usize>)],
) {
    for (a, b, wanted) in pairs {
        compare_two_lists::<F>(ctx, a, b, *wanted);
    }
}

/// What `list_difference` tells: a family, a type, and the offsets in both lists.
pub(super) type Differing = (Family, u16, Option<usize>, Option<usize>);

/// What is told of a difference.
fn told_difference(difference: Option<Difference>) -> Option<Differing> {
    let it = difference?;
    Some((it.family, it.kind, it.first, it.second))
}

/// Asserts what the first difference of two accepted lists is.
fn differ<F: LinkFamily>(ctx: F::Context, a: &[u8], b: &[u8], wanted: Option<Differing>) {
    is_accepted::<F>(ctx, a);
    is_accepted::<F>(ctx, b);
    let told = told_difference(list_difference::<F>(a, b, ctx));
    assert_is(("difference", a, b), told, wanted);
}

/// Asserts of each pair of accepted lists what their first difference is.
pub(super) fn lists_differ<F: LinkFamily>(
    ctx: F::Context,
    pairs: &[(&[u8], &[u8], Option<Differing>)],
) {
    for (a, b, wanted) in pairs {
        differ::<F>(ctx, a, b, *wanted);
    }
}

/// What `list_unmet` tells: a family, a type, the offset in the request, and that in the list.
pub(super) type NotMet = (Family, u16, usize, Option<usize>);

/// What is told of an attribute that is not met.
fn told_unmet(unmet: Option<Unmet>) -> Option<NotMet> {
    let it = unmet?;
    Some((it.family, it.kind, it.want, it.have))
}

/// Asserts what an accepted list does not meet of an accepted request, from its beginning on, and
/// from the attribute that is not met on.
fn does_not_meet<F: LinkFamily>(ctx: F::Context, have: &[u8], want: &[u8], wanted: Option<NotMet>) {
    is_accepted::<F>(ctx, have);
    is_accepted::<F>(ctx, want);
    let told = told_unmet(list_unmet::<F>(have, want, ctx, 0));
    assert_is(("unmet", have, want), told, wanted);
    if let Some((_, _, place, _)) = wanted {
        let told = told_unmet(list_unmet::<F>(have, want, ctx, place));
        assert_is(("unmet from there", have, want), told, wanted);
    }
}

/// Asserts of each accepted list and request what the list does not meet of the request.
pub(super) fn meet_requests<F: LinkFamily>(
    ctx: F::Context,
    pairs: &[(&[u8], &[u8], Option<NotMet>)],
) {
    for (have, want, wanted) in pairs {
        does_not_meet::<F>(ctx, have, want, *wanted);
    }
}

/// Asserts that the list is read as the values, with this number of headers examined.
pub(super) fn is_list_read<F: LinkFamily + ExactEq>(
    ctx: F::Context,
    bytes: &[u8],
    values: &[F],
    headers: usize,
) {
    let mut count = HeaderCount::new();
    let read = list_read::<F>(bytes, ctx, &mut count).expect("a list");
    assert_is(
        ("list read, headers", bytes),
        (read.as_slice() == values, count.get()),
        (true, headers),
    );
}

/// Asserts that the list is emitted as these bytes, and the bytes after them are unchanged.
pub(super) fn list_is_emitted<F: Nla>(items: &[F], bytes: &[u8]) {
    let len = nlas_fit_len(items).expect("a list that fits");
    assert!(len < 100_000);
    let mut buffer = try_vec![255u8; len + 3].expect("memory");
    emit_nlas(items, buffer.as_mut_slice());
    let written = buffer.as_slice();
    assert_is(
        ("length, front, rest of list", len),
        (
            nlas_buffer_len(items),
            written.get(..len),
            written.get(len..),
        ),
        (bytes.len(), Some(bytes), Some([255; 3].as_slice())),
    );
}

/// Asserts that the list is read as these values, which are emitted as the list.
pub(super) fn is_list_of<F: LinkFamily + ExactEq>(ctx: F::Context, bytes: &[u8], values: &[F]) {
    is_list_read(ctx, bytes, values, values.len());
    list_is_emitted(values, bytes);
}

/// Asserts that the list is read as the values that `Debug` writes as this text, which are emitted
/// as the list.
pub(super) fn is_list<F: LinkFamily + ExactEq + Debug>(ctx: F::Context, bytes: &[u8], text: &str) {
    let values = list_read::<F>(bytes, ctx, &mut HeaderCount::new()).expect("a list");
    is_text(bytes, &values.as_slice(), text);
    is_list_of(ctx, bytes, values.as_slice());
}

/// Asserts that the list is read as one opaque attribute of this type and payload, which is emitted
/// as the list.
pub(super) fn is_list_of_other<F: HoldsOthers + LinkFamily + ExactEq>(
    ctx: F::Context,
    bytes: &[u8],
    kind: u16,
    payload: &[u8],
) {
    let mut values = Vec::new();
    let value = F::from_other(kept(kind, payload));
    values.try_push(value).expect("memory");
    is_list_of(ctx, bytes, values.as_slice());
}

/// Asserts that the list is accepted, with this number of headers examined, and returns its values,
/// which are emitted as the canonical list.
fn values_of_list<F>(bytes: &[u8], headers: usize, canonical: &[u8]) -> Vec<F>
where
    F: LinkFamily<Context = ()> + ExactEq,
{
    let mut count = HeaderCount::new();
    let values = list_read::<F>(bytes, (), &mut count).expect("a list");
    is_list_read((), bytes, values.as_slice(), headers);
    checks_list::<F>((), bytes, (Ok(()), headers));
    list_is_emitted(values.as_slice(), canonical);
    values
}

/// Asserts that each list is read as the values that `Debug` writes as its text, with this number
/// of headers examined, and that they are emitted as the canonical list.
pub(super) fn lists_are_read<F>(lists: &[(&[u8], &str, usize, &[u8])])
where
    F: LinkFamily<Context = ()> + ExactEq + Debug,
{
    for (bytes, text, headers, canonical) in lists {
        let values: Vec<F> = values_of_list(bytes, *headers, canonical);
        is_text(bytes, &values.as_slice(), text);
    }
}

/// Asserts that the reply of a kernel is read as so many values, with this number of headers
/// examined, and that they are emitted as the reply.
pub(super) fn is_reply<F>(bytes: &[u8], wanted: (usize, usize))
where
    F: LinkFamily<Context = ()> + ExactEq,
{
    let (number, headers) = wanted;
    let values: Vec<F> = values_of_list(bytes, headers, bytes);
    assert_is(("values of reply", bytes), values.len(), number);
}

/// Asserts that each list is rejected with this error, with this number of headers examined, and
/// that the error is at this offset.
pub(super) fn lists_are_rejected<F>(lists: &[(&[u8], DecodeError, usize, usize)])
where
    F: LinkFamily<Context = ()>,
{
    for (bytes, expected, headers, offset) in lists {
        checks_list::<F>((), bytes, (Err(*expected), *headers));
        refuses_list::<F>((), bytes, (*expected, *headers));
        let found = list_error::<F>(bytes, ());
        assert_is(("offset of error", bytes), found, Some(*offset));
    }
}
