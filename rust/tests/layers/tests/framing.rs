// @generated from crates/linkinfo_layers_tests/src/tests/framing.rt by rust/translate/run.

//! Byte strings and the attributes that they frame.

use super::assertions::{assert_equality, assert_is, attribute, kept_list, repeated};
use crate::support::*;
use linkinfo::layers::nla_frame::{
    Cause, DecodeError, DefaultNla, Family, HeaderCount, NlaBuffer, NlasIterator, Parseable,
    next_attribute,
};

const HEADER_ERROR: DecodeError = DecodeError {
    family: Family::Frame,
    kind: 0,
    cause: Cause::Header,
};

/// What an iterator yields over a byte string until it ends, and its state then.
#[derive(Debug, PartialEq)]
struct Walked {
    attributes: Vec<DefaultNla>,
    failure: Option<DecodeError>,
    examined: usize,
    place: usize,
}

/// The attribute as an opaque one.
fn parsed(nla: &NlaBuffer<'_>) -> DefaultNla {
    DefaultNla::parse(nla).expect("memory")
}

fn walk(bytes: &[u8]) -> Walked {
    let mut iterator = NlasIterator::new(bytes);
    let mut attributes = Vec::new();
    let mut failure = None;
    for _ in 0..=bytes.len() {
        match iterator.next() {
            Some(Ok(nla)) => attributes.try_push(parsed(&nla)).expect("memory"),
            Some(Err(error)) => failure = Some(error),
            None => break,
        }
    }
    Walked {
        attributes,
        failure,
        examined: iterator.examined(),
        place: iterator.place(),
    }
}

/// The attributes by single steps, with the count after them.
fn steps(bytes: &[u8]) -> Walked {
    let mut rest = bytes;
    let mut count = HeaderCount::new();
    let mut attributes = Vec::new();
    let mut failure = None;
    for _ in 0..=bytes.len() {
        if count.get() > bytes.len() {
            break;
        }
        match next_attribute(rest, &mut count) {
            Some(Ok((nla, after))) => {
                attributes.try_push(parsed(&nla)).expect("memory");
                rest = after;
            }
            Some(Err(error)) => {
                failure = Some(error);
                break;
            }
            None => break,
        }
    }
    Walked {
        attributes,
        failure,
        examined: count.get(),
        place: bytes.len().saturating_sub(rest.len()),
    }
}

/// Asserts what a byte string frames: its attributes, its error, the headers examined, and the
/// offset of an iterator at the end.
fn check_walk(
    bytes: &[u8],
    attributes: &[(u16, &[u8])],
    (failure, examined, place): (Option<DecodeError>, usize, usize),
) {
    let wanted = Walked {
        attributes: kept_list(attributes),
        failure,
        examined,
        place,
    };
    assert_is(("walk", bytes), &walk(bytes), &wanted);
    assert_is(("steps", bytes), &steps(bytes), &wanted);
}

/// A byte string, its attributes, its error, the headers examined, and the offset of an iterator at
/// the end.
type Framed = (
    &'static [u8],
    &'static [(u16, &'static [u8])],
    (Option<DecodeError>, usize, usize),
);

const STRINGS: &[Framed] = &[
    // The empty byte string is the empty list.
    (&[], &[], (None, 0, 0)),
    // Flag bits belong to the type.
    (&[4, 0, 9, 0x80], &[(0x8009, &[])], (None, 1, 4)),
    (&[4, 0, 9, 0], &[(9, &[])], (None, 1, 4)),
    // Header errors: three bytes, a length field of 3, one above the number of bytes, and a stray
    // byte after an aligned attribute.
    (&[8, 0, 1], &[], (Some(HEADER_ERROR), 0, 0)),
    (&[3, 0, 1, 0], &[], (Some(HEADER_ERROR), 1, 0)),
    (
        &[9, 0, 1, 0, 0x78, 0x66, 0x72, 0x6d],
        &[],
        (Some(HEADER_ERROR), 1, 0),
    ),
    (&[4, 0, 9, 0, 0], &[(9, &[])], (Some(HEADER_ERROR), 1, 4)),
    (&[4, 0, 9, 0, 0, 0], &[(9, &[])], (Some(HEADER_ERROR), 1, 4)),
    (
        &[4, 0, 9, 0, 0, 0, 0],
        &[(9, &[])],
        (Some(HEADER_ERROR), 1, 4),
    ),
];

/// Length fields 0 to 4.
const SHORT_LENGTH_FIELDS: &[Framed] = &[
    (&[0, 0, 1, 0], &[], (Some(HEADER_ERROR), 1, 0)),
    (&[1, 0, 1, 0], &[], (Some(HEADER_ERROR), 1, 0)),
    (&[2, 0, 1, 0], &[], (Some(HEADER_ERROR), 1, 0)),
    (&[4, 0, 1, 0], &[(1, &[])], (None, 1, 4)),
];

const PADDED: &[Framed] = &[
    // The padding of the last attribute may be absent, cut short, or of any value.
    (&[5, 0, 1, 0, 7], &[(1, &[7])], (None, 1, 5)),
    (&[5, 0, 1, 0, 7, 1], &[(1, &[7])], (None, 1, 6)),
    (&[5, 0, 1, 0, 7, 1, 2], &[(1, &[7])], (None, 1, 7)),
    (&[5, 0, 1, 0, 7, 1, 2, 3], &[(1, &[7])], (None, 1, 8)),
    (
        &[5, 0, 1, 0, 7, 1, 2, 3, 4],
        &[(1, &[7])],
        (Some(HEADER_ERROR), 1, 8),
    ),
    // Padding inside the list may have any value; an error comes after the attributes before it.
    (
        &[6, 0, 1, 0, 7, 8, 255, 255, 4, 0, 2, 0],
        &[(1, &[7, 8]), (2, &[])],
        (None, 2, 12),
    ),
    (
        &[6, 0, 1, 0, 7, 8, 255, 255, 4, 0, 2, 0, 3, 0, 0, 0],
        &[(1, &[7, 8]), (2, &[])],
        (Some(HEADER_ERROR), 3, 12),
    ),
];

fn check_walks(strings: &[Framed]) {
    for (bytes, attributes, ends) in strings {
        check_walk(bytes, attributes, *ends);
    }
}

#[test]
fn frames_strings() {
    check_walks(STRINGS);
}

#[test]
fn frames_short_length_fields() {
    check_walks(SHORT_LENGTH_FIELDS);
}

#[test]
fn ignores_padding() {
    check_walks(PADDED);
}

/// The first `len` bytes of the attribute with the longest payload.
fn longest(len: usize) -> Vec<u8> {
    let mut bytes = repeated(97, len);
    assert!(bytes.len() >= 4);
    bytes[0] = 255;
    bytes[1] = 255;
    bytes[2] = 9;
    bytes[3] = 0;
    bytes
}

#[test]
fn frames_the_longest_value() {
    let cut = longest(65534);
    let rejected = NlaBuffer::new_checked(&cut).err();
    assert_is("a byte less", rejected, Some(HEADER_ERROR));
    let whole = longest(65535);
    let nla = attribute(&whole);
    assert_is("all", (nla.length(), nla.value().len()), (65535, 65531));
}

#[test]
fn reads_one_attribute() {
    let bytes = [6, 0, 1, 0xc0, 7, 8, 0, 0];
    let nla = attribute(&bytes);
    let found = (nla.kind(), nla.raw_kind(), nla.length(), nla.value());
    let wanted = (1, 0xc001, 6, [7, 8].as_slice());
    assert_is("kind, raw_kind, length, value", found, wanted);
    let mut count = HeaderCount::new();
    let same = NlaBuffer::new_counted(&bytes, &mut count).expect("an attribute");
    let other = attribute(&[6, 0, 1, 0x40, 7, 8]);
    assert_equality(&nla, &same, &other);
}

/// Whether the bytes begin with an attribute, and the count after it, from a count of four headers.
fn counted(bytes: &[u8]) -> (bool, usize) {
    let mut count = HeaderCount::default();
    count.add(4);
    let is_attribute = NlaBuffer::new_counted(bytes, &mut count).is_ok();
    (is_attribute, count.get())
}

#[test]
fn counts_headers() {
    let bytes = [6, 0, 1, 0xc0, 7, 8, 0, 0];
    assert_is(
        "all, five and three bytes",
        [counted(&bytes), counted(&bytes[..5]), counted(&bytes[..3])],
        [(true, 5), (false, 5), (false, 4)],
    );
}

#[test]
fn clones_iterators() {
    let bytes = [6, 0, 1, 0xc0, 7, 8, 0, 0];
    let iterator = NlasIterator::new(&bytes);
    let mut moved = iterator.try_clone().expect("memory");
    assert!(moved.next().is_some());
    assert_equality(&iterator, &NlasIterator::new(&bytes), &moved);
}
