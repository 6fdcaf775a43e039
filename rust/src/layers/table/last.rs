// @generated from crates/linkinfo_table/src/last.rt by rust/translate/run.

//! The last attribute of each type in a list: the one that the kernel reads.

use crate::layers::nla_frame::{ExactEq, HeaderCount, NlaBuffer, next_attribute};

/// How many types an index has an entry for. The types of all rows are below.
pub const INDEXED: u16 = 64;

/// An attribute of a byte string, and the offset of its header there.
#[derive(Debug, PartialEq, Eq)]
pub struct PlacedNla<'a> {
    /// The offset of the attribute's header in the byte string, in bytes.
    pub offset: usize,
    /// The attribute, in the bytes that hold it.
    pub nla: NlaBuffer<'a>,
}

/// The last attribute of each of `INDEXED` types in the attributes of a byte string, up to a
/// damaged header.
///
/// Types are compared without their flags. Each is found in constant time. Does not allocate.
#[derive(Debug)]
pub struct LastOfType<'a> {
    source: &'a [u8],
    first: u16,
    offsets: [Option<usize>; INDEXED as usize],
}

impl<'a> LastOfType<'a> {
    /// The index of a byte string for `INDEXED` types, `first` and those after it, in one pass.
    #[must_use]
    pub fn new(source: &'a [u8], first: u16) -> LastOfType<'a> {
        let mut offsets = [None; INDEXED as usize];
        let mut count = HeaderCount::new();
        let mut rest = source;
        while let Some(Ok((nla, after))) = next_attribute(rest, &mut count) {
            if let Some(entry) = entry_of(first, nla.kind()) {
                offsets[entry] = Some(source.len() - rest.len());
            }
            rest = after;
        }
        LastOfType {
            source,
            first,
            offsets,
        }
    }

    /// The offset of the last attribute of a type, or `None` where there is none, or where the type
    /// has no entry.
    #[must_use]
    pub fn offset(&self, kind: u16) -> Option<usize> {
        let entry = entry_of(self.first, kind)?;
        self.offsets[entry]
    }

    /// The last attribute of a type, or `None` where there is none, or where the type has no entry.
    #[must_use]
    pub fn find(&self, kind: u16) -> Option<PlacedNla<'a>> {
        let offset = self.offset(kind)?;
        Some(placed_at(self.source, offset))
    }
}

/// The entry of a type in an index whose first type this is, or `None` where it has none.
fn entry_of(first: u16, kind: u16) -> Option<usize> {
    if kind >= first && kind - first < INDEXED {
        Some((kind - first) as usize)
    } else {
        None
    }
}

/// The least number above all types of the attributes of a byte string, without their flags, up to
/// a damaged header: 0 where there is no attribute, and at most 16,384.
#[must_use]
pub fn types_end(source: &[u8]) -> u16 {
    let mut end = 0;
    let mut count = HeaderCount::new();
    let mut rest = source;
    while let Some(Ok((nla, after))) = next_attribute(rest, &mut count) {
        let kind = nla.kind();
        if kind >= end {
            end = kind + 1;
        }
        rest = after;
    }
    end
}

/// The attribute at an offset. Requires that one is there.
fn placed_at<'a>(source: &'a [u8], offset: usize) -> PlacedNla<'a> {
    PlacedNla {
        offset,
        nla: NlaBuffer::new_checked(&source[offset..]).unwrap(),
    }
}

/// The bytes of an attribute in its byte string: header and payload, without padding. Requires that
/// the attribute is at its offset there.
///
/// # Panics
///
/// May panic where a condition of the caller that is named here does not hold. Where it does
/// not panic then, the result has no meaning.
#[must_use]
pub fn own_bytes<'a>(source: &'a [u8], placed: &PlacedNla<'_>) -> &'a [u8] {
    let end = placed.offset + placed.nla.length() as usize;
    &source[placed.offset..end]
}

impl ExactEq for PlacedNla<'_> {}
