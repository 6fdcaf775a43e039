// @generated from crates/nla_frame/src/iterator.rt by rust/translate/run.

//! An iterator over the attributes of a byte string.

use crate::layers::nla_frame::buffer::{NlaBuffer, next_attribute};
use crate::layers::nla_frame::error::DecodeError;
use crate::layers::nla_frame::exact_eq::ExactEq;
use crate::layers::nla_frame::header_count::HeaderCount;

/// Iterates over the attributes of a byte string in order. If a header is not accepted, it yields
/// the error `(Frame, 0, Header)` once, and ends.
///
/// Each attribute advances the offset by its length, rounded up to a multiple of four. So the
/// padding of the last attribute may be absent or cut short, and padding bytes may have any value.
/// One to three stray bytes after an aligned attribute are an error.
#[derive(Debug, Clone)]
pub struct NlasIterator<'a> {
    bytes: &'a [u8],
    place: usize,
    examined: HeaderCount,
    failed: bool,
}

impl<'a> NlasIterator<'a> {
    /// An iterator that starts at offset 0 of the bytes. It yields at most one item per four bytes,
    /// and one more.
    #[must_use]
    #[inline(always)]
    pub fn new(bytes: &'a [u8]) -> NlasIterator<'a> {
        NlasIterator {
            bytes,
            place: 0,
            examined: HeaderCount::new(),
            failed: false,
        }
    }

    /// The number of headers examined so far, those of which all four bytes are there. It is at
    /// most a quarter of the number of bytes.
    #[must_use]
    #[inline(always)]
    pub fn examined(&self) -> usize {
        self.examined.get()
    }

    /// The offset of the next header: after the last attribute, the number of bytes; after an
    /// error, the offset of the rejected header.
    #[must_use]
    #[inline(always)]
    pub fn place(&self) -> usize {
        self.place
    }
}

impl<'a> Iterator for NlasIterator<'a> {
    type Item = Result<NlaBuffer<'a>, DecodeError>;

    #[inline(always)]
    fn next(&mut self) -> Option<Result<NlaBuffer<'a>, DecodeError>> {
        if self.failed {
            return None;
        }
        let unread = &self.bytes[self.place..];
        match next_attribute(unread, &mut self.examined)? {
            Ok((nla, rest)) => {
                self.place = self.bytes.len() - rest.len();
                Some(Ok(nla))
            }
            Err(error) => {
                self.failed = true;
                Some(Err(error))
            }
        }
    }
}

impl PartialEq for NlasIterator<'_> {
    fn eq(&self, other: &Self) -> bool {
        self.bytes == other.bytes
            && self.place == other.place
            && self.examined == other.examined
            && self.failed == other.failed
    }
}

impl Eq for NlasIterator<'_> {}

impl ExactEq for NlasIterator<'_> {}
