// @generated from crates/linkinfo_messages/src/links.rt by rust/translate/run.

//! An iterator over the link messages of a byte string.

use crate::layers::messages::error::MessageError;
use crate::layers::messages::link::{LinkMessage, link_of};
use crate::layers::messages::message::message_at;
use crate::layers::nla_frame::HeaderCount;

/// Iterates over the link messages of a byte string, in order: those of type `RTM_NEWLINK` and
/// `RTM_DELLINK`. Messages of other types are skipped.
///
/// The byte string is what `recv` returns from a netlink socket, or several of them concatenated.
/// Each message advances the offset by its length, rounded up to a multiple of four
/// (`NLMSG_ALIGN`), so the padding of the last message may be absent or cut short. The iterator
/// yields one error at most, and ends after it.
///
/// Each header of a message, and each header of an attribute of a link message, is looked at once;
/// [`examined`] counts them. Of payloads only `ifinfomsg` and the last byte of a name are looked
/// at.
///
/// [`examined`]: crate::layers::messages::LinkMessages::examined
#[derive(Debug)]
pub struct LinkMessages<'a> {
    bytes: &'a [u8],
    place: usize,
    examined: HeaderCount,
    failed: bool,
}

impl<'a> LinkMessages<'a> {
    /// An iterator that starts at offset 0 of the bytes. It yields at most one item per sixteen
    /// bytes, and one more.
    #[must_use]
    pub fn new(bytes: &'a [u8]) -> LinkMessages<'a> {
        LinkMessages {
            bytes,
            place: 0,
            examined: HeaderCount::new(),
            failed: false,
        }
    }

    /// An iterator that starts at this offset of the bytes, as [`new`] does at 0. It yields nothing
    /// if the offset is the number of bytes or exceeds it. It yields at most one item per sixteen
    /// bytes, and one more.
    ///
    /// A caller that keeps [`place`] of an iterator continues there later. If the offset is not
    /// that of a message, the bytes there are read as one all the same.
    ///
    /// [`new`]: crate::layers::messages::LinkMessages::new
    /// [`place`]: crate::layers::messages::LinkMessages::place
    #[must_use]
    pub fn starting_at(bytes: &'a [u8], place: usize) -> LinkMessages<'a> {
        LinkMessages {
            bytes,
            place: place.min(bytes.len()),
            examined: HeaderCount::new(),
            failed: false,
        }
    }

    /// The number of headers examined so far: those of messages of which all 16 bytes are there,
    /// and those of attributes of link messages of which all four bytes are there. It is at most a
    /// quarter of the number of bytes.
    #[must_use]
    pub fn examined(&self) -> usize {
        self.examined.get()
    }

    /// The offset of the next message's header: after the last message, the number of bytes; after
    /// an error, the offset of the rejected message.
    #[must_use]
    pub fn place(&self) -> usize {
        self.place
    }
}

/// The first link message from an offset on, and the offset after it. The number of headers that
/// are examined for it is added to `examined`.
fn next_link<'a>(
    bytes: &'a [u8],
    start: usize,
    examined: &mut HeaderCount,
) -> Result<Option<(LinkMessage<'a>, usize)>, MessageError> {
    let mut place = start;
    while place < bytes.len() {
        let (message, len) = message_at(place, &bytes[place..], examined)?;
        place += len;
        if let Some(link) = link_of(&message, examined)? {
            return Ok(Some((link, place)));
        }
    }
    Ok(None)
}

impl<'a> Iterator for LinkMessages<'a> {
    type Item = Result<LinkMessage<'a>, MessageError>;

    fn next(&mut self) -> Option<Result<LinkMessage<'a>, MessageError>> {
        if self.failed {
            return None;
        }
        match next_link(self.bytes, self.place, &mut self.examined) {
            Ok(None) => {
                self.place = self.bytes.len();
                None
            }
            Ok(Some((link, place))) => {
                self.place = place;
                Some(Ok(link))
            }
            Err(error) => {
                self.place = error.place;
                self.failed = true;
                Some(Err(error))
            }
        }
    }
}
