// @generated from crates/linkinfo_messages/src/message.rt by rust/translate/run.

//! One netlink message in borrowed bytes.

use crate::compat::NextMultiple;
use crate::layers::messages::error::{MessageCause, MessageError};
use crate::layers::messages::integers::{le_u16, le_u32};
use crate::layers::nla_frame::HeaderCount;

/// The length of a message header in bytes: a 32-bit length, a 16-bit type, 16 bits of flags, a
/// 32-bit sequence number and a 32-bit port (`struct nlmsghdr`, include/uapi/linux/netlink.h).
pub(crate) const HEADER_LEN: usize = 16;

/// A message with an accepted header, borrowed from the bytes that hold it.
#[derive(Debug)]
pub(crate) struct Message<'a> {
    place: usize,
    kind: u16,
    payload: &'a [u8],
}

/// Reads the message at the front of the bytes, which begin at offset `place`. Returns it with its
/// length, padding included. Its header is counted as examined if its 16 bytes are there.
#[inline(always)]
pub(crate) fn message_at<'a>(
    place: usize,
    bytes: &'a [u8],
    examined: &mut HeaderCount,
) -> Result<(Message<'a>, usize), MessageError> {
    if bytes.len() < HEADER_LEN {
        return Err(MessageError {
            place,
            cause: MessageCause::Header,
        });
    }
    examined.add(1);
    let length = le_u32(bytes, 0);
    if length < 16 {
        return Err(MessageError {
            place,
            cause: MessageCause::Short(length),
        });
    }
    let end = length as usize;
    if bytes.len() < end {
        return Err(MessageError {
            place,
            cause: MessageCause::Long(length),
        });
    }
    let kind = le_u16(bytes, 4);
    let message = Message {
        place,
        kind,
        payload: &bytes[HEADER_LEN..end],
    };
    Ok((message, end.next_multiple_of_four().min(bytes.len())))
}

/// The length of the message at the front of the bytes with its padding, or `None` if fewer than 16
/// bytes are there, so that its header is incomplete.
///
/// A reader of a stream asks for it after 16 bytes, and then reads the rest of this one message.
/// The last message of a stream may lack its padding. A length field below 16 is the error `Short`.
pub fn message_len(bytes: &[u8]) -> Result<Option<usize>, MessageError> {
    if bytes.len() < HEADER_LEN {
        return Ok(None);
    }
    let length = le_u32(bytes, 0);
    if length < 16 {
        return Err(MessageError {
            place: 0,
            cause: MessageCause::Short(length),
        });
    }
    Ok(Some((length as usize).next_multiple_of_four()))
}

impl<'a> Message<'a> {
    /// The offset of the header.
    #[inline(always)]
    pub(crate) fn place(&self) -> usize {
        self.place
    }

    /// The length of header and payload (`nlmsg_len`).
    pub(crate) fn len(&self) -> u32 {
        crate::compat::narrow_u32(HEADER_LEN + self.payload.len())
    }

    /// The type (`nlmsg_type`).
    #[inline(always)]
    pub(crate) fn kind(&self) -> u16 {
        self.kind
    }

    /// The payload, borrowed from the source.
    #[inline(always)]
    pub(crate) fn payload(&self) -> &'a [u8] {
        self.payload
    }
}
