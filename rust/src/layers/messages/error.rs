// @generated from crates/linkinfo_messages/src/error.rt by rust/translate/run.

//! Why the bytes of a netlink socket are rejected.

use core::error::Error;
use core::fmt;

/// What is wrong with a message. The lengths are those of its length field (`nlmsg_len`).
#[derive(Clone, Copy, Debug, PartialEq, Eq, Hash, PartialOrd, Ord)]
pub enum MessageCause {
    /// Fewer than 16 bytes are left, the length of a message header (`struct nlmsghdr`).
    Header,
    /// The length, which is given, is below 16.
    Short(u32),
    /// The length, which is given, exceeds the bytes that are left.
    Long(u32),
    /// The length, which is given, has no room for the header of link messages, 16 bytes after the
    /// message header (`struct ifinfomsg`).
    LinkHeader(u32),
    /// No attribute header (`struct nlattr`) is accepted at the offset that is given: fewer than
    /// four bytes are left, or its length is below four or exceeds the bytes that are left.
    Attribute(usize),
}

/// Why a message is rejected. The offsets are in bytes from the beginning of the bytes that are
/// iterated over.
#[derive(Clone, Copy, Debug, PartialEq, Eq, Hash, PartialOrd, Ord)]
pub struct MessageError {
    /// The offset of the message's header.
    pub place: usize,
    /// What is wrong with it.
    pub cause: MessageCause,
}

/// Writes a sentence: `message at offset 48: its length 12 is less than that of its header`.
impl fmt::Display for MessageError {
    fn fmt(&self, f: &mut fmt::Formatter<'_>) -> fmt::Result {
        let place = self.place;
        let cause = self.cause;
        write!(f, "message at offset {place}: {cause}")
    }
}

/// Writes what is wrong, as the sentence of [`MessageError`] has it.
///
/// [`MessageError`]: crate::layers::messages::MessageError
impl fmt::Display for MessageCause {
    fn fmt(&self, f: &mut fmt::Formatter<'_>) -> fmt::Result {
        match *self {
            MessageCause::Header => f.write_str("its header is cut short"),
            MessageCause::Short(length) => {
                write!(f, "its length {length} is less than that of its header")
            }
            MessageCause::Long(length) => {
                write!(f, "its length {length} exceeds the bytes that are left")
            }
            MessageCause::LinkHeader(length) => {
                write!(f, "its length {length} has no room for ifinfomsg")
            }
            MessageCause::Attribute(place) => {
                write!(f, "invalid attribute header, at offset {place}")
            }
        }
    }
}

impl Error for MessageError {}
