// @generated from crates/linkinfo_messages/src/capture_error.rt by rust/translate/run.

//! Why a capture file is rejected.

use core::error::Error;
use core::fmt;

/// What is wrong with a capture file, or with one of its records.
#[derive(Clone, Copy, Debug, PartialEq, Eq, Hash, PartialOrd, Ord)]
pub enum CaptureCause {
    /// The file has fewer than 24 bytes, the length of its header.
    FileHeader,
    /// The file begins with this number, read as little-endian, and is no pcap file.
    Magic(u32),
    /// The packets are of this link type, and not of `LINKTYPE_NETLINK` (253).
    LinkType(u16),
    /// Fewer than 16 bytes are left, the length of a record's header.
    RecordHeader,
    /// The captured length, which is given, exceeds the bytes that are left.
    Cut(u32),
    /// Of the packet, fewer bytes were captured than it had: both lengths are given.
    Truncated(usize, u32),
    /// The packet, whose captured length is given, has fewer than 16 bytes, the length of the
    /// header that an nlmon device gives it.
    PacketHeader(usize),
    /// The packet is of a device of this type, and not of `ARPHRD_NETLINK` (824).
    Device(u16),
}

/// Why a capture file, or one of its records, is rejected.
#[derive(Clone, Copy, Debug, PartialEq, Eq, Hash, PartialOrd, Ord)]
pub struct CaptureError {
    /// The offset of the record's header in bytes, or 0 for the file.
    pub place: usize,
    /// What is wrong.
    pub cause: CaptureCause,
}

/// Writes a sentence: `record at offset 24: its header is cut short`.
impl fmt::Display for CaptureError {
    fn fmt(&self, f: &mut fmt::Formatter<'_>) -> fmt::Result {
        let place = self.place;
        let cause = self.cause;
        match cause {
            CaptureCause::FileHeader | CaptureCause::Magic(_) | CaptureCause::LinkType(_) => {
                write!(f, "capture file: {cause}")
            }
            _ => write!(f, "record at offset {place}: {cause}"),
        }
    }
}

/// Writes what is wrong, as the sentence of [`CaptureError`] has it.
///
/// [`CaptureError`]: crate::layers::messages::CaptureError
impl fmt::Display for CaptureCause {
    fn fmt(&self, f: &mut fmt::Formatter<'_>) -> fmt::Result {
        match *self {
            CaptureCause::FileHeader | CaptureCause::RecordHeader => {
                f.write_str("its header is cut short")
            }
            CaptureCause::Magic(number) => {
                write!(f, "0x{number:x} is not the magic number of a pcap file")
            }
            CaptureCause::LinkType(number) => {
                write!(f, "its link type {number} is not LINKTYPE_NETLINK")
            }
            CaptureCause::Cut(captured) => {
                write!(
                    f,
                    "its captured length {captured} exceeds the bytes that are left"
                )
            }
            CaptureCause::Truncated(captured, original) => {
                write!(f, "{captured} of {original} bytes were captured")
            }
            CaptureCause::PacketHeader(captured) => {
                write!(
                    f,
                    "its {captured} bytes are less than the header of a packet"
                )
            }
            CaptureCause::Device(number) => {
                write!(f, "its device type {number} is not ARPHRD_NETLINK")
            }
        }
    }
}

impl Error for CaptureError {}
