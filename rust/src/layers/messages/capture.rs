// @generated from crates/linkinfo_messages/src/capture.rt by rust/translate/run.

//! Capture files of nlmon devices, in the format of pcap.

use crate::layers::messages::capture_error::{CaptureCause, CaptureError};
use crate::layers::messages::integers::{be_u16, le_u32, u32_in};
use crate::layers::nla_frame::HeaderCount;

/// The length of the header of a capture file in bytes: a magic number, a version, two unused
/// fields, a limit of captured lengths, and the link type.
const FILE_HEADER_LEN: usize = 24;

/// The length of a record's header in bytes: seconds, a fraction of a second, the captured length
/// and the original length.
const RECORD_HEADER_LEN: usize = 16;

/// The length of the header that an nlmon device gives to a packet: two bytes of packet type, two
/// of device type, ten without meaning, and two of netlink family, all big-endian.
const PACKET_HEADER_LEN: usize = 16;

/// The link type of netlink packets (`LINKTYPE_NETLINK`).
const LINKTYPE_NETLINK: u16 = 253;

/// The device type of netlink (`ARPHRD_NETLINK`, include/uapi/linux/if_arp.h).
const ARPHRD_NETLINK: u16 = 824;

/// How a capture file writes numbers and times.
#[derive(Clone, Copy, Debug, PartialEq, Eq, Hash, PartialOrd, Ord)]
pub struct CaptureFormat {
    /// Numbers are big-endian, and little-endian otherwise.
    pub big_endian: bool,
    /// Fractions of a second are in nanoseconds, and in microseconds otherwise.
    pub nanoseconds: bool,
}

impl CaptureFormat {
    /// Reads the header of a capture file, its first 24 bytes. Its version and its limit are not
    /// looked at, and of the link type only the low 16 bits.
    ///
    /// Returns the error `FileHeader` if there are fewer bytes, `Magic` if the file is not in the
    /// format of pcap, and `LinkType` if its packets are not of netlink.
    pub fn new(bytes: &[u8]) -> Result<CaptureFormat, CaptureError> {
        if bytes.len() < FILE_HEADER_LEN {
            return Err(CaptureError {
                place: 0,
                cause: CaptureCause::FileHeader,
            });
        }
        let (big_endian, nanoseconds) = match le_u32(bytes, 0) {
            0xa1b2_c3d4 => (false, false),
            0xa1b2_3c4d => (false, true),
            0xd4c3_b2a1 => (true, false),
            0x4d3c_b2a1 => (true, true),
            magic => {
                return Err(CaptureError {
                    place: 0,
                    cause: CaptureCause::Magic(magic),
                });
            }
        };
        let link_type = crate::compat::narrow_u16(u32_in(big_endian, bytes, 20) % 0x1_0000);
        if link_type != LINKTYPE_NETLINK {
            return Err(CaptureError {
                place: 0,
                cause: CaptureCause::LinkType(link_type),
            });
        }
        Ok(CaptureFormat {
            big_endian,
            nanoseconds,
        })
    }

    /// The length of the record at the front of the bytes, header included, or `None` if fewer than
    /// 16 bytes are there, so that its header is incomplete.
    ///
    /// A reader of a stream asks for it after 16 bytes, and then reads the rest of this one record.
    #[must_use]
    pub fn record_len(self, bytes: &[u8]) -> Option<usize> {
        if bytes.len() < RECORD_HEADER_LEN {
            return None;
        }
        Some(RECORD_HEADER_LEN + u32_in(self.big_endian, bytes, 8) as usize)
    }

    /// Iterates over the records in bytes that follow the header of a capture file.
    #[must_use]
    pub fn records<'a>(self, bytes: &'a [u8]) -> Capture<'a> {
        Capture {
            bytes,
            format: self,
            place: 0,
            examined: HeaderCount::new(),
            failed: false,
        }
    }
}

/// A record of a capture file: a packet, and when it was captured.
#[derive(Clone, Copy, Debug, PartialEq, Eq, Hash, PartialOrd, Ord)]
pub struct Record<'a> {
    /// The offset of the record's header, in bytes from the beginning of the bytes iterated over.
    /// The packet follows 16 bytes later.
    pub place: usize,
    /// Seconds since 1970-01-01 00:00 UTC.
    pub seconds: u32,
    /// Nanoseconds after these seconds, below 1,000,000,000 in a well-formed file.
    pub nanoseconds: u64,
    /// The length of the packet before it was captured.
    pub original: u32,
    /// The captured bytes of the packet: a header of 16 bytes, then netlink messages.
    pub packet: &'a [u8],
}

impl<'a> Record<'a> {
    /// The netlink messages of the packet, if they are of the family `NETLINK_ROUTE`, as link
    /// messages are; `None` if they are of another family. They begin 32 bytes after the record's
    /// offset.
    ///
    /// Returns the error `Truncated` if fewer bytes were captured than the packet had,
    /// `PacketHeader` if it has fewer than 16 bytes, and `Device` if it is not of netlink. The
    /// records after it can be read all the same.
    pub fn messages(&self) -> Result<Option<&'a [u8]>, CaptureError> {
        let place = self.place;
        let captured = self.packet.len();
        if captured < self.original as usize {
            let cause = CaptureCause::Truncated(captured, self.original);
            return Err(CaptureError { place, cause });
        }
        if captured < PACKET_HEADER_LEN {
            return Err(CaptureError {
                place,
                cause: CaptureCause::PacketHeader(captured),
            });
        }
        let device = be_u16(self.packet, 2);
        if device != ARPHRD_NETLINK {
            return Err(CaptureError {
                place,
                cause: CaptureCause::Device(device),
            });
        }
        match be_u16(self.packet, 14) {
            0 => Ok(Some(&self.packet[PACKET_HEADER_LEN..])),
            _ => Ok(None),
        }
    }
}

/// Iterates over the records of a capture file, in order. It yields one error at most, and ends
/// after it. Each header of a record is looked at once, and no packet. [`examined`] counts these
/// headers.
///
/// [`examined`]: crate::layers::messages::Capture::examined
#[derive(Debug)]
pub struct Capture<'a> {
    bytes: &'a [u8],
    format: CaptureFormat,
    place: usize,
    examined: HeaderCount,
    failed: bool,
}

impl<'a> Capture<'a> {
    /// Reads the header of a capture file, and iterates over the records after it. The errors are
    /// those of [`CaptureFormat::new`].
    ///
    /// [`CaptureFormat::new`]: crate::layers::messages::CaptureFormat::new
    pub fn new(bytes: &'a [u8]) -> Result<Capture<'a>, CaptureError> {
        let format = CaptureFormat::new(bytes)?;
        Ok(Capture {
            bytes,
            format,
            place: FILE_HEADER_LEN,
            examined: HeaderCount::new(),
            failed: false,
        })
    }

    /// The number of headers of records examined so far, those of which all 16 bytes are there. It
    /// is at most a sixteenth of the number of bytes.
    #[must_use]
    pub fn examined(&self) -> usize {
        self.examined.get()
    }

    /// The offset of the next record's header: after the last record, the number of bytes; after an
    /// error, the offset of the rejected record.
    #[must_use]
    pub fn place(&self) -> usize {
        self.place
    }
}

/// Reads the record at the front of the bytes, which begin at offset `place`. Returns it with its
/// length, header included. The header is counted as examined if its 16 bytes are there.
fn record_at<'a>(
    format: CaptureFormat,
    place: usize,
    bytes: &'a [u8],
    examined: &mut HeaderCount,
) -> Result<(Record<'a>, usize), CaptureError> {
    if bytes.len() < RECORD_HEADER_LEN {
        return Err(CaptureError {
            place,
            cause: CaptureCause::RecordHeader,
        });
    }
    examined.add(1);
    let captured = u32_in(format.big_endian, bytes, 8);
    let end = RECORD_HEADER_LEN + captured as usize;
    if bytes.len() < end {
        return Err(CaptureError {
            place,
            cause: CaptureCause::Cut(captured),
        });
    }
    let fraction = u32_in(format.big_endian, bytes, 4) as u64;
    let record = Record {
        place,
        seconds: u32_in(format.big_endian, bytes, 0),
        nanoseconds: if format.nanoseconds {
            fraction
        } else {
            1000 * fraction
        },
        original: u32_in(format.big_endian, bytes, 12),
        packet: &bytes[RECORD_HEADER_LEN..end],
    };
    Ok((record, end))
}

impl<'a> Iterator for Capture<'a> {
    type Item = Result<Record<'a>, CaptureError>;

    fn next(&mut self) -> Option<Result<Record<'a>, CaptureError>> {
        if self.failed || self.place == self.bytes.len() {
            return None;
        }
        let unread = &self.bytes[self.place..];
        match record_at(self.format, self.place, unread, &mut self.examined) {
            Ok((record, len)) => {
                self.place += len;
                Some(Ok(record))
            }
            Err(error) => {
                self.failed = true;
                Some(Err(error))
            }
        }
    }
}
