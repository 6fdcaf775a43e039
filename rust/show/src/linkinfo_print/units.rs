// @generated from crates/linkinfo_print/src/units.rt by rust/translate/run.

//! An input, cut into lines, messages or packets as it comes.

use crate::linkinfo_print::options::Input;
use linkinfo::layers::messages::{CaptureError, CaptureFormat, MessageError, message_len};

/// The maximum length of a line, a message or a record of a capture, in bytes.
pub const MOST_BYTES: usize = 1_048_576;

/// The length of the header of a capture file.
const FILE_HEADER_LEN: usize = 24;

/// One line, message or packet of an input.
#[derive(Clone, Copy)]
pub(crate) struct Unit<'a> {
    /// Its number, from 1 on.
    pub(crate) number: u64,
    /// Its offset in the input.
    pub(crate) place: usize,
    /// What it holds.
    pub(crate) part: Part<'a>,
}

/// What a line, message or packet holds.
#[derive(Clone, Copy)]
pub(crate) enum Part<'a> {
    /// A line without its line feed.
    Line(&'a [u8]),
    /// A message, or what an input has left that ends within one.
    Message(&'a [u8]),
    /// A message with an invalid length.
    BadMessage(MessageError),
    /// A record of a capture, or what an input has left that ends within one.
    Record(CaptureFormat, &'a [u8]),
    /// The header of a capture file that is rejected.
    BadFile(CaptureError),
    /// A line, message or record of more than `MOST_BYTES` bytes.
    TooLong,
}

/// What is cut off at the front of an input.
#[derive(Clone, Copy)]
pub(crate) struct Cut<'a> {
    /// The line, message or packet, if there is one.
    pub(crate) unit: Option<Unit<'a>>,
    /// How many bytes are taken: none, if nothing is whole.
    pub(crate) taken: usize,
}

/// Cuts an input into lines, messages or packets. It knows what comes next.
#[derive(Clone, Copy)]
pub(crate) struct Cutter {
    input: Input,
    /// The number of the next line, message or packet.
    number: u64,
    /// Its offset in the input.
    place: usize,
    /// Whether the rest of a line is skipped, since it is too long.
    skips: bool,
    /// The format of a capture, once its header has been read.
    format: Option<CaptureFormat>,
    /// Whether nothing more is cut off.
    ended: bool,
}

/// How an input is cut that has no lines.
#[derive(Clone, Copy)]
enum Framing {
    /// Into netlink messages.
    Messages,
    /// Into the records of a capture.
    Records(CaptureFormat),
}

impl<'a> Cut<'a> {
    /// Nothing is whole.
    fn nothing() -> Cut<'a> {
        Cut {
            unit: None,
            taken: 0,
        }
    }
}

impl Framing {
    /// The length of the message or record at the front of the bytes, if its header is there.
    fn len(self, bytes: &[u8]) -> Result<Option<usize>, MessageError> {
        match self {
            Framing::Messages => message_len(bytes),
            Framing::Records(format) => Ok(format.record_len(bytes)),
        }
    }

    /// A message or a record that has these bytes.
    fn part<'a>(self, bytes: &'a [u8]) -> Part<'a> {
        match self {
            Framing::Messages => Part::Message(bytes),
            Framing::Records(format) => Part::Record(format, bytes),
        }
    }
}

impl Cutter {
    /// Starts an input.
    pub(crate) fn new(input: Input) -> Cutter {
        Cutter {
            input,
            number: 1,
            place: 0,
            skips: false,
            format: None,
            ended: false,
        }
    }

    /// Whether nothing more is cut off.
    pub(crate) fn has_ended(&self) -> bool {
        self.ended
    }

    /// Ends the input, if it is to end.
    pub(crate) fn end_if(&mut self, ends: bool) {
        if ends {
            self.ended = true;
        }
    }

    /// Cuts off what is at the front of the bytes, if it is whole. At the end of the input, what is
    /// left is taken as it is.
    pub(crate) fn cut<'a>(&mut self, bytes: &'a [u8], is_end: bool) -> Cut<'a> {
        if self.ended {
            return Cut::nothing();
        }
        match (self.input, self.format) {
            (Input::Messages, _) => self.cut_frame(Framing::Messages, bytes, is_end),
            (Input::Capture, None) => self.cut_file_header(bytes, is_end),
            (Input::Capture, Some(format)) => {
                self.cut_frame(Framing::Records(format), bytes, is_end)
            }
            _ => self.cut_line(bytes, is_end),
        }
    }

    /// Cuts off a unit of this length.
    fn take<'a>(&mut self, part: Part<'a>, len: usize) -> Cut<'a> {
        let unit = Unit {
            number: self.number,
            place: self.place,
            part,
        };
        self.number = self.number.saturating_add(1);
        self.place = self.place.saturating_add(len);
        Cut {
            unit: Some(unit),
            taken: len,
        }
    }

    /// Cuts off a last unit, which takes all of the bytes.
    fn take_last<'a>(&mut self, part: Part<'a>, bytes: &'a [u8]) -> Cut<'a> {
        self.ended = true;
        self.take(part, bytes.len())
    }

    fn cut_line<'a>(&mut self, bytes: &'a [u8], is_end: bool) -> Cut<'a> {
        match memchr::memchr(b'\n', bytes) {
            Some(end) => self.end_line(&bytes[..end], end + 1),
            None => self.cut_open_line(bytes, is_end),
        }
    }

    /// Cuts off a line without a line feed, if it is the last one or too long.
    fn cut_open_line<'a>(&mut self, bytes: &'a [u8], is_end: bool) -> Cut<'a> {
        if bytes.is_empty() {
            return Cut::nothing();
        }
        if is_end {
            return self.end_line(bytes, bytes.len());
        }
        if bytes.len() > MOST_BYTES {
            return self.begin_long_line(bytes.len());
        }
        Cut::nothing()
    }

    /// Cuts off a line, which ends here.
    fn end_line<'a>(&mut self, line: &'a [u8], len: usize) -> Cut<'a> {
        let part = if line.len() > MOST_BYTES {
            Part::TooLong
        } else {
            Part::Line(line)
        };
        let cut = self.take(part, len);
        if self.skips {
            self.skips = false;
            return Cut {
                unit: None,
                taken: len,
            };
        }
        cut
    }

    /// Cuts off the beginning of a line that is too long. Its rest is skipped.
    fn begin_long_line<'a>(&mut self, len: usize) -> Cut<'a> {
        let unit = Unit {
            number: self.number,
            place: self.place,
            part: Part::TooLong,
        };
        let unit = if self.skips { None } else { Some(unit) };
        self.place = self.place.saturating_add(len);
        self.skips = true;
        Cut { unit, taken: len }
    }

    /// Cuts off a message or a record.
    fn cut_frame<'a>(&mut self, framing: Framing, bytes: &'a [u8], is_end: bool) -> Cut<'a> {
        match framing.len(bytes) {
            Err(error) => self.take_last(Part::BadMessage(error), bytes),
            Ok(Some(len)) => self.cut_frame_of(framing, len, bytes, is_end),
            Ok(None) => self.cut_part(framing, bytes, is_end),
        }
    }

    /// Cuts off a message or a record of this length.
    fn cut_frame_of<'a>(
        &mut self,
        framing: Framing,
        len: usize,
        bytes: &'a [u8],
        is_end: bool,
    ) -> Cut<'a> {
        if len > MOST_BYTES {
            return self.take_last(Part::TooLong, bytes);
        }
        if len > bytes.len() {
            return self.cut_part(framing, bytes, is_end);
        }
        self.take(framing.part(&bytes[..len]), len)
    }

    /// Cuts off a message or a record that is not whole, if the input ends here.
    fn cut_part<'a>(&mut self, framing: Framing, bytes: &'a [u8], is_end: bool) -> Cut<'a> {
        if bytes.is_empty() {
            return Cut::nothing();
        }
        if is_end {
            return self.take_last(framing.part(bytes), bytes);
        }
        Cut::nothing()
    }

    /// Reads the header of a capture file, which is required even of an empty input.
    fn cut_file_header<'a>(&mut self, bytes: &'a [u8], is_end: bool) -> Cut<'a> {
        if bytes.len() < FILE_HEADER_LEN && !is_end {
            return Cut::nothing();
        }
        match CaptureFormat::new(bytes) {
            Ok(format) => {
                self.format = Some(format);
                self.place = FILE_HEADER_LEN;
                Cut {
                    unit: None,
                    taken: FILE_HEADER_LEN,
                }
            }
            Err(error) => self.take_last(Part::BadFile(error), bytes),
        }
    }
}
