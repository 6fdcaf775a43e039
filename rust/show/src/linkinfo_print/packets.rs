// @generated from crates/linkinfo_print/src/packets.rt by rust/translate/run.

//! What is printed for a message or a packet.

use crate::compat::AllocError;
use crate::compat::serde_json::Value;
use crate::linkinfo_print::list::{ListError, list_json};
use crate::linkinfo_print::message::{message_json, time_text};
use crate::linkinfo_print::print::Printer;
use crate::linkinfo_print::report::Printed;
use linkinfo::layers::messages::{
    CaptureError, CaptureFormat, LinkContents, LinkMessage, LinkMessages, MessageCause,
    MessageError, Record,
};
use std::fmt;

/// Where the netlink messages of a record begin: after the header of the record and that of the
/// packet.
const MESSAGES_OFFSET: usize = 32;

/// Which list it is that has an error: that of a link in a message.
#[derive(Clone, Copy)]
struct ListOfLink<'a> {
    link: &'a LinkMessage<'a>,
    /// The offset of the list in the input.
    place: usize,
}

/// Writes the beginning of a sentence: `interface 5: IFLA_LINKINFO at offset 48: `.
impl<'a> fmt::Display for ListOfLink<'a> {
    fn fmt(&self, f: &mut fmt::Formatter<'_>) -> fmt::Result {
        let index = self.link.index;
        let place = self.place;
        write!(f, "interface {index}: IFLA_LINKINFO at offset {place}: ")
    }
}

impl Printer {
    /// Prints the records in these bytes, which begin at an offset of the input.
    pub(crate) fn print_records(
        &mut self,
        number: u64,
        place: usize,
        format: CaptureFormat,
        bytes: &[u8],
    ) -> Result<(), AllocError> {
        let mut records = format.records(bytes);
        while let Some(record) = records.next() {
            match record {
                Ok(record) => self.print_record(number, place, &record)?,
                Err(error) => self.refuse_record(number, place, error)?,
            }
        }
        Ok(())
    }

    /// Prints the link messages in a record of bytes that begin at an offset of the input.
    fn print_record(
        &mut self,
        number: u64,
        place: usize,
        packet: &Record<'_>,
    ) -> Result<(), AllocError> {
        match packet.messages() {
            Ok(Some(bytes)) => {
                let place = place
                    .saturating_add(packet.place)
                    .saturating_add(MESSAGES_OFFSET);
                let time = Some((packet.seconds, packet.nanoseconds));
                self.print_messages(number, bytes, place, time)
            }
            Ok(None) => Ok(()),
            Err(error) => self.refuse_record(number, place, error),
        }
    }

    /// Notes the error of a record in bytes that begin at an offset of the input.
    fn refuse_record(
        &mut self,
        number: u64,
        place: usize,
        error: CaptureError,
    ) -> Result<(), AllocError> {
        let error = CaptureError {
            place: place.saturating_add(error.place),
            cause: error.cause,
        };
        self.refuse(number, error)
    }

    /// Prints the link messages in these bytes, which begin at an offset of the input.
    pub(crate) fn print_messages(
        &mut self,
        number: u64,
        bytes: &[u8],
        place: usize,
        time: Option<(u32, u64)>,
    ) -> Result<(), AllocError> {
        let mut links = LinkMessages::new(bytes);
        while let Some(link) = links.next() {
            match link {
                Ok(link) => self.print_link(number, &link, place, time)?,
                Err(error) => self.refuse_message(number, error, place)?,
            }
        }
        Ok(())
    }

    /// Notes the error of a message in bytes that begin at an offset of the input.
    pub(crate) fn refuse_message(
        &mut self,
        number: u64,
        error: MessageError,
        place: usize,
    ) -> Result<(), AllocError> {
        let cause = match error.cause {
            MessageCause::Attribute(at) => MessageCause::Attribute(place.saturating_add(at)),
            cause => cause,
        };
        let error = MessageError {
            place: place.saturating_add(error.place),
            cause,
        };
        self.refuse_as(number, true, error)
    }

    /// Prints a link of messages that begin at an offset of the input.
    fn print_link(
        &mut self,
        number: u64,
        link: &LinkMessage<'_>,
        place: usize,
        time: Option<(u32, u64)>,
    ) -> Result<(), AllocError> {
        match link.info {
            Some(info) => self.print_contents(number, link, info, place, time),
            None => self.print_message(link, None, time),
        }
    }

    /// Prints a link with these contents of its `IFLA_LINKINFO`.
    fn print_contents(
        &mut self,
        number: u64,
        link: &LinkMessage<'_>,
        info: LinkContents<'_>,
        place: usize,
        time: Option<(u32, u64)>,
    ) -> Result<(), AllocError> {
        match list_json(info.bytes) {
            Ok(list) => self.print_message(link, Some(list), time),
            Err(ListError::Memory) => Err(AllocError),
            Err(ListError::Rejected(at)) => {
                let place = place.saturating_add(info.place);
                self.refuse_list(number, ListOfLink { link, place }, at)
            }
        }
    }

    /// Prints the object of a link with this list.
    fn print_message(
        &mut self,
        link: &LinkMessage<'_>,
        list: Option<Value>,
        time: Option<(u32, u64)>,
    ) -> Result<(), AllocError> {
        let time = time_text(time)?;
        let message = message_json(link, list, time)?;
        self.report.print(Printed::Message, &message)
    }
}
