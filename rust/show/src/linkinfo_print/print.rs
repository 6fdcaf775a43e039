// @generated from crates/linkinfo_print/src/print.rt by rust/translate/run.

//! What is printed for an input.

use crate::compat::AllocError;
use crate::linkinfo_print::options::{Input, Options};
use crate::linkinfo_print::report::Report;
use crate::linkinfo_print::units::{Cutter, Part, Unit};
use linkinfo::layers::link::ErrorAt;
use std::fmt::Display;

/// Prints the lines, messages or packets of an input one after another.
pub struct Printer {
    pub(crate) options: Options,
    pub(crate) report: Report,
    /// What comes next of the input.
    pub(crate) cutter: Cutter,
}

impl Printer {
    /// Starts an input.
    pub fn new(options: Options) -> Printer {
        Printer {
            options,
            report: Report::new(options.json),
            cutter: Cutter::new(options.input),
        }
    }

    /// What has been printed.
    pub fn report(&self) -> &Report {
        &self.report
    }

    /// Forgets what has been printed.
    pub fn clear(&mut self) {
        self.report.clear();
    }

    /// Whether nothing more is printed, since an error ended the input.
    pub fn has_ended(&self) -> bool {
        self.cutter.has_ended()
    }

    /// Prints the whole lines, messages or packets at the front of these bytes, or all of them at
    /// the end of the input. Returns how many bytes that were.
    pub fn push(&mut self, bytes: &[u8], is_end: bool) -> Result<usize, AllocError> {
        let mut rest = bytes;
        loop {
            let taken = self.print_next(rest, is_end)?;
            if taken == 0 {
                return Ok(bytes.len() - rest.len());
            }
            rest = &rest[taken..];
        }
    }

    /// Prints the line, message or packet at the front of these bytes, if it is whole or at the end
    /// of the input. Returns how many bytes are done with, or 0.
    fn print_next(&mut self, bytes: &[u8], is_end: bool) -> Result<usize, AllocError> {
        let cut = self.cutter.cut(bytes, is_end);
        let Some(unit) = cut.unit else {
            return Ok(cut.taken);
        };
        self.print_unit(unit)?;
        Ok(cut.taken)
    }

    /// Prints a line, a message or a packet. An error of a message ends a stream of messages.
    fn print_unit(&mut self, unit: Unit<'_>) -> Result<(), AllocError> {
        match unit.part {
            Part::Line(line) => self.print_line(unit.number, line),
            Part::Message(bytes) => self.print_messages(unit.number, bytes, unit.place, None),
            Part::BadMessage(error) => self.refuse_message(unit.number, error, unit.place),
            Part::Record(format, bytes) => {
                self.print_records(unit.number, unit.place, format, bytes)
            }
            Part::BadFile(error) => self.refuse_whole(false, error),
            Part::TooLong => self.refuse_long(unit.number, unit.place),
        }
    }

    /// Notes a line, a message or a record that is too long.
    fn refuse_long(&mut self, number: u64, place: usize) -> Result<(), AllocError> {
        match self.options.input {
            Input::Lists | Input::Differences | Input::Unmet => {
                self.refuse(number, "it is longer than 1048576 bytes")
            }
            Input::Messages => self.refuse(
                number,
                format_args!("message at offset {place}: it is longer than 1048576 bytes"),
            ),
            Input::Capture => self.refuse(
                number,
                format_args!("record at offset {place}: it is longer than 1048576 bytes"),
            ),
        }
    }

    /// The word for what has a number.
    fn unit_word(&self) -> &'static str {
        match self.options.input {
            Input::Lists | Input::Differences | Input::Unmet => "line",
            Input::Messages => "message",
            Input::Capture => "packet",
        }
    }

    /// Notes an error of the line, message or packet with this number.
    pub(crate) fn refuse<E: Display>(&mut self, number: u64, error: E) -> Result<(), AllocError> {
        self.refuse_as(number, false, error)
    }

    /// Notes an error of the line, message or packet with this number, which may break a stream of
    /// messages.
    pub(crate) fn refuse_as<E: Display>(
        &mut self,
        number: u64,
        breaks: bool,
        error: E,
    ) -> Result<(), AllocError> {
        let unit = self.unit_word();
        self.refuse_whole(breaks, format_args!("{unit} {number}: {error}"))
    }

    /// Notes that a list is rejected with this error, after words about which list it is.
    pub(crate) fn refuse_list<W: Display>(
        &mut self,
        number: u64,
        which: W,
        at: ErrorAt,
    ) -> Result<(), AllocError> {
        let error = at.error;
        self.refuse(number, format_args!("{which}{at} ({error})"))
    }

    /// Notes an error. One that breaks a stream of messages ends it.
    fn refuse_whole<E: Display>(&mut self, breaks: bool, error: E) -> Result<(), AllocError> {
        self.cutter.end_if(self.options.input.ends_at_error(breaks));
        self.report.refuse(error)
    }
}
