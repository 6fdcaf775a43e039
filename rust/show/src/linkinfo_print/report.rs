// @generated from crates/linkinfo_print/src/report.rt by rust/translate/run.

//! What is printed, until it is written.

use crate::compat::AllocError;
use crate::compat::calls::*;
use crate::compat::serde_json::Value;
use crate::linkinfo_print::plain::PlainText;
use crate::linkinfo_print::text::{push_list, push_message, push_pair};
use std::fmt::Display;
use std::io::Write;

/// What a value is printed as.
#[derive(Clone, Copy, Debug, PartialEq, Eq)]
pub enum Printed {
    /// A list.
    List,
    /// The answer to a question about two lists.
    Pair,
    /// A message.
    Message,
}

/// What has been printed: values for standard output, errors for standard error.
pub struct Report {
    /// Whether values are printed as JSON instead of text.
    json: bool,
    /// Whether there has been no error.
    accepted: bool,
    output: PlainText,
    errors: PlainText,
}

/// Appends a value as text.
fn push_text(text: &mut Vec<u8>, what: Printed, value: &Value) -> Result<(), AllocError> {
    match what {
        Printed::List => push_list(text, value),
        Printed::Pair => push_pair(text, value),
        Printed::Message => push_message(text, value),
    }
}

/// Appends what is printed of a value without floats: its JSON on a line, or its text.
fn push_answer(
    text: &mut Vec<u8>,
    json: bool,
    what: Printed,
    value: &Value,
) -> Result<(), AllocError> {
    if !json {
        return push_text(text, what, value);
    }
    let line = value.try_to_text()?;
    text.try_extend_from_slice(line.as_bytes())?;
    text.try_extend_from_slice(b"\n")
}

impl Report {
    /// Returns a report without values and errors.
    pub fn new(json: bool) -> Report {
        Report {
            json,
            accepted: true,
            output: PlainText::new(),
            errors: PlainText::new(),
        }
    }

    /// The values that have been printed.
    pub fn output(&self) -> &[u8] {
        self.output.as_bytes()
    }

    /// The errors.
    pub fn errors(&self) -> &[u8] {
        self.errors.as_bytes()
    }

    /// Whether there has been no error, in what was cleared too.
    pub fn accepts_all(&self) -> bool {
        self.accepted
    }

    /// Forgets what has been printed.
    pub fn clear(&mut self) {
        self.output.clear();
        self.errors.clear();
    }

    /// Prints a value without floats: its JSON on a line, or its text.
    ///
    /// # Panics
    ///
    /// May panic where a condition of the caller that is named here does not hold. Where it does
    /// not panic then, the result has no meaning.
    pub fn print(&mut self, what: Printed, value: &Value) -> Result<(), AllocError> {
        let mut text = Vec::new();
        push_answer(&mut text, self.json, what, value)?;
        self.output.push(&text)
    }

    /// Notes an error. Nothing is printed of what has it.
    pub fn refuse<E: Display>(&mut self, error: E) -> Result<(), AllocError> {
        self.accepted = false;
        let mut text = Vec::new();
        writeln!(text, "{error}").map_err(|_| AllocError)?;
        self.errors.push(&text)
    }
}
