// @generated from crates/linkinfo_names/src/explanation.rt by rust/translate/run.

//! What an error says of an attribute, for people.

use crate::layers::names::names::attribute_name;
use crate::layers::nla_frame::{Cause, DecodeError, Family};
use core::fmt;

/// An error, and the offset of the attribute that has it, as a sentence for people.
///
/// The offset is in bytes from the beginning of the list, as [`check_at`] returns it.
///
/// [`check_at`]: crate::layers::link::check_at
#[derive(Clone, Copy, Debug)]
pub struct Explanation {
    /// What is wrong.
    pub error: DecodeError,
    /// The offset of the attribute's header, in bytes.
    pub offset: usize,
}

/// Writes the sentence, with the kernel's name of the attribute: `IFLA_INFO_DATA before
/// IFLA_INFO_KIND, at offset 0`.
///
/// A type without a name is written as its number and its family: `type 9 of wwan`. Out of memory,
/// and a text that names no value, have no offset.
impl fmt::Display for Explanation {
    fn fmt(&self, f: &mut fmt::Formatter<'_>) -> fmt::Result {
        let error = self.error;
        let family = error.family;
        let offset = self.offset;
        match error.cause {
            Cause::Memory => f.write_str("out of memory"),
            Cause::Word => write!(f, "no value of {family} has this name"),
            Cause::Header => write!(f, "invalid attribute header, at offset {offset}"),
            _ => {
                let subject = Subject { error };
                let problem = problem(error);
                write!(f, "{subject} {problem}, at offset {offset}")
            }
        }
    }
}

/// The attribute that an error is of.
#[derive(Clone, Copy)]
struct Subject {
    error: DecodeError,
}

/// Writes the kernel's name of the attribute, or its type and its family.
impl fmt::Display for Subject {
    fn fmt(&self, f: &mut fmt::Formatter<'_>) -> fmt::Result {
        let family = self.error.family;
        let kind = self.error.kind;
        match attribute_name(family, kind) {
            Some(name) => f.write_str(name),
            None => write!(f, "type {kind} of {family}"),
        }
    }
}

/// What an error says of its attribute, after the attribute's name: at most 40 bytes.
///
/// It is empty for the causes that are no attribute's: `Header`, `Word` and `Memory`.
#[must_use]
pub fn problem(error: DecodeError) -> &'static str {
    match error.cause {
        Cause::Length => "has a payload of invalid length",
        Cause::Utf8 => "is not UTF-8",
        Cause::Order => match (error.family, error.kind) {
            (Family::LinkInfo, 2 | 3) => "before IFLA_INFO_KIND",
            (Family::LinkInfo, 5) => "without IFLA_INFO_SLAVE_KIND",
            _ => "is out of order",
        },
        Cause::AddressKind => "has an address of the other IP version",
        Cause::WrongType => "is not the expected type",
        Cause::Kind => "does not belong to links of this kind",
        Cause::Depth => "is nested in 128 lists",
        Cause::Peer => "has a peer that is rejected",
        Cause::Header | Cause::Word | Cause::Memory => "",
    }
}
