// @generated from crates/linkinfo_messages/src/lib.rt by rust/translate/run.

//! Link messages in the bytes of a netlink socket, and the packets of captures of an nlmon device.

mod attributes;
mod capture;
mod capture_error;
mod error;
mod integers;
mod link;
mod links;
mod message;

pub use capture::{Capture, CaptureFormat, Record};
pub use capture_error::{CaptureCause, CaptureError};
pub use error::{MessageCause, MessageError};
pub use link::{LinkContents, LinkEvent, LinkMessage};
pub use links::LinkMessages;
pub use message::message_len;
