// @generated from crates/linkinfo_print/src/lib.rt by rust/translate/run.

//! Lists of link info for people: as JSON, as text, and where two differ.

mod compare;
mod inline;
mod lines;
mod list;
mod members;
mod message;
mod options;
mod packets;
mod plain;
mod print;
mod report;
mod streams;
mod text;
mod units;

pub use crate::linkinfo_print::compare::{Pair, PairError, Question, difference_json, unmet_json};
pub use crate::linkinfo_print::list::{ListError, list_json, port_table_of, table_of};
pub use crate::linkinfo_print::message::{flags_json, message_json};
pub use crate::linkinfo_print::options::{Input, Options, Request, request_of};
pub use crate::linkinfo_print::plain::PlainText;
pub use crate::linkinfo_print::print::Printer;
pub use crate::linkinfo_print::report::{Printed, Report};
pub use crate::linkinfo_print::streams::{RunError, run};
pub use crate::linkinfo_print::text::{push_list, push_message, push_pair};
pub use crate::linkinfo_print::units::MOST_BYTES;
pub use crate::linkinfo_view::escaped;
