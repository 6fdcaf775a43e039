// @generated from crates/linkinfo_view/src/lib.rt by rust/translate/run.

//! What an attribute of link info is for a reader: names and values, as JSON.

mod attributes;
mod entries;
mod format;
mod list;
mod members;
mod table;
mod text;
mod value;
mod words;

pub use attributes::first_attribute;
pub use format::{Elements, Flags, Format, Row, Table, Words};
pub use list::attributes_json;
pub use table::table_row;
pub use text::{escaped, hex_json};
