// @generated from crates/linkinfo_table/src/lib.rt by rust/translate/run.

//! Families of link info attributes: rows, lists and peers.

mod both_rows;
mod by_rows;
mod canonical;
mod custom_rows;
mod decoded;
mod difference;
mod encodable;
pub mod encodables;
mod family;
mod first;
mod last;
mod layer;
mod list;
mod list_payload;
mod listed;
mod located;
mod lookup;
pub mod lower;
pub mod opaque;
mod payload;
mod payload_calls;
mod payload_row;
mod peer;
mod peer_payload;
mod row_family;
mod rows;
mod slot;
mod table_family;
mod unmet;

pub use crate::layers::shapes::{
    Datum, Shape, datum_len, read_datum, shape_canonical_len, shape_check, shape_same,
    shape_write_attribute, shape_write_canonical, table_shape, typed_shape, write_datum,
};
pub use both_rows::Both;
pub use canonical::{row_canonical_len, row_write_canonical};
pub use custom_rows::CustomRows;
pub use decoded::Decoded;
pub use difference::{Difference, list_difference, whole_difference};
pub use encodable::Encodable;
pub use family::LinkFamily;
pub use first::{first_check, first_measure, first_read, first_same, first_write_canonical};
pub use last::{INDEXED, LastOfType, PlacedNla, own_bytes, types_end};
pub use layer::{LayerFamilies, LinkLayer, Supplied};
pub use list::{list_check, list_measure, list_read, list_same, list_write_canonical, total_with};
pub use listed::ListedFamily;
pub use located::{list_error, whole_error};
pub use lookup::Lookup;
pub use opaque::Opaque;
pub use payload::LinkPayload;
pub use payload_row::PayloadRow;
pub use peer::{LinkPeer, PeerFault};
pub use row_family::RowFamily;
pub use rows::{
    row_check, row_emit_payload, row_emit_value, row_fit_len, row_kind, row_read, row_same,
    row_store, row_value_len, table_lookup, typed_lookup,
};
pub use slot::Slot;
pub use table_family::TableFamily;
pub use unmet::{Unmet, UnmetAt, earlier, list_unmet, unmet_as_whole};

#[doc(inline)]
pub use crate::{
    datum_of, encodable_by_rows, encodable_row, number_of, row_pattern, store_by_rows, store_row,
};
