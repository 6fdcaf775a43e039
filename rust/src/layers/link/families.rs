// @generated from crates/linkinfo/src/families.rt by rust/translate/run.

//! For authors of a family of attributes, of a peer of veth, vxcan and netkit links, of a layer, or
//! of a flag set: the traits to implement, the calls that follow from a table, and the writers of
//! numbers and attributes.

// Every family has `ListedFamily`, and every layer `LayerFamilies`: they are for contracts alone,
// as `PlainFamilies` and `Plain`, `TypedFamilies` and `TypedRows` are.
pub use crate::layers::data::{
    DataLayer, Encode, FitLen, Layered, Plain, PlainFamilies, TypedFamilies, TypedRows, Write,
};
pub use crate::layers::link::named::{data_name, port_data_name, shape_under};
pub use crate::layers::names::{FamilyNla, list_attribute_at};
pub use crate::layers::nla_frame::{
    emit_i32, emit_u16, emit_u16_be, emit_u32, emit_u32_be, emit_u64, emit_u64_be, fitting,
    write_attribute, write_attributes, write_bytes, write_bytes_attribute, write_frame,
};
pub use crate::layers::numbers::{KeepsEveryBit, bits_again};
pub use crate::layers::peers::BitPeer;
pub use crate::layers::table::{
    CustomRows, Datum, Decoded, Encodable, LayerFamilies, LinkFamily, LinkLayer, LinkPayload,
    LinkPeer, ListedFamily, Lookup, Opaque, PayloadRow, PeerFault, RowFamily, Shape, Slot,
    Supplied, TableFamily, datum_len, encodable_by_rows, encodables, first_check, first_measure,
    first_read, first_same, first_write_canonical, list_check, list_measure, list_read, list_same,
    list_write_canonical, opaque, read_datum, row_canonical_len, row_check, row_emit_payload,
    row_emit_value, row_fit_len, row_kind, row_read, row_same, row_store, row_value_len,
    row_write_canonical, shape_canonical_len, shape_check, shape_same, shape_write_attribute,
    shape_write_canonical, store_by_rows, table_lookup, table_shape, typed_lookup, typed_shape,
    write_datum,
};
