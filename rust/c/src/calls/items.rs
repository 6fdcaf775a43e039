// @generated from crates/linkinfo_c/src/items.rt by rust/c/translate.

//! The attributes of a list, written into an array of the caller.

use crate::calls::codes::{kind_code, port_kind_code};
use crate::calls::error::{LinkinfoError, NO_ERROR, error_record};
use linkinfo::layers::link::{LinkInfoItem, LinkInfoWalk};

/// `struct linkinfo_item`: an attribute of a list.
#[repr(C)]
#[derive(Clone, Copy, Debug, PartialEq, Eq, Hash, PartialOrd, Ord)]
pub struct LinkinfoItem {
    /// The offset of its header in the list, in bytes; its payload is four bytes after that.
    pub place: usize,
    /// The length of its payload, in bytes.
    pub len: usize,
    /// Its whole 16-bit type, flag bits included.
    pub raw_kind: u16,
    /// The current kind of the link before it, `enum linkinfo_kind`; 0 if there is none.
    pub kind: u16,
    /// The current port kind before it, `enum linkinfo_port_kind`; 0 if there is none.
    pub port_kind: u16,
}

/// `struct linkinfo_list_result`: the number of attributes, and the error that ends them.
#[repr(C)]
#[derive(Clone, Copy, Debug, PartialEq, Eq, Hash, PartialOrd, Ord)]
pub struct LinkinfoListResult {
    /// The error that ends the attributes, or none.
    pub error: LinkinfoError,
    /// The offset of that error, in bytes. Without an error it is the number of bytes, or 0 if data
    /// is opaque bytes.
    pub place: usize,
    /// The number of attributes in all, whatever the array has room for.
    pub count: usize,
}

/// Stores a value at an index of the array, if the array has that index.
pub(crate) fn write_at<T: Copy>(values: &mut [T], index: usize, value: T) {
    if index < values.len() {
        values[index] = value;
    }
}

/// The record of an attribute.
fn item_record(item: &LinkInfoItem<'_>) -> LinkinfoItem {
    LinkinfoItem {
        place: item.place,
        len: item.value.len(),
        raw_kind: item.raw_kind,
        kind: item.kind_tag.map_or(0, kind_code),
        port_kind: item.port_tag.map_or(0, port_kind_code),
    }
}

/// Writes the attributes of a list in order into the array, as many as it has room for.
///
/// They end at the first one that has no accepted header, no current kind that it needs, or a name
/// that is not UTF-8. No payload but those of names is examined. There are at most a quarter as
/// many attributes as bytes.
pub fn linkinfo_items(bytes: &[u8], items: &mut [LinkinfoItem]) -> LinkinfoListResult {
    let mut walk = LinkInfoWalk::new(bytes);
    let mut count = 0;
    let mut place = 0;
    while let Some(next) = walk.next() {
        match next {
            Ok(item) => {
                write_at(items, count, item_record(&item));
                count = walk.examined();
                place = walk.place();
            }
            Err(error) => {
                return LinkinfoListResult {
                    error: error_record(error),
                    place,
                    count,
                };
            }
        }
    }
    LinkinfoListResult {
        error: NO_ERROR,
        place,
        count,
    }
}
