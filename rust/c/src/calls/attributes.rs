// @generated from crates/linkinfo_c/src/attributes.rt by rust/c/translate.

//! The attributes in data, written into an array of the caller.

use crate::calls::codes::{
    V4_LIST, V6_LIST, family_of_list, kind_of_code, port_kind_of_code, shape_code,
};
use crate::calls::error::{NO_ERROR, error_record};
use crate::calls::items::{LinkinfoListResult, write_at};
use linkinfo::layers::link::families::{
    Datum, Shape, data_name, port_data_name, read_datum, shape_under,
};
use linkinfo::layers::link::{Family, KindTag, NlaBuffer, NlasIterator, family_of, port_family_of};

/// `struct linkinfo_attribute`: an attribute in data.
#[repr(C)]
#[derive(Clone, Copy, Debug, PartialEq, Eq, Hash, PartialOrd, Ord)]
pub struct LinkinfoAttribute {
    /// The offset of its header in the data, in bytes; its payload is four bytes after that.
    pub place: usize,
    /// The length of its payload, in bytes.
    pub len: usize,
    /// The number that its payload means if `is_number`, otherwise 0.
    pub number: u64,
    /// Its whole 16-bit type, flag bits included.
    pub raw_kind: u16,
    /// The shape of its payload, `enum linkinfo_shape`; 0 if its type has none.
    pub shape: u16,
    /// Whether its payload means an unsigned number.
    pub is_number: bool,
}

/// What the attributes in a payload are.
#[derive(Clone, Copy)]
pub(crate) enum Contents {
    /// Attributes of a family, in data of a kind of links if that is known.
    Attributes(Family, Option<KindTag>),
    /// The elements of a list of addresses, whatever their types: the shape of each.
    Addresses(Shape),
}

/// The attributes in data of a kind, in port data of a port kind, or in a list in data, by the code
/// of the kind or of the list. It is `None` if the data is opaque bytes.
fn contents_inside(code: u16) -> Option<Contents> {
    match kind_of_code(code) {
        Some(tag) => of_family(data_name(family_of(tag)), Some(tag)),
        None => match port_kind_of_code(code) {
            Some(tag) => of_family(port_data_name(port_family_of(tag)), None),
            None => contents_of_list(code),
        },
    }
}

/// The attributes in a list in data, by its code.
fn contents_of_list(code: u16) -> Option<Contents> {
    if code == V4_LIST {
        Some(Contents::Addresses(Shape::V4))
    } else if code == V6_LIST {
        Some(Contents::Addresses(Shape::V6))
    } else {
        of_family(family_of_list(code), None)
    }
}

/// Attributes of a family, if there is one, in data of a kind of links if that is known.
fn of_family(family: Option<Family>, kind: Option<KindTag>) -> Option<Contents> {
    let family = family?;
    Some(Contents::Attributes(family, kind))
}

/// The shape of a type without flag bits among these attributes.
fn shape_in(contents: Contents, masked: u16) -> Option<Shape> {
    match contents {
        Contents::Attributes(family, kind) => shape_under(kind, family, masked),
        Contents::Addresses(shape) => Some(shape),
    }
}

/// A record that C has of an attribute in data.
pub(crate) trait AttributeRecord: Copy {
    /// The record of an attribute at this offset in the data, whose payload has this shape or none.
    fn of_attribute(place: usize, shape: Option<Shape>, nla: &NlaBuffer<'_>) -> Self;
}

/// What a payload means, if its type has a shape that accepts the payload. Lists of attributes and
/// peers have no datum: the family itself parses them.
pub(crate) fn datum_in(shape: Option<Shape>, payload: &[u8]) -> Option<Datum<'_>> {
    let shape = shape?;
    if !shape.is_plain() {
        return None;
    }
    read_datum(shape, payload).ok()
}

/// The number that a payload means, if it is an unsigned number.
fn number_in(shape: Option<Shape>, payload: &[u8]) -> Option<u64> {
    match datum_in(shape, payload) {
        Some(Datum::Number(number)) => Some(number),
        _ => None,
    }
}

impl AttributeRecord for LinkinfoAttribute {
    fn of_attribute(place: usize, shape: Option<Shape>, nla: &NlaBuffer<'_>) -> LinkinfoAttribute {
        let number = number_in(shape, nla.value());
        LinkinfoAttribute {
            place,
            len: nla.value().len(),
            number: number.unwrap_or(0),
            raw_kind: nla.raw_kind(),
            shape: shape.map_or(0, shape_code),
            is_number: number.is_some(),
        }
    }
}

/// Writes the attributes of a payload into the array: as many as it has room for.
fn write_attributes<R: AttributeRecord>(
    bytes: &[u8],
    contents: Contents,
    records: &mut [R],
) -> LinkinfoListResult {
    let mut nlas = NlasIterator::new(bytes);
    let mut count = 0;
    let mut place = 0;
    while let Some(next) = nlas.next() {
        match next {
            Ok(nla) => {
                let shape = shape_in(contents, nla.kind());
                write_at(records, count, R::of_attribute(place, shape, &nla));
                count = nlas.examined();
                place = nlas.place();
            }
            Err(error) => {
                return LinkinfoListResult {
                    error: error_record(error),
                    place,
                    count,
                };
            }
        }
    }
    LinkinfoListResult {
        error: NO_ERROR,
        place,
        count,
    }
}

/// Writes the attributes in data of a kind, in port data of a port kind, or in a list in data, into
/// the array: as many as it has room for, up to the first without an accepted header. There are
/// none if such data is opaque bytes, and none for a number of no kind and no list.
pub(crate) fn write_inside<R: AttributeRecord>(
    bytes: &[u8],
    kind: u16,
    records: &mut [R],
) -> LinkinfoListResult {
    match contents_inside(kind) {
        Some(contents) => write_attributes(bytes, contents, records),
        None => LinkinfoListResult {
            error: NO_ERROR,
            place: 0,
            count: 0,
        },
    }
}

/// Writes the attributes in data of a kind, in port data of a port kind, or in a list in data, into
/// the array: as many as it has room for, up to the first without an accepted header. There are
/// none if such data is opaque bytes, and none for a number of no kind and no list.
pub fn linkinfo_attributes(
    bytes: &[u8],
    kind: u16,
    attributes: &mut [LinkinfoAttribute],
) -> LinkinfoListResult {
    write_inside(bytes, kind, attributes)
}
