// @generated from crates/linkinfo/src/item.rt by rust/translate/run.

//! One attribute of the list: parsed, validated, compared and written.

use crate::compat::NextMultiple;
use crate::layers::data::{
    DataFamily, DataLayer, PayloadFamily, PortFamily, check_payload, family_of, measure_payload,
    port_family_of, same_payloads, write_canonical_payload,
};
use crate::layers::link::link_info::LinkInfoOf;
use crate::layers::link::role::{CurrentKinds, Role, error, name_in};
use crate::layers::link::xstats::LinkXstats;
use crate::layers::nla_frame::{
    Bytes, Cause, DecodeError, DefaultNla, HeaderCount, Nla, NlaBuffer, Parseable, Text, fitting,
    write_bytes_attribute, write_frame,
};
use crate::layers::numbers::{
    IFLA_INFO_DATA, IFLA_INFO_KIND, IFLA_INFO_SLAVE_DATA, IFLA_INFO_SLAVE_KIND, IFLA_INFO_XSTATS,
    InfoKind, InfoPortKind, KindTag, PortTag,
};
use crate::layers::table::{Shape, shape_canonical_len, shape_same, shape_write_attribute};

/// Parses an attribute by its role. Requires the current kinds after the attribute, as a walk has
/// them: if the attribute names a kind, the current kind is that name's.
pub(crate) fn read_item<P: DataLayer>(
    nla: &NlaBuffer<'_>,
    role: Role,
    kinds_after: CurrentKinds,
    count: &mut HeaderCount,
) -> Result<LinkInfoOf<P>, DecodeError> {
    match role {
        Role::Kind => Ok(LinkInfoOf::Kind(read_kind(nla, kinds_after.kind)?)),
        Role::Data(tag) => {
            let data = P::read_data(family_of(tag), nla.value(), count)?;
            Ok(LinkInfoOf::Data(data))
        }
        Role::Xstats => {
            let bytes = Bytes::copy_of(nla.value())?;
            Ok(LinkInfoOf::Xstats(LinkXstats::Other(bytes)))
        }
        Role::PortKind => Ok(LinkInfoOf::PortKind(read_port_kind(nla, kinds_after.port)?)),
        Role::PortData(tag) => {
            let data = P::read_port_data(port_family_of(tag), nla.value(), count)?;
            Ok(LinkInfoOf::PortData(data))
        }
        Role::Misplaced => Err(error(nla, Cause::Order)),
        Role::Unknown => Ok(LinkInfoOf::Other(DefaultNla::parse(nla)?)),
    }
}

/// The kind that an attribute names, by the tag of its name. A known name needs no memory; only an
/// unknown one is copied.
fn read_kind(nla: &NlaBuffer<'_>, tag: Option<KindTag>) -> Result<InfoKind, DecodeError> {
    let Some(tag) = tag else { unreachable!() };
    match InfoKind::from_tag(tag) {
        Some(kind) => Ok(kind),
        None => Ok(InfoKind::Other(Text::copy_of(name_in(nla)?)?)),
    }
}

/// The port kind that an attribute names, by the tag of its name. A known name needs no memory;
/// only an unknown one is copied.
fn read_port_kind(nla: &NlaBuffer<'_>, tag: Option<PortTag>) -> Result<InfoPortKind, DecodeError> {
    let Some(tag) = tag else { unreachable!() };
    match InfoPortKind::from_tag(tag) {
        Some(kind) => Ok(kind),
        None => Ok(InfoPortKind::Other(Text::copy_of(name_in(nla)?)?)),
    }
}

/// Validates an attribute by its role: returns `Ok` if `read_item` accepts it, otherwise the error
/// of the attribute. Requires an attribute that a walk has returned. Does not allocate.
#[inline(always)]
pub(crate) fn check_item<P: DataLayer>(
    nla: &NlaBuffer<'_>,
    role: Role,
    count: &mut HeaderCount,
) -> Result<(), DecodeError> {
    match role {
        Role::Kind => Ok(()),
        Role::Data(tag) => check_payload::<P, DataFamily>(family_of(tag), nla.value(), count),
        Role::Xstats => Ok(()),
        Role::PortKind => Ok(()),
        Role::PortData(tag) => {
            check_payload::<P, PortFamily>(port_family_of(tag), nla.value(), count)
        }
        Role::Misplaced => Err(error(nla, Cause::Order)),
        Role::Unknown => Ok(()),
    }
}

/// Returns whether two attributes are equivalent by the role of the first. Requires that both are
/// accepted. Does not allocate.
pub(crate) fn same_item<P: DataLayer>(
    a: &NlaBuffer<'_>,
    b: &NlaBuffer<'_>,
    role: Role,
    count: &mut HeaderCount,
) -> bool {
    let same_kind = b.kind() == a.kind();
    match role {
        Role::Kind => same_kind && shape_same(Shape::Name, a.value(), b.value()),
        Role::Data(tag) => {
            same_kind && same_payloads::<P, DataFamily>(family_of(tag), a.value(), b.value(), count)
        }
        Role::Xstats => same_kind && a.value() == b.value(),
        Role::PortKind => same_kind && shape_same(Shape::Name, a.value(), b.value()),
        Role::PortData(tag) => {
            same_kind
                && same_payloads::<P, PortFamily>(port_family_of(tag), a.value(), b.value(), count)
        }
        Role::Misplaced => false,
        Role::Unknown => b.raw_kind() == a.raw_kind() && a.value() == b.value(),
    }
}

/// Validates an attribute by its role as `check_item` does, and measures it in the same pass. The
/// error is that of the attribute. Of an accepted attribute the result is the length, in bytes, of
/// its canonical payload, or `None` if that is above 65531. Requires an attribute that a walk has
/// returned. Does not allocate.
pub(crate) fn measure_item<P: DataLayer>(
    nla: &NlaBuffer<'_>,
    role: Role,
) -> Result<Option<usize>, DecodeError> {
    let value = nla.value();
    match role {
        Role::Kind => Ok(shape_canonical_len(Shape::Name, value)),
        Role::Data(tag) => measure_payload::<P, DataFamily>(family_of(tag), value),
        Role::Xstats => Ok(fitting(value.len())),
        Role::PortKind => Ok(shape_canonical_len(Shape::Name, value)),
        Role::PortData(tag) => measure_payload::<P, PortFamily>(port_family_of(tag), value),
        Role::Misplaced => Err(error(nla, Cause::Order)),
        Role::Unknown => Ok(fitting(value.len())),
    }
}

/// Writes the canonical encoding of an attribute by its role to the front of the buffer, and
/// returns its length in bytes. The rest of the buffer is unchanged. Requires that the attribute is
/// accepted, that its canonical payload has at most 65531 bytes, and that the buffer has room. Does
/// not allocate.
pub(crate) fn write_item<P: DataLayer>(
    nla: &NlaBuffer<'_>,
    role: Role,
    buffer: &mut [u8],
) -> usize {
    let value = nla.value();
    match role {
        Role::Kind => shape_write_attribute(Shape::Name, IFLA_INFO_KIND, value, buffer),
        Role::Data(tag) => {
            write_payload::<P, DataFamily>(family_of(tag), IFLA_INFO_DATA, value, buffer)
        }
        Role::Xstats => write_bytes_attribute(IFLA_INFO_XSTATS, value, buffer),
        Role::PortKind => shape_write_attribute(Shape::Name, IFLA_INFO_SLAVE_KIND, value, buffer),
        Role::PortData(tag) => {
            write_payload::<P, PortFamily>(port_family_of(tag), IFLA_INFO_SLAVE_DATA, value, buffer)
        }
        Role::Misplaced => unreachable!(),
        Role::Unknown => write_bytes_attribute(nla.raw_kind(), value, buffer),
    }
}

/// Writes the canonical encoding of an attribute with data to the front of the buffer, and returns
/// its length in bytes. The payload is written first, after room for its header; then the header
/// and the padding.
fn write_payload<P, F: PayloadFamily<P>>(
    family: F,
    kind: u16,
    payload: &[u8],
    buffer: &mut [u8],
) -> usize {
    let len = write_canonical_payload::<P, F>(family, payload, &mut buffer[4..]);
    write_frame(buffer, kind, len);
    4 + len.next_multiple_of_four()
}
