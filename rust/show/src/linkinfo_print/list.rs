// @generated from crates/linkinfo_print/src/list.rt by rust/translate/run.

//! A list of link info as JSON.

use crate::compat::AllocError;
use crate::compat::calls::*;
use crate::compat::serde_json::{Map, Value, push, put};
use crate::linkinfo_print::members::{put_some, text_json};
use crate::linkinfo_view::{Table, attributes_json, hex_json};
use linkinfo::layers::data::{DataFamily, PayloadFamily, PortFamily, family_of, port_family_of};
use linkinfo::layers::link::{
    Bytes, ErrorAt, IFLA_INFO_DATA, IFLA_INFO_KIND, IFLA_INFO_SLAVE_DATA, IFLA_INFO_SLAVE_KIND,
    IFLA_INFO_XSTATS, KindTag, LinkInfoItem, LinkInfoWalk, PortTag, check_at,
};
use linkinfo::layers::nla_frame::{Family, without_nul};
use thiserror::Error;

/// The bits of a type's number: the others are flags.
pub(crate) const TYPE_MASK: u16 = 0x3fff;

/// Why a list is not printed.
#[derive(Clone, Copy, Debug, PartialEq, Eq, Error)]
pub enum ListError {
    /// The list is rejected with this error.
    #[error("{0}")]
    Rejected(ErrorAt),
    /// An allocation failed.
    #[error("out of memory")]
    Memory,
}

impl From<AllocError> for ListError {
    fn from(_error: AllocError) -> ListError {
        ListError::Memory
    }
}

/// The rows of a family of attributes, if there is one.
fn table_in(family: Option<Family>) -> Option<Table> {
    match family {
        Some(family) => Some(Table::Family(family)),
        None => None,
    }
}

/// The rows that show the data of a kind. Data without rows is opaque bytes.
pub fn table_of(tag: KindTag) -> Option<Table> {
    match tag {
        KindTag::Veth => Some(Table::Family(Family::Veth)),
        KindTag::Vxcan => Some(Table::Family(Family::Vxcan)),
        KindTag::SitTun => Some(Table::Sit),
        KindTag::Ip6Tnl => Some(Table::Ip6Tunnel),
        _ => {
            let family: DataFamily = family_of(tag);
            table_in(PayloadFamily::<Bytes>::listing(family))
        }
    }
}

/// The rows that show the port data of a port kind. Data without rows is opaque bytes.
pub fn port_table_of(tag: PortTag) -> Option<Table> {
    let family: PortFamily = port_family_of(tag);
    table_in(PayloadFamily::<Bytes>::listing(family))
}

/// The rows of the data that follows an attribute, by the name of its kind: those of the last name,
/// of a kind that the library keeps as bytes.
fn named_after(named: Option<Table>, item: &LinkInfoItem<'_>) -> Option<Table> {
    match item.raw_kind & TYPE_MASK {
        IFLA_INFO_KIND => Table::of_other(without_nul(item.value)),
        _ => named,
    }
}

/// The rows of a kind's family, or if it has none those of the kind's name.
fn rows_or(rows: Option<Table>, named: Option<Table>) -> Option<Table> {
    match rows {
        Some(table) => Some(table),
        None => named,
    }
}

/// Data by its rows, or in hex.
fn rows_json(table: Option<Table>, payload: &[u8]) -> Result<Value, AllocError> {
    match table {
        Some(table) => attributes_json(table, payload),
        None => hex_json(payload),
    }
}

/// The name that an attribute holds, without its closing NUL and escaped.
fn name_json(payload: &[u8]) -> Result<Value, AllocError> {
    text_json(without_nul(payload))
}

/// The value of an attribute of a list, by its role under the current kinds: a name is a text, data
/// is shown by its rows, those by the kind's name among them, and all else is hex.
pub(crate) fn item_json(
    item: &LinkInfoItem<'_>,
    named: Option<Table>,
) -> Result<Value, AllocError> {
    match item.raw_kind & TYPE_MASK {
        IFLA_INFO_KIND | IFLA_INFO_SLAVE_KIND => name_json(item.value),
        IFLA_INFO_DATA => match item.kind_tag {
            Some(tag) => rows_json(rows_or(table_of(tag), named), item.value),
            None => hex_json(item.value),
        },
        IFLA_INFO_SLAVE_DATA => match item.port_tag {
            Some(tag) => rows_json(port_table_of(tag), item.value),
            None => hex_json(item.value),
        },
        _ => hex_json(item.value),
    }
}

/// The member of the attributes of a type, as `ip -j link` names it.
pub(crate) fn member_name(kind: u16) -> Option<&'static str> {
    match kind {
        IFLA_INFO_KIND => Some("info_kind"),
        IFLA_INFO_DATA => Some("info_data"),
        IFLA_INFO_XSTATS => Some("info_xstats"),
        IFLA_INFO_SLAVE_KIND => Some("info_slave_kind"),
        IFLA_INFO_SLAVE_DATA => Some("info_slave_data"),
        _ => None,
    }
}

/// The name of a member as JSON.
fn member_name_json(kind: u16) -> Result<Option<Value>, AllocError> {
    match member_name(kind) {
        Some(name) => Ok(Some(Value::try_from_str(name)?)),
        None => Ok(None),
    }
}

/// Whether an attribute of this type is among those to come.
fn comes_again(walk: &LinkInfoWalk<'_>, kind: u16) -> Result<bool, AllocError> {
    let mut rest = walk.try_clone()?;
    while let Some(Ok(item)) = rest.next() {
        if item.raw_kind & TYPE_MASK == kind {
            return Ok(true);
        }
    }
    Ok(false)
}

/// The name of the member that an attribute is: the last one of its type, where the type has a
/// name. A search ends at the next attribute of the type, so that all of them together pass five
/// times over a list.
fn shown_as(
    item: &LinkInfoItem<'_>,
    walk: &LinkInfoWalk<'_>,
) -> Result<Option<&'static str>, AllocError> {
    let kind = item.raw_kind & TYPE_MASK;
    let Some(name) = member_name(kind) else {
        return Ok(None);
    };
    if comes_again(walk, kind)? {
        return Ok(None);
    }
    Ok(Some(name))
}

/// An attribute that is no member: its whole type, its payload in hex, and the name of its type if
/// it has one.
pub(crate) fn other_json(item: &LinkInfoItem<'_>) -> Result<Value, AllocError> {
    let mut members = Map::new();
    put(&mut members, "type", Value::from(item.raw_kind))?;
    put(&mut members, "hex", hex_json(item.value)?)?;
    let name = member_name_json(item.raw_kind & TYPE_MASK)?;
    put_some(&mut members, "name", name)?;
    Ok(Value::Object(members))
}

/// What the attributes of a list so far are printed as.
struct Shown {
    members: Map<String, Value>,
    others: Vec<Value>,
    /// The rows of the data that comes, by the name of its kind.
    named: Option<Table>,
}

impl Shown {
    fn new() -> Shown {
        Shown {
            members: Map::new(),
            others: Vec::new(),
            named: None,
        }
    }

    /// Adds an attribute: as a member of this name, or to the others.
    fn push(&mut self, name: Option<&str>, item: &LinkInfoItem<'_>) -> Result<(), AllocError> {
        let named = self.named;
        self.named = named_after(named, item);
        match name {
            Some(name) => {
                let value = item_json(item, named)?;
                put(&mut self.members, name, value)
            }
            None => push(&mut self.others, other_json(item)?),
        }
    }

    /// Returns the object.
    fn into_value(self) -> Result<Value, AllocError> {
        let Shown {
            mut members,
            others,
            ..
        } = self;
        if others.is_empty() {
            return Ok(Value::Object(members));
        }
        put(&mut members, "others", Value::Array(others))?;
        Ok(Value::Object(members))
    }
}

/// Returns a list as a JSON object. The last attribute of each known type is a member: `info_kind`,
/// `info_data`, `info_slave_kind`, `info_slave_data` and `info_xstats`. All others are in `others`,
/// in order.
///
/// The error is that of `check_at`, or that an allocation failed.
pub fn list_json(bytes: &[u8]) -> Result<Value, ListError> {
    match check_at(bytes) {
        Ok(()) => Ok(shown_list(bytes)?),
        Err(at) => Err(ListError::Rejected(at)),
    }
}

/// A list up to its first error as a JSON object.
fn shown_list(bytes: &[u8]) -> Result<Value, AllocError> {
    let mut shown = Shown::new();
    let mut walk = LinkInfoWalk::new(bytes);
    while let Some(next) = walk.next() {
        match next {
            Ok(item) => {
                let name = shown_as(&item, &walk)?;
                shown.push(name, &item)?;
            }
            Err(_) => return shown.into_value(),
        }
    }
    shown.into_value()
}
