// @generated from crates/linkinfo_print/src/compare.rt by rust/translate/run.

//! Where two lists differ first, and what of one list another does not meet, as JSON.

use crate::compat::AllocError;
use crate::compat::calls::*;
use crate::compat::serde_json::{Map, Value, put};
use crate::linkinfo_print::list::{TYPE_MASK, item_json, member_name, other_json};
use crate::linkinfo_print::members::put_some;
use crate::linkinfo_view::{Table, attributes_json, first_attribute};
use linkinfo::layers::link::{
    DecodeError, Difference, ErrorAt, ErrorIn, IFLA_INFO_KIND, KindTag, LinkInfoItem, Unmet,
    check_at, first_difference, first_unmet, tag_of_name,
};
use linkinfo::layers::nla_frame::{Family, NlaBuffer, without_nul};
use thiserror::Error;

/// What is asked of two lists.
#[derive(Clone, Copy, Debug, PartialEq, Eq)]
pub enum Question {
    /// Whether they are equivalent.
    Equal,
    /// Whether the first meets the second.
    Met,
}

/// Two attributes in which lists differ.
#[derive(Clone, Copy, Debug, PartialEq, Eq)]
pub struct Pair {
    /// The family of the attributes.
    pub family: Family,
    /// The offset of the attribute in the first list, if it is there.
    pub first: Option<usize>,
    /// The offset of the attribute in the second list, if it is there.
    pub second: Option<usize>,
}

/// Why two lists are not compared.
#[derive(Clone, Copy, Debug, PartialEq, Eq, Error)]
pub enum PairError {
    /// The first list is rejected with this error.
    #[error("first list: {0}")]
    First(ErrorAt),
    /// The second list is rejected with this error, and the first one is accepted.
    #[error("second list: {0}")]
    Second(ErrorAt),
    /// An allocation failed.
    #[error("out of memory")]
    Memory,
}

impl From<AllocError> for PairError {
    fn from(_error: AllocError) -> PairError {
        PairError::Memory
    }
}

impl Question {
    fn answer_key(self) -> &'static str {
        match self {
            Question::Equal => "equal",
            Question::Met => "met",
        }
    }

    fn first_keys(self) -> (&'static str, &'static str) {
        match self {
            Question::Equal => ("first", "first_offset"),
            Question::Met => ("have", "have_offset"),
        }
    }

    fn second_keys(self) -> (&'static str, &'static str) {
        match self {
            Question::Equal => ("second", "second_offset"),
            Question::Met => ("want", "want_offset"),
        }
    }
}

/// An attribute of a list as the object of its member.
fn whole_json(nla: &NlaBuffer<'_>) -> Result<Value, AllocError> {
    let item = LinkInfoItem {
        place: 0,
        raw_kind: nla.raw_kind(),
        value: nla.value(),
        kind_tag: None,
        port_tag: None,
    };
    match member_name(item.raw_kind & TYPE_MASK) {
        Some(name) => {
            let mut members = Map::new();
            put(&mut members, name, item_json(&item, None)?)?;
            Ok(Value::Object(members))
        }
        None => other_json(&item),
    }
}

/// The rows of a family under a kind: `sit` and `ip6tnl` links have rows of their own.
fn table_under(family: Family, tag: Option<KindTag>) -> Table {
    match (family, tag) {
        (Family::IpTunnel, Some(KindTag::SitTun)) => Table::Sit,
        (Family::IpTunnel, Some(KindTag::Ip6Tnl)) => Table::Ip6Tunnel,
        _ => Table::Family(family),
    }
}

/// The kind before an offset of a list: that of the last `IFLA_INFO_KIND` there.
fn kind_before(bytes: &[u8], offset: usize) -> Option<KindTag> {
    let mut tag = None;
    let mut rest = &bytes[..offset.min(bytes.len())];
    while let Some((attribute, next)) = first_attribute(rest) {
        if attribute.kind() == IFLA_INFO_KIND {
            tag = Some(tag_of_name(without_nul(attribute.value())));
        }
        rest = next;
    }
    tag
}

/// An attribute at the front of these bytes as an object.
fn front_json(
    family: Family,
    table: Table,
    rest: &[u8],
    nla: &NlaBuffer<'_>,
) -> Result<Value, AllocError> {
    if family == Family::LinkInfo {
        return whole_json(nla);
    }
    let end = rest.len().min(nla.value().len() + 4);
    attributes_json(table, &rest[..end])
}

/// The attribute at an offset of a list as an object, or `null`.
fn side_json(family: Family, bytes: &[u8], offset: Option<usize>) -> Result<Value, AllocError> {
    let Some(offset) = offset else {
        return Ok(Value::Null);
    };
    let rest = &bytes[offset.min(bytes.len())..];
    match NlaBuffer::new_checked(rest) {
        Ok(nla) => {
            let table = table_under(family, kind_before(bytes, offset));
            front_json(family, table, rest, &nla)
        }
        Err(_) => Ok(Value::Null),
    }
}

/// The offset of an attribute as JSON, if it is there.
fn offset_json(offset: Option<usize>) -> Option<Value> {
    match offset {
        Some(offset) => Some(Value::from(offset)),
        None => None,
    }
}

/// The answer to a question about two lists: whether it is yes, and if not, in which attributes
/// they differ.
fn pair_value(
    question: Question,
    a: &[u8],
    b: &[u8],
    pair: Option<Pair>,
) -> Result<Value, AllocError> {
    let mut members = Map::new();
    let key = question.answer_key();
    let Some(pair) = pair else {
        put(&mut members, key, Value::Bool(true))?;
        return Ok(Value::Object(members));
    };
    let first = question.first_keys();
    let second = question.second_keys();
    put(&mut members, key, Value::Bool(false))?;
    put(
        &mut members,
        "family",
        Value::try_from_str(pair.family.name())?,
    )?;
    put(
        &mut members,
        first.0,
        side_json(pair.family, a, pair.first)?,
    )?;
    put(
        &mut members,
        second.0,
        side_json(pair.family, b, pair.second)?,
    )?;
    put_some(&mut members, first.1, offset_json(pair.first))?;
    put_some(&mut members, second.1, offset_json(pair.second))?;
    Ok(Value::Object(members))
}

/// The same answer, with what its JSON needs to be read back.
fn pair_json(
    question: Question,
    a: &[u8],
    b: &[u8],
    pair: Option<Pair>,
) -> Result<Value, AllocError> {
    pair_value(question, a, b, pair)
}

/// The attributes of a difference.
fn pair_of_difference(difference: Option<Difference>) -> Option<Pair> {
    let difference = difference?;
    Some(Pair {
        family: difference.family,
        first: difference.first,
        second: difference.second,
    })
}

/// The attributes of what is not met.
fn pair_of_unmet(unmet: Option<Unmet>) -> Option<Pair> {
    let unmet = unmet?;
    Some(Pair {
        family: unmet.family,
        first: unmet.have,
        second: Some(unmet.want),
    })
}

/// The error of a rejected list, with its offsets.
fn placed(bytes: &[u8], error: DecodeError) -> ErrorAt {
    match check_at(bytes) {
        Err(at) => at,
        Ok(()) => ErrorAt {
            error,
            place: 0,
            inner: 0,
        },
    }
}

/// The error of one of two lists, with its offsets.
fn pair_error(a: &[u8], b: &[u8], error: ErrorIn) -> PairError {
    match error {
        ErrorIn::First(error) => PairError::First(placed(a, error)),
        ErrorIn::Second(error) => PairError::Second(placed(b, error)),
    }
}

/// Returns as a JSON object where two lists differ first (`first_difference`): `equal`, and if they
/// are not equal the family of the attributes, `first` and `second` with the values, or `null`
/// where a list has ended, and their offsets.
///
/// The error is that of the first list, else that of the second.
pub fn difference_json(a: &[u8], b: &[u8]) -> Result<Value, PairError> {
    match first_difference(a, b) {
        Ok(difference) => {
            let pair = pair_of_difference(difference);
            Ok(pair_json(Question::Equal, a, b, pair)?)
        }
        Err(error) => Err(pair_error(a, b, error)),
    }
}

/// Returns as a JSON object what of the second list the first does not meet (`first_unmet`): `met`,
/// and if it is not met the family of the attribute, `have` with the value of the first list, or
/// `null` where there is none, `want` with that of the second, and their offsets.
///
/// The error is that of the first list, else that of the second.
pub fn unmet_json(have: &[u8], want: &[u8]) -> Result<Value, PairError> {
    match first_unmet(have, want) {
        Ok(unmet) => {
            let pair = pair_of_unmet(unmet);
            Ok(pair_json(Question::Met, have, want, pair)?)
        }
        Err(error) => Err(pair_error(have, want, error)),
    }
}
