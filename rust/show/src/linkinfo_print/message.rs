// @generated from crates/linkinfo_print/src/message.rt by rust/translate/run.

//! A link message as JSON.

use crate::compat::AllocError;
use crate::compat::calls::*;
use crate::compat::serde_json::{Map, Value, push, put};
use crate::linkinfo_print::members::{put_some, text_json};
use linkinfo::layers::messages::{LinkEvent, LinkMessage};

/// The number of flags with a name.
const FLAG_COUNT: usize = 18;

/// `IFF_UP`.
const IFF_UP: u32 = 0x1;
/// `IFF_RUNNING`.
const IFF_RUNNING: u32 = 0x40;

/// Whether a bit is set.
fn is_set(flags: u32, mask: u32) -> bool {
    flags & mask > 0
}

/// A flag of a link: its name and its bit (`IFF_*`, include/uapi/linux/if.h), in the order of `ip
/// link`.
fn link_flag(index: usize) -> (&'static str, u32) {
    match index {
        0 => ("LOOPBACK", 0x8),
        1 => ("BROADCAST", 0x2),
        2 => ("POINTOPOINT", 0x10),
        3 => ("MULTICAST", 0x1000),
        4 => ("NOARP", 0x80),
        5 => ("ALLMULTI", 0x200),
        6 => ("PROMISC", 0x100),
        7 => ("MASTER", 0x400),
        8 => ("SLAVE", 0x800),
        9 => ("DEBUG", 0x4),
        10 => ("DYNAMIC", 0x8000),
        11 => ("AUTOMEDIA", 0x4000),
        12 => ("PORTSEL", 0x2000),
        13 => ("NOTRAILERS", 0x20),
        14 => ("UP", 0x1),
        15 => ("LOWER_UP", 0x10000),
        16 => ("DORMANT", 0x20000),
        _ => ("ECHO", 0x40000),
    }
}

/// Adds a text.
fn push_text(names: &mut Vec<Value>, text: &str) -> Result<(), AllocError> {
    push(names, Value::try_from_str(text)?)
}

/// Adds the name of a flag, if it is set.
fn push_flag(names: &mut Vec<Value>, flags: u32, index: usize) -> Result<(), AllocError> {
    let (name, mask) = link_flag(index);
    if is_set(flags, mask) {
        push_text(names, name)
    } else {
        Ok(())
    }
}

/// Whether a link is up and not running.
fn lacks_carrier(flags: u32) -> bool {
    is_set(flags, IFF_UP) && !is_set(flags, IFF_RUNNING)
}

/// Adds `NO-CARRIER` for a link that is up and not running.
fn push_no_carrier(names: &mut Vec<Value>, flags: u32) -> Result<(), AllocError> {
    if lacks_carrier(flags) {
        push_text(names, "NO-CARRIER")
    } else {
        Ok(())
    }
}

/// Adds the bits without a name in hex, if there are any.
fn push_unnamed(names: &mut Vec<Value>, flags: u32) -> Result<(), AllocError> {
    if flags < 0x8_0000 {
        return Ok(());
    }
    let bits = flags / 0x8_0000 * 0x8_0000;
    push(names, Value::String(try_format!("0x{bits:x}")?))
}

/// The names of a link's flags as `ip -j link` prints them, and last the bits without a name in
/// hex.
pub fn flags_json(flags: u32) -> Result<Value, AllocError> {
    let mut names = Vec::new();
    push_no_carrier(&mut names, flags)?;
    for index in 0..FLAG_COUNT {
        push_flag(&mut names, flags, index)?;
    }
    push_unnamed(&mut names, flags)?;
    Ok(Value::Array(names))
}

/// Whether a link is deleted.
fn is_deleted(event: LinkEvent) -> bool {
    event == LinkEvent::Deleted
}

/// The name of a link, escaped.
fn name_json(name: Option<&[u8]>) -> Result<Option<Value>, AllocError> {
    match name {
        Some(name) => Ok(Some(text_json(name)?)),
        None => Ok(None),
    }
}

/// The time of a packet, if it has one: seconds since 1970 with nine decimal places.
pub(crate) fn time_text(time: Option<(u32, u64)>) -> Result<Option<String>, AllocError> {
    let Some((seconds, nanoseconds)) = time else {
        return Ok(None);
    };
    Ok(Some(try_format!("{seconds}.{nanoseconds:09}")?))
}

/// A time as JSON, if it is there.
fn time_json(time: Option<String>) -> Option<Value> {
    match time {
        Some(time) => Some(Value::String(time)),
        None => None,
    }
}

/// The members that a message has by itself.
fn link_members(link: &LinkMessage<'_>) -> Result<Map<String, Value>, AllocError> {
    let mut members = Map::new();
    put(&mut members, "deleted", Value::from(is_deleted(link.event)))?;
    put(&mut members, "flags", flags_json(link.flags)?)?;
    put(&mut members, "ifindex", Value::from(link.index))?;
    put_some(&mut members, "ifname", name_json(link.name)?)?;
    Ok(members)
}

/// The object of a message.
fn message_value(
    link: &LinkMessage<'_>,
    list: Option<Value>,
    time: Option<String>,
) -> Result<Value, AllocError> {
    let mut members = link_members(link)?;
    put_some(&mut members, "linkinfo", list)?;
    put_some(&mut members, "time", time_json(time))?;
    Ok(Value::Object(members))
}

/// Returns a link message as a JSON object: `deleted`, `flags`, `ifindex`, and where they are there
/// `ifname`, the list as `linkinfo`, and the time of its packet as `time`.
///
/// # Panics
///
/// May panic where a condition of the caller that is named here does not hold. Where it does
/// not panic then, the result has no meaning.
pub fn message_json(
    link: &LinkMessage<'_>,
    list: Option<Value>,
    time: Option<String>,
) -> Result<Value, AllocError> {
    message_value(link, list, time)
}
