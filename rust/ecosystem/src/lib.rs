//! The link info of a message, from its bytes: `netlink-packet-route` would decode it.

use linkinfo::messages::{LinkMessages, MessageError};

/// The contents of `IFLA_LINKINFO` of the first link in the bytes of a message, if there are any.
pub fn link_info(message: &[u8]) -> Result<Option<&[u8]>, MessageError> {
    let link = LinkMessages::new(message).next().transpose()?;
    Ok(link.and_then(|link| link.info).map(|info| info.bytes))
}
