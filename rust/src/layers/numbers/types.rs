// @generated from crates/linkinfo_numbers/src/types.rt by rust/translate/run.

//! The types of the attributes in `IFLA_LINKINFO` (include/uapi/linux/if_link.h).

/// The kind of the link, a name.
pub const IFLA_INFO_KIND: u16 = 1;

/// The data of the link, in the format of its kind.
pub const IFLA_INFO_DATA: u16 = 2;

/// The statistics of the link, in the format of its kind.
pub const IFLA_INFO_XSTATS: u16 = 3;

/// The port kind: the kind of the link that this link is a port of, a name.
pub const IFLA_INFO_SLAVE_KIND: u16 = 4;

/// The data of the port, in the format of its port kind.
pub const IFLA_INFO_SLAVE_DATA: u16 = 5;
