// @generated from crates/linkinfo_data/src/lib.rt by rust/translate/run.

//! Data of links (`IFLA_INFO_DATA`) and of ports (`IFLA_INFO_SLAVE_DATA`), by the family that the
//! kind chooses.

mod ask;
mod calls;
mod data;
mod devices;
mod encode;
mod families;
mod info_data;
mod layer;
mod lower;
mod payload_family;
mod peers;
mod port_data;
mod reading;
mod tunnels;
mod typed_layer;

pub use crate::layers::table::{Difference, Unmet};
pub use ask::{
    Ask, Check, FindDifference, FindError, FindUnmet, Measure, NameFamily, Same, WriteCanonical,
};
pub use data::{DataFamily, family_of};
pub use devices::DeviceFamily;
pub use encode::{Encode, FitLen, Write};
pub use families::{Plain, PlainFamilies};
pub use info_data::{InfoData, InfoDataOf};
pub use layer::{DataLayer, Layered};
pub use lower::LowerFamily;
pub use payload_family::{
    PayloadFamily, check_payload, list_difference, list_error, list_unmet, measure_payload,
    same_payloads, write_canonical_payload,
};
pub use peers::PeeredFamily;
pub use port_data::{InfoPortData, InfoPortDataOf, PortFamily, port_family_of};
pub use tunnels::TunnelFamily;
pub use typed_layer::{Typed, TypedFamilies, TypedRows};
