// @generated from crates/nla_frame/src/lib.rt by rust/translate/run.

//! Netlink attributes: how byte strings frame them, and how values are written as attributes.

mod buffer;
mod bytes;
mod default_nla;
mod emission;
mod emitters;
mod error;
mod exact_eq;
mod header_count;
mod iterator;
mod nlas;
mod parsers;
mod text;
mod to_vec;
mod traits;

pub use buffer::{NlaBuffer, next_attribute};
pub use bytes::Bytes;
pub use default_nla::DefaultNla;
pub use emission::{
    emit_nlas, fitting, nlas_buffer_len, nlas_fit_len, write_attribute, write_attributes,
    write_bytes, write_bytes_attribute, write_frame,
};
pub use emitters::{emit_i32, emit_u16, emit_u16_be, emit_u32, emit_u32_be, emit_u64, emit_u64_be};
pub use error::{Cause, DecodeError, Family};
pub use exact_eq::{ExactEq, is_equal};
pub use header_count::HeaderCount;
pub use iterator::NlasIterator;
pub use nlas::Nlas;
pub use parsers::{
    parse_i32, parse_ip, parse_ipv4_addr, parse_ipv6_addr, parse_mac, parse_u8, parse_u16,
    parse_u16_be, parse_u32, parse_u32_be, parse_u64, parse_u64_be, without_nul,
};
pub use text::Text;
pub use to_vec::{ToVecError, nlas_to_vec};
pub use traits::{Emitable, Nla, Parseable, ParseableParametrized};
