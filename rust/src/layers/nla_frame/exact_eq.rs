// @generated from crates/nla_frame/src/exact_eq.rt by rust/translate/run.

//! Types whose `==` is equality of values.

use crate::layers::nla_frame::error::{Cause, DecodeError, Family};
use core::net::{IpAddr, Ipv4Addr, Ipv6Addr};

/// A type whose `==` returns true if and only if the two values are equal.
pub trait ExactEq: PartialEq {}

/// Whether the two values are equal.
#[must_use]
pub fn is_equal<T: ExactEq>(a: &T, b: &T) -> bool {
    *a == *b
}

impl ExactEq for u8 {}

impl ExactEq for u16 {}

impl ExactEq for u32 {}

impl ExactEq for u64 {}

impl ExactEq for i32 {}

impl ExactEq for bool {}

impl ExactEq for Ipv4Addr {}

impl ExactEq for Ipv6Addr {}

impl ExactEq for IpAddr {}

/// Hardware addresses of six bytes.
impl ExactEq for [u8; 6] {}

impl<A: ExactEq, B: ExactEq> ExactEq for (A, B) {}

impl ExactEq for Family {}

impl ExactEq for Cause {}

impl ExactEq for DecodeError {}
