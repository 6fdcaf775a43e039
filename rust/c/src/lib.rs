//! The calls of `linkinfo` for C, as `c/linkinfo.h` declares them.
//!
//! `calls` has them over slices, in safe code. `exports` has their symbols, over pointers: all
//! unsafe code is there. No call allocates.
#![no_std]
#![deny(unsafe_code)]

pub mod calls;

#[cfg(feature = "library")]
#[allow(unsafe_code)]
mod exports;
