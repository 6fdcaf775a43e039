// @generated from crates/linkinfo_payloads/src/fixed.rt by rust/translate/run.

//! Values that are written as a fixed number of bytes.

use crate::layers::nla_frame::{
    emit_u16, emit_u16_be, emit_u32, parse_ipv4_addr, parse_ipv6_addr, parse_u16, parse_u16_be,
    parse_u32, write_bytes,
};
use core::net::{Ipv4Addr, Ipv6Addr};

/// A value that is written as a fixed number of bytes: numbers, addresses, and arrays of bytes.
pub trait Fixed: Copy {
    /// The number of bytes of a value.
    const WIDTH: usize;

    /// Reads a value. Requires exactly `WIDTH` bytes.
    ///
    /// # Panics
    ///
    /// May panic where a condition of the caller that is named here does not hold. Where it does
    /// not panic then, the result has no meaning.
    fn read(bytes: &[u8]) -> Self;

    /// Writes a value at the front of the buffer, and returns `WIDTH`. The bytes after it stay
    /// unchanged. Requires that the buffer has at least as many bytes.
    ///
    /// # Panics
    ///
    /// May panic where a condition of the caller that is named here does not hold. Where it does
    /// not panic then, the result has no meaning.
    fn write(self, buffer: &mut [u8]) -> usize;

    /// The number of bytes of the value, which is `WIDTH`.
    fn byte_len(self) -> usize;
}

/// A number of two bytes in big-endian byte order.
#[derive(Clone, Copy)]
pub struct BigEndian {
    /// The number.
    pub number: u16,
}

/// Makes the big-endian number.
pub(crate) fn big_endian(number: u16) -> BigEndian {
    BigEndian { number }
}

/// A little-endian number of two bytes.
impl Fixed for u16 {
    const WIDTH: usize = 2;

    fn read(bytes: &[u8]) -> u16 {
        match parse_u16(bytes) {
            Ok(number) => number,
            Err(_) => unreachable!(),
        }
    }

    fn write(self, buffer: &mut [u8]) -> usize {
        emit_u16(buffer, self);
        2
    }

    fn byte_len(self) -> usize {
        2
    }
}

/// A little-endian number of four bytes.
impl Fixed for u32 {
    const WIDTH: usize = 4;

    fn read(bytes: &[u8]) -> u32 {
        match parse_u32(bytes) {
            Ok(number) => number,
            Err(_) => unreachable!(),
        }
    }

    fn write(self, buffer: &mut [u8]) -> usize {
        emit_u32(buffer, self);
        4
    }

    fn byte_len(self) -> usize {
        4
    }
}

impl Fixed for BigEndian {
    const WIDTH: usize = 2;

    fn read(bytes: &[u8]) -> BigEndian {
        match parse_u16_be(bytes) {
            Ok(number) => BigEndian { number },
            Err(_) => unreachable!(),
        }
    }

    fn write(self, buffer: &mut [u8]) -> usize {
        emit_u16_be(buffer, self.number);
        2
    }

    fn byte_len(self) -> usize {
        2
    }
}

impl<const N: usize> Fixed for [u8; N] {
    const WIDTH: usize = N;

    fn read(bytes: &[u8]) -> [u8; N] {
        match <[u8; N]>::try_from(bytes) {
            Ok(array) => array,
            Err(_) => unreachable!(),
        }
    }

    fn write(self, buffer: &mut [u8]) -> usize {
        write_bytes(&self, buffer)
    }

    fn byte_len(self) -> usize {
        N
    }
}

/// An IPv4 address in network byte order.
impl Fixed for Ipv4Addr {
    const WIDTH: usize = 4;

    fn read(bytes: &[u8]) -> Ipv4Addr {
        match parse_ipv4_addr(bytes) {
            Ok(address) => address,
            Err(_) => unreachable!(),
        }
    }

    fn write(self, buffer: &mut [u8]) -> usize {
        write_bytes(&self.octets(), buffer)
    }

    fn byte_len(self) -> usize {
        4
    }
}

/// An IPv6 address in network byte order.
impl Fixed for Ipv6Addr {
    const WIDTH: usize = 16;

    fn read(bytes: &[u8]) -> Ipv6Addr {
        match parse_ipv6_addr(bytes) {
            Ok(address) => address,
            Err(_) => unreachable!(),
        }
    }

    fn write(self, buffer: &mut [u8]) -> usize {
        write_bytes(&self.octets(), buffer)
    }

    fn byte_len(self) -> usize {
        self.octets().len()
    }
}
