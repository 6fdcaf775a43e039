// @generated from crates/linkinfo_messages/src/integers.rt by rust/translate/run.

//! Integers in byte strings.

/// The 16-bit little-endian integer at this offset.
#[inline(always)]
pub(crate) fn le_u16(bytes: &[u8], at: usize) -> u16 {
    u16::from_le_bytes([bytes[at], bytes[at + 1]])
}

/// The 32-bit little-endian integer at this offset.
#[inline(always)]
pub(crate) fn le_u32(bytes: &[u8], at: usize) -> u32 {
    u32::from_le_bytes([bytes[at], bytes[at + 1], bytes[at + 2], bytes[at + 3]])
}

/// The 16-bit big-endian integer at this offset.
#[inline(always)]
pub(crate) fn be_u16(bytes: &[u8], at: usize) -> u16 {
    u16::from_be_bytes([bytes[at], bytes[at + 1]])
}

/// The 32-bit integer at this offset, in big-endian or little-endian byte order.
#[inline(always)]
pub(crate) fn u32_in(big_endian: bool, bytes: &[u8], at: usize) -> u32 {
    if big_endian {
        u32::from_be_bytes([bytes[at], bytes[at + 1], bytes[at + 2], bytes[at + 3]])
    } else {
        le_u32(bytes, at)
    }
}
