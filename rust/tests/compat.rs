//! The calls that replace those of Rattle's standard library.

use linkinfo::AllocError;
use linkinfo::compat::{
    FillZeros, NextMultiple, ToSigned, ToUnsigned, TryFromText, TryToVec, TryVec, narrow_u8,
    narrow_u16, narrow_u32,
};
use std::error::Error;
use std::io;

#[test]
fn zeros_of_every_length() {
    for len in 0..9 {
        let mut bytes = vec![255; len + 2];
        bytes[1..1 + len].fill_zeros();
        let mut wanted = vec![0; len + 2];
        (wanted[0], wanted[len + 1]) = (255, 255);
        assert_eq!(bytes, wanted);
    }
}

#[test]
fn multiples_of_four() {
    let multiples: Vec<usize> = (0..10).map(usize::next_multiple_of_four).collect();
    assert_eq!(multiples, [0, 4, 4, 4, 4, 8, 8, 8, 8, 12]);
    assert_eq!((usize::MAX - 3).next_multiple_of_four(), usize::MAX - 3);
}

#[test]
fn numbers_that_fit() {
    assert_eq!((narrow_u8(255_usize), narrow_u8(0_u32)), (255, 0));
    assert_eq!((narrow_u16(65_535_usize), narrow_u16(0_u64)), (65_535, 0));
    assert_eq!(narrow_u32(4_294_967_295_usize), 4_294_967_295);
    assert_eq!((-1_i32).to_unsigned(), 4_294_967_295);
    assert_eq!(i32::MIN.to_unsigned(), 2_147_483_648);
    assert_eq!(4_294_967_295_u32.to_signed(), -1);
    assert_eq!(2_147_483_648_u32.to_signed(), i32::MIN);
}

#[test]
#[should_panic(expected = "8 bits")]
fn number_above_8_bits() {
    narrow_u8(256_usize);
}

#[test]
#[should_panic(expected = "16 bits")]
fn number_above_16_bits() {
    narrow_u16(65_536_usize);
}

#[test]
#[should_panic(expected = "32 bits")]
fn number_above_32_bits() {
    narrow_u32(4_294_967_296_usize);
}

#[test]
fn vectors() {
    let mut items = Vec::try_with_room(2).unwrap();
    assert!(items.is_empty() && items.capacity() >= 2);
    for item in 0..5_u8 {
        items.try_push(item).unwrap();
    }
    assert_eq!(items, [0, 1, 2, 3, 4]);
    items.try_reserve_room(7).unwrap();
    let room = items.capacity();
    assert!(room >= 12);
    items.try_reserve_room(room - 5).unwrap();
    assert_eq!((items.capacity(), items.len()), (room, 5));
    items.try_resize(3, 9).unwrap();
    assert_eq!(items, [0, 1, 2]);
    items.try_resize(5, 9).unwrap();
    assert_eq!(items, [0, 1, 2, 9, 9]);
    items.try_extend_from_slice(&[7]).unwrap();
    assert_eq!(items, [0, 1, 2, 9, 9, 7]);
    assert_eq!(items[..2].try_to_vec().unwrap(), [0, 1]);
    assert_eq!(Vec::try_from_array([1, 2]).unwrap(), [1, 2]);
    assert_eq!(String::try_from_text("vxlan").unwrap(), "vxlan");
}

/// More than an address space has is an error, not a panic.
#[test]
fn requests_that_no_allocator_grants() {
    assert_eq!(Vec::<u64>::try_with_room(usize::MAX), Err(AllocError));
    assert_eq!(Vec::<u8>::new().try_resize(usize::MAX, 0), Err(AllocError));
    assert_eq!(vec![1_u16].try_reserve_room(usize::MAX), Err(AllocError));
}

#[test]
fn errors() {
    let error: Box<dyn Error> = AllocError.into();
    assert_eq!(error.to_string(), "memory allocation failed");
    let error = io::Error::from(AllocError);
    assert_eq!(error.kind(), io::ErrorKind::OutOfMemory);
}
