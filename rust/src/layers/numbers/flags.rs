// @generated from crates/linkinfo_numbers/src/flags.rt by rust/translate/run.

//! Flag sets that keep every bit.

use bitflags::Flags;

/// A flag set that keeps every bit: each number of its width is a valid set, and converting it back
/// gives that number.
pub trait KeepsEveryBit: Flags {}

/// The bits of the set made from a number by `from_bits`, which never returns `None`, and by
/// `from_bits_retain`. Both are that number.
///
/// # Panics
///
/// May panic where a condition of the caller that is named here does not hold. Where it does
/// not panic then, the result has no meaning.
#[must_use]
pub fn bits_again<F: KeepsEveryBit>(bits: F::Bits) -> (Option<F::Bits>, F::Bits) {
    let again = match F::from_bits(bits) {
        Some(set) => Some(set.bits()),
        None => None,
    };
    (again, F::from_bits_retain(bits).bits())
}
