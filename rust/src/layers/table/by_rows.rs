// @generated from crates/linkinfo_table/src/by_rows.rt by rust/translate/run.

//! Reads and writes values by one list of rows.
//!
//! A family defines its list as a macro, with an entry for each row of its table:
//!
//! ```
//! macro_rules! rows {
//!     ($body:ident $given:tt) => {
//!         $body! { InfoGtp $given;
//!             (1, le32, Fd0),
//!             (4, le32, Role as GtpRole),
//!         }
//!     };
//! }
//! ```
//!
//! A row has the type, the shape by the name of its function in `encodables`, and the variant. Its
//! doc comment has the kernel's name of the type. After the variant comes how its field differs
//! from the plain datum of the shape:
//!
//! - `as GtpRole`, a number type, and `as &GreEncapType` if the number is made from a reference;
//! - `as flags IpVlanFlags`, a flag set;
//! - `by scrub_of, is_by_default`, two functions, from the datum and to it;
//! - `or TtlInheritFlag`, the variant of the empty payload.
//!
//! A row with a payload that the family reads and writes itself has the word `custom` as its shape.
//! After the rows, `; else Ipv4Flags` names variants that the family reads and writes before it
//! consults the list. Types and functions in the list are resolved where the family expands it:
//! `Flags`, [`Text`] for a name, and [`Bytes`] for opaque bytes, must be in scope there.
//!
//! [`Text`]: crate::layers::nla_frame::Text
//! [`Bytes`]: crate::layers::nla_frame::Bytes

/// Stores the decoded value of an attribute, by the rows: `rows!(store_by_rows(slot, decoded))`.
#[doc(hidden)]
#[macro_export]
macro_rules! store_by_rows {
    (
        $family:ident ($slot:ident, $decoded:ident);
        $((
            $number:literal, $shape:ident, $variant:ident $(or $empty:ident)?
            $(as $($named:tt)+)? $(by $from:ident, $to:ident)?
        )),* $(,)?
        $(; else $($elsewhere:ident),+)?
    ) => {{
        let (kind, datum) = match $decoded {
            $crate::layers::table::Decoded::Typed(kind, datum) => (kind, datum),
            $crate::layers::table::Decoded::Kept(nla) => return $slot.store($family::Other(nla)),
        };
        match kind {
            $($number => $crate::store_row!(
                $slot, datum, $shape,
                $family $variant $(or $empty)? $(as $($named)+)? $(by $from)?
            ),)*
            _ => unreachable!(),
        }
    }};
}

/// Stores the value of one row's datum.
#[doc(hidden)]
#[macro_export]
macro_rules! store_row {
    ($slot:ident, $datum:ident, custom, $family:ident $variant:ident) => {
        unreachable!()
    };
    ($slot:ident, $datum:ident, mark, $family:ident $variant:ident) => {
        $slot.store($family::$variant)
    };
    ($slot:ident, $datum:ident, name, $family:ident $variant:ident) => {
        $slot.store($family::$variant(Text::copy_of($datum.text_or_empty())?))
    };
    ($slot:ident, $datum:ident, raw, $family:ident $variant:ident) => {
        $slot.store($family::$variant(Bytes::copy_of($datum.bytes_or_empty())?))
    };
    (
        $slot:ident, $datum:ident, empty_or_byte,
        $family:ident $variant:ident or $empty:ident
    ) => {
        match $datum.byte_or_none() {
            Some(byte) => $slot.store($family::$variant(byte)),
            None => $slot.store($family::$empty),
        }
    };
    ($slot:ident, $datum:ident, $shape:ident, $family:ident $variant:ident) => {
        $slot.store($family::$variant($crate::datum_of!($shape, $datum)))
    };
    (
        $slot:ident, $datum:ident, $shape:ident,
        $family:ident $variant:ident as flags $set:ident
    ) => {
        $slot.store($family::$variant($set::from_bits_retain(
            $crate::datum_of!($shape, $datum),
        )))
    };
    (
        $slot:ident, $datum:ident, $shape:ident,
        $family:ident $variant:ident as $(&)? $named:ident
    ) => {
        $slot.store($family::$variant($named::from($crate::datum_of!(
            $shape, $datum
        ))))
    };
    (
        $slot:ident, $datum:ident, $shape:ident,
        $family:ident $variant:ident by $from:ident
    ) => {
        $slot.store($family::$variant($from($crate::datum_of!($shape, $datum))))
    };
}

/// Builds the datum of a shape.
#[doc(hidden)]
#[macro_export]
macro_rules! datum_of {
    (u8, $datum:ident) => {
        $datum.u8_or_zero()
    };
    (le16, $datum:ident) => {
        $datum.u16_or_zero()
    };
    (be16, $datum:ident) => {
        $datum.u16_or_zero()
    };
    (le32, $datum:ident) => {
        $datum.u32_or_zero()
    };
    (be32, $datum:ident) => {
        $datum.u32_or_zero()
    };
    (le64, $datum:ident) => {
        $datum.u64_or_zero()
    };
    (be64, $datum:ident) => {
        $datum.u64_or_zero()
    };
    (i32, $datum:ident) => {
        $datum.i32_or_zero()
    };
    (truth, $datum:ident) => {
        $datum.bool_or_false()
    };
    (truth_one, $datum:ident) => {
        $datum.bool_or_false()
    };
    (scrub, $datum:ident) => {
        $datum.bool_or_false()
    };
    (v4, $datum:ident) => {
        $datum.ipv4_or_unspecified()
    };
    (geneve_v4, $datum:ident) => {
        $datum.ipv4_or_unspecified()
    };
    (v6, $datum:ident) => {
        $datum.ipv6_or_unspecified()
    };
    (geneve_v6, $datum:ident) => {
        $datum.ipv6_or_unspecified()
    };
    (ip, $datum:ident) => {
        $datum.ip_or_unspecified()
    };
    (mac, $datum:ident) => {
        $datum.mac_or_zeros()
    };
    (be_pair, $datum:ident) => {
        $datum.u16_pair_or_zeros()
    };
    (flag_pair, $datum:ident) => {
        $datum.u32_pair_or_zeros()
    };
}

/// The type, shape and datum of a value, or its opaque attribute, by the rows:
/// `rows!(encodable_by_rows self)`.
#[doc(hidden)]
#[macro_export]
macro_rules! encodable_by_rows {
    (
        $family:ident $value:tt;
        $((
            $number:literal, $shape:ident, $variant:ident $(or $empty:ident)?
            $(as $($named:tt)+)? $(by $from:ident, $to:ident)?
        )),* $(,)?
        $(; else $($elsewhere:ident),+)?
    ) => {
        match $value {
            $($crate::row_pattern!($shape, $family $variant, x) => $crate::encodable_row!(
                $number, $shape, x $(or $empty)? $(as $($named)+)? $(by $to)?
            ),
            $($family::$empty => $crate::layers::table::encodables::$shape($number, None),)?)*
            $($($family::$elsewhere(_) => unreachable!(),)+)?
            $family::Other(nla) => $crate::layers::table::Encodable::Kept(nla),
        }
    };
}

/// The pattern of a row's variant.
#[doc(hidden)]
#[macro_export]
macro_rules! row_pattern {
    (custom, $family:ident $variant:ident, $x:ident) => {
        $family::$variant(_)
    };
    (mark, $family:ident $variant:ident, $x:ident) => {
        $family::$variant
    };
    ($shape:ident, $family:ident $variant:ident, $x:ident) => {
        $family::$variant($x)
    };
}

/// The [`Encodable`] of one row's value.
///
/// [`Encodable`]: crate::layers::table::Encodable
#[doc(hidden)]
#[macro_export]
macro_rules! encodable_row {
    ($number:literal, custom, $x:ident) => {
        $crate::layers::table::Encodable::Custom
    };
    ($number:literal, mark, $x:ident) => {
        $crate::layers::table::encodables::mark($number)
    };
    ($number:literal, name, $x:ident) => {
        $crate::layers::table::encodables::name($number, $x.as_str())
    };
    ($number:literal, raw, $x:ident) => {
        $crate::layers::table::encodables::raw($number, $x.as_slice())
    };
    ($number:literal, $shape:ident, $x:ident) => {
        $crate::layers::table::encodables::$shape($number, *$x)
    };
    ($number:literal, $shape:ident, $x:ident or $empty:ident) => {
        $crate::layers::table::encodables::$shape($number, Some(*$x))
    };
    ($number:literal, $shape:ident, $x:ident as flags $set:ident) => {
        $crate::layers::table::encodables::$shape($number, $x.bits())
    };
    ($number:literal, $shape:ident, $x:ident as &$named:ident) => {
        $crate::layers::table::encodables::$shape($number, <$crate::number_of!($shape)>::from($x))
    };
    ($number:literal, $shape:ident, $x:ident as $named:ident) => {
        $crate::layers::table::encodables::$shape($number, <$crate::number_of!($shape)>::from(*$x))
    };
    ($number:literal, $shape:ident, $x:ident by $to:ident) => {
        $crate::layers::table::encodables::$shape($number, $to(*$x))
    };
}

/// The number type of a shape.
#[doc(hidden)]
#[macro_export]
macro_rules! number_of {
    (u8) => {
        u8
    };
    (le16) => {
        u16
    };
    (be16) => {
        u16
    };
    (le32) => {
        u32
    };
    (be32) => {
        u32
    };
    (le64) => {
        u64
    };
    (be64) => {
        u64
    };
}
