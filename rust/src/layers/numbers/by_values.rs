// @generated from crates/linkinfo_numbers/src/by_values.rt by rust/translate/run.

//! The bodies of the calls of a number type, by one list of its values.
//!
//! A type defines its list as a macro, with an entry for each value that has a name:
//!
//! ```
//! macro_rules! modes {
//!     ($body:ident $given:tt) => {
//!         $body! { AmtMode $given;
//!             (Gateway, 0, "gateway"),
//!             (Relay, 1, "relay"),
//!         }
//!     };
//! }
//! ```
//!
//! An entry has the variant, the number, and the word if the type has words. Every other number is
//! in the variant `Other`.

/// Makes the value of a number: `modes!(value_of_number number)`.
macro_rules! value_of_number {
    (
        $values:ident $given:ident;
        $(($variant:ident, $number:literal $(, $word:literal)?),)*
    ) => {
        match $given {
            $($number => $values::$variant,)*
            _ => $values::Other($given),
        }
    };
}

/// Gives the number of a value: `modes!(number_of_value mode)`.
macro_rules! number_of_value {
    (
        $values:ident $value:ident;
        $(($variant:ident, $number:literal $(, $word:literal)?),)*
    ) => {
        match $value {
            $($values::$variant => $number,)*
            $values::Other(number) => number,
        }
    };
}

/// Writes the word of a value: `modes!(write_word(self, f))`. A number without a name is written
/// alone, or in the text given for it: `roles!(write_word(self, f, "unknown({})"))`.
macro_rules! write_word {
    (
        $values:ident ($value:ident, $f:ident $(, $text:literal)?);
        $(($variant:ident, $number:literal, $word:literal),)*
    ) => {
        match $value {
            $($values::$variant => $f.write_str($word),)*
            $values::Other(number) => {
                crate::layers::numbers::by_values::write_number!(number, $f $(, $text)?)
            }
        }
    };
}

/// Writes a number without a name.
macro_rules! write_number {
    ($number:ident, $f:ident) => {
        core::fmt::Display::fmt($number, $f)
    };
    ($number:ident, $f:ident, $text:literal) => {
        write!($f, $text, $number)
    };
}

/// Makes the value that a word names, or the error of a family: `modes!(value_of_word(word,
/// Family::Amt))`.
macro_rules! value_of_word {
    (
        $values:ident ($given:ident, $family:path);
        $(($variant:ident, $number:literal, $word:literal),)*
    ) => {
        match $given {
            $($word => Ok($values::$variant),)*
            _ => Err(crate::layers::numbers::word::word_error($family)),
        }
    };
}

pub(crate) use number_of_value;
pub(crate) use value_of_number;
pub(crate) use value_of_word;
pub(crate) use write_number;
pub(crate) use write_word;
