//! Calls of the libraries of the sources that Rust's libraries do not have: those that report an
//! allocation failure, and those that return an error where Rust's panic.

pub use linkinfo::compat::{AllocError, narrow_u8};

/// JSON, by the crate `serde_json`.
pub mod serde_json {
    use super::calls::{TryFromText, TryVec};
    use linkinfo::AllocError;
    pub use serde_json::{Map, Number, Value};

    /// Adds an item.
    pub fn push(items: &mut Vec<Value>, item: Value) -> Result<(), AllocError> {
        Ok(items.try_push(item)?)
    }

    /// Adds a member, or replaces the one of this name. It aborts where the object cannot grow, as
    /// `Map` does.
    pub fn put(
        members: &mut Map<String, Value>,
        name: &str,
        value: Value,
    ) -> Result<(), AllocError> {
        members.insert(String::try_from_text(name)?, value);
        Ok(())
    }
}

/// Hex digits, by the crate `hex`.
pub mod hex {
    use super::calls::{TryFromText, TryVec};
    use linkinfo::AllocError;

    /// The bytes in hex, in lower case.
    pub fn encode(bytes: &[u8]) -> Result<String, AllocError> {
        let mut digits = Vec::try_with_room(0)?;
        digits.try_resize(2 * bytes.len(), 0)?;
        match hex::encode_to_slice(bytes, &mut digits) {
            Ok(()) => String::from_utf8(digits).map_err(|_| AllocError),
            Err(_) => String::try_from_text(""),
        }
    }
}

/// The words of the command line.
pub mod env {
    use std::env::args_os;
    use std::io::{Error, ErrorKind, Result};
    use std::vec::IntoIter;

    /// The words, of which the first is the program's name. A word that is not UTF-8 is an error.
    pub fn args() -> Result<IntoIter<String>> {
        let words = args_os().map(|word| word.into_string());
        match words.collect::<std::result::Result<Vec<_>, _>>() {
            Ok(words) => Ok(words.into_iter()),
            Err(_) => Err(Error::from(ErrorKind::InvalidData)),
        }
    }
}

/// The traits of fallible calls, and what the macros call.
pub mod calls {
    use linkinfo::AllocError;
    pub use linkinfo::compat::{TryFromText, TryVec};
    use serde_json::Value;
    use std::fmt::{Arguments, Display, Error, Write};
    use std::io;

    /// A copy of a value. It aborts where memory runs out.
    pub trait TryClone: Clone {
        /// The copy.
        fn try_clone(&self) -> Result<Self, AllocError> {
            Ok(self.clone())
        }
    }

    impl<T: Clone> TryClone for T {}

    /// The calls of `String` that allocate.
    pub trait TryString {
        /// Adds a character.
        fn try_push(&mut self, character: char) -> Result<(), AllocError>;
        /// Adds a text.
        fn try_push_str(&mut self, text: &str) -> Result<(), AllocError>;
    }

    impl TryString for String {
        fn try_push(&mut self, character: char) -> Result<(), AllocError> {
            self.try_reserve(character.len_utf8())?;
            self.push(character);
            Ok(())
        }

        fn try_push_str(&mut self, text: &str) -> Result<(), AllocError> {
            self.try_reserve(text.len())?;
            self.push_str(text);
            Ok(())
        }
    }

    /// A text as JSON.
    pub trait TryFromStr: Sized {
        /// A string of this text.
        fn try_from_str(text: &str) -> Result<Self, AllocError>;
    }

    impl TryFromStr for Value {
        fn try_from_str(text: &str) -> Result<Value, AllocError> {
            Ok(Value::String(String::try_from_text(text)?))
        }
    }

    /// A value as a text.
    pub trait TryToText: Display {
        /// What `Display` writes.
        fn try_to_text(&self) -> Result<String, AllocError> {
            text_of(format_args!("{self}"))
        }
    }

    impl TryToText for Value {}

    /// A text that reports where it cannot grow.
    struct Growing(String);

    impl Write for Growing {
        fn write_str(&mut self, text: &str) -> Result<(), Error> {
            self.0.try_push_str(text).map_err(|_| Error)
        }
    }

    /// The text of `try_format!`.
    pub fn text_of(arguments: Arguments<'_>) -> Result<String, AllocError> {
        let mut text = Growing(String::new());
        text.write_fmt(arguments).map_err(|_| AllocError)?;
        Ok(text.0)
    }

    /// The vector of `try_vec!`.
    pub fn repeated<T: Copy>(item: T, len: usize) -> Result<Vec<T>, AllocError> {
        let mut items = Vec::try_with_room(len)?;
        items.try_resize(len, item)?;
        Ok(items)
    }

    /// Writes what `try_print!` and its like print.
    pub fn printed<W: io::Write>(mut to: W, text: Arguments<'_>) -> io::Result<()> {
        to.write_fmt(text)?;
        to.flush()
    }
}

macro_rules! try_format {
    ($($parts:tt)*) => { $crate::compat::calls::text_of(format_args!($($parts)*)) };
}

macro_rules! try_vec {
    ($item:expr; $len:expr) => {
        $crate::compat::calls::repeated($item, $len)
    };
}

macro_rules! try_print {
    ($($parts:tt)*) => {
        $crate::compat::calls::printed(std::io::stdout(), format_args!($($parts)*))
    };
}

macro_rules! try_println {
    ($($parts:tt)*) => { try_print!("{}\n", format_args!($($parts)*)) };
}

macro_rules! try_eprintln {
    ($($parts:tt)*) => {
        $crate::compat::calls::printed(
            std::io::stderr(),
            format_args!("{}\n", format_args!($($parts)*)),
        )
    };
}
