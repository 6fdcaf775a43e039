// @generated from crates/linkinfo_lines/src/lib.rt by rust/translate/run.

//! The lines of the program `linkinfo_tool`, as a library. It reads lines, and writes whether a
//! list of link info attributes is accepted, its canonical encoding, and whether two lists are
//! equivalent.

mod answers;
mod lines;
mod streams;

pub use crate::linkinfo_lines::streams::{MOST_READS, RunError, run};
