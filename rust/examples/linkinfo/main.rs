// @generated from crates/linkinfo_tool/src/main.rt by rust/translate/run.

//! Reads lines of standard input, and writes a result line for each to standard output: whether a
//! list of link info attributes is accepted, its canonical encoding, and whether two lists are
//! equivalent.

#[allow(dead_code, unused_imports, unused_macros)]
mod linkinfo_lines;

use crate::linkinfo_lines::run;
use std::process::ExitCode;

/// Returns status 0 where all output was written, and else status 1. Arguments are ignored.
fn main() -> ExitCode {
    match run(&mut std::io::stdin(), &mut std::io::stdout()) {
        Ok(()) => ExitCode::SUCCESS,
        Err(_) => ExitCode::FAILURE,
    }
}
