// @generated from crates/linkinfo_show/src/main.rt by rust/translate/run.

//! Prints lists of link info for people: in hex on lines, in netlink messages, or in a capture.

#![forbid(unsafe_code)]
#![allow(
    dead_code,
    unused_imports,
    reason = "the text is that of proved libraries, of which this program does not use every item"
)]
#![allow(
    clippy::manual_map,
    clippy::manual_range_contains,
    clippy::needless_range_loop,
    clippy::while_let_on_iterator,
    reason = "the text is that of the proved source, where these forms are the ones with proofs"
)]

#[macro_use]
mod compat;
mod linkinfo_print;
mod linkinfo_view;
#[cfg(test)]
mod tests;

use crate::compat::calls::*;
use crate::linkinfo_print::{Options, Request, escaped, request_of, run};
use std::process::ExitCode;
use std::{env, io};

/// The version of the program.
const VERSION: &str = "linkinfo_show 0.1";

/// What `--help` prints.
const HELP: &str = "\
Usage: linkinfo_show [--json] [--messages | --pcap | --diff | --unmet] <INPUT

Prints the contents of IFLA_LINKINFO, the kind of a network link and its attributes.

Input:
                 a list in hex on each line, '-' for one without attributes
  --messages     messages of a netlink socket, as recv returns them
  --pcap         a capture of an nlmon device, in the format of pcap
  --diff         two lists in hex on each line: where they differ first
  --unmet        two lists in hex on each line: what of the second the first
                 does not meet

Output:
  --json         one JSON object on a line, instead of text

  --help         prints this
  --version      prints the version

Errors are written to standard error. The status is 0 if all of the input was
accepted, 1 if some of it was not, and 2 for a usage error and where reading,
writing or an allocation failed.
";

/// The status where the run itself failed.
const FAILED: u8 = 2;

/// What `main` does after the words of the command line.
fn show(options: Options) -> io::Result<ExitCode> {
    match run(
        options,
        &mut std::io::stdin(),
        &mut std::io::stdout(),
        &mut std::io::stderr(),
    ) {
        Ok(true) => Ok(ExitCode::SUCCESS),
        Ok(false) => Ok(ExitCode::FAILURE),
        Err(error) => {
            try_eprintln!("linkinfo_show: {error}")?;
            Ok(ExitCode::from(FAILED))
        }
    }
}

/// The words of the command line after the program's name.
fn words() -> io::Result<Vec<String>> {
    let mut words = Vec::new();
    for word in crate::compat::env::args()?.skip(1) {
        words.try_push(word)?;
    }
    Ok(words)
}

fn answer() -> io::Result<ExitCode> {
    let words = words()?;
    match request_of(&words) {
        Ok(Request::Run(options)) => show(options),
        Ok(Request::Help) => {
            try_print!("{HELP}")?;
            Ok(ExitCode::SUCCESS)
        }
        Ok(Request::Version) => {
            try_println!("{VERSION}")?;
            Ok(ExitCode::SUCCESS)
        }
        Err(index) => {
            let word = words.get(index).map_or("", String::as_str);
            let word = escaped(word.as_bytes())?;
            try_eprintln!("linkinfo_show: '{word}' is no option, or one too many; try --help")?;
            Ok(ExitCode::from(FAILED))
        }
    }
}

/// Returns status 0 where all of the input was accepted, 1 where some of it was not, and 2 for a
/// usage error and where reading, writing or an allocation failed.
fn main() -> ExitCode {
    match answer() {
        Ok(code) => code,
        Err(_) => ExitCode::from(FAILED),
    }
}
