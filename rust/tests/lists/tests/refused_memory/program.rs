// @generated from crates/linkinfo_tests/src/tests/refused_memory/program.rt by rust/translate/run.

//! A run of the program, with input and output in memory.

use crate::linkinfo_lines::{RunError, run};
use crate::tests::assertions::assert_equal;
use crate::tests::lines::{ANSWER, INPUT};
use crate::tests::streams::ArrayWriter;

/// The result of a run over the input, and whether the writer then has the whole output, or
/// nothing.
fn ends() -> (Result<(), RunError>, bool) {
    let mut input = INPUT;
    let mut writer = ArrayWriter::new(128, true);
    let ended = run(&mut input, &mut writer);
    let wanted = if ended.is_ok() {
        ANSWER
    } else {
        b"".as_slice()
    };
    let is_written = writer.as_slice() == wanted;
    (ended, is_written)
}

/// A run returns `Memory` and has written nothing, or writes the result of each line.
#[test]
fn run_over_memory() {
    let answer = match ends() {
        (Err(RunError::Memory), true) => ends(),
        answer => answer,
    };
    assert_equal(&INPUT, &answer, &(Ok(()), true));
}
