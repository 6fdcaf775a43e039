// @generated from crates/linkinfo_tests/src/tests/lines.rt by rust/translate/run.

//! The lines of the program, with input and output in memory.

use super::assertions::{assert_equal, assert_holds};
use crate::linkinfo_lines::{RunError, run};
use crate::support::*;

/// Lines of each command, and lines that are none.
pub const INPUT: &[u8] = b"check 090001007866726d00000000140002000800010002000000080002000a000000
canon 090001007866726d00000000140002000800010002000000080002000a000000
canon 0800010070666370
check 0800020000000000
canon -
check 0
";

/// The output for these lines.
pub const ANSWER: &[u8] = b"ok
090001007866726d00000000140002000800010002000000080002000a000000
090001007066637000000000
err linkinfo 2 order
-
bad line
";

/// A run with input and output in memory.
fn answer_in_memory(input: &[u8]) -> Result<Vec<u8>, RunError> {
    let mut reader = input;
    let mut output = Vec::new();
    run(&mut reader, &mut output)?;
    Ok(output)
}

/// Asserts that a run over the input writes these bytes.
fn assert_answered(input: &[u8], wanted: &[u8]) {
    let output = answer_in_memory(input).expect("an answer");
    assert_equal(&input, &output.as_slice(), &wanted);
}

#[test]
fn lines_in_memory() {
    let mut input = INPUT;
    let mut output = Vec::new();
    let ended = run(&mut input, &mut output);
    assert_equal(&INPUT, &ended, &Ok(()));
    assert_equal(&INPUT, &output.as_slice(), &ANSWER);
    assert_holds(&INPUT, input.is_empty());
    assert_answered(b"", b"");
}

/// A kind whose name has 65531 letters is accepted, and is too long to be written with its closing
/// NUL.
#[test]
fn a_list_that_does_not_fit() {
    let letters = "61".try_repeat(65_531).expect("memory");
    let input = try_format!("check ffff0100{letters}\ncanon ffff0100{letters}\ncanon -");
    let input = input.expect("memory");
    assert_answered(input.as_bytes(), b"ok\nunfit\n-\n");
}

/// Asserts that the error is displayed as this text, and is equal to its clone.
fn assert_displays(error: RunError, wanted: &str) {
    let text = error.try_to_text().expect("memory");
    assert_equal(&wanted, &text.as_str(), &wanted);
    assert_equal(&wanted, &error.try_clone().expect("a clone"), &error);
}

#[test]
fn displays_errors() {
    assert_displays(RunError::Read, "read");
    assert_displays(RunError::Write, "write");
    assert_displays(RunError::Memory, "memory");
}
