// @generated from crates/linkinfo_print/src/lines.rt by rust/translate/run.

//! What is printed for a line.

use crate::compat::AllocError;
use crate::compat::serde_json::Value;
use crate::linkinfo_print::compare::{PairError, Question, difference_json, unmet_json};
use crate::linkinfo_print::list::{ListError, list_json};
use crate::linkinfo_print::options::Input;
use crate::linkinfo_print::print::Printer;
use crate::linkinfo_print::report::Printed;

impl Printer {
    /// Prints a line, without the spaces at its ends. An empty one prints nothing.
    pub(crate) fn print_line(&mut self, number: u64, line: &[u8]) -> Result<(), AllocError> {
        let line = trimmed(line);
        if line.is_empty() {
            return Ok(());
        }
        self.print_trimmed(number, line)
    }

    /// Prints a line without spaces at its ends, which is not empty.
    fn print_trimmed(&mut self, number: u64, line: &[u8]) -> Result<(), AllocError> {
        if self.options.input.has_single_lists() {
            return self.print_list_line(number, line);
        }
        let Some(space) = memchr::memchr(b' ', line) else {
            return self.refuse(number, ONE_WORD);
        };
        self.print_pair_line(number, &line[..space], without_front(&line[space..]))
    }

    /// Prints the list whose hex a line is.
    fn print_list_line(&mut self, number: u64, line: &[u8]) -> Result<(), AllocError> {
        let Some(bytes) = read_hex(line)? else {
            return self.refuse(number, NOT_HEX);
        };
        match list_json(&bytes) {
            Ok(list) => self.report.print(Printed::List, &list),
            Err(ListError::Memory) => Err(AllocError),
            Err(ListError::Rejected(at)) => self.refuse_list(number, "", at),
        }
    }

    /// Prints the answer to the question of the input about two lists.
    fn print_pair_line(
        &mut self,
        number: u64,
        first: &[u8],
        second: &[u8],
    ) -> Result<(), AllocError> {
        let Some(first) = read_hex(first)? else {
            return self.refuse(number, format_args!("first list: {NOT_HEX}"));
        };
        let Some(second) = read_hex(second)? else {
            return self.refuse(number, format_args!("second list: {NOT_HEX}"));
        };
        let question = question_of(self.options.input);
        match answer_json(question, &first, &second) {
            Ok(pair) => self.report.print(Printed::Pair, &pair),
            Err(PairError::Memory) => Err(AllocError),
            Err(PairError::First(at)) => self.refuse_list(number, "first list: ", at),
            Err(PairError::Second(at)) => self.refuse_list(number, "second list: ", at),
        }
    }
}

/// Some bytes without the white space at their front.
fn without_front(bytes: &[u8]) -> &[u8] {
    bytes.trim_ascii_start()
}

/// Some bytes without the white space at their ends.
fn trimmed(bytes: &[u8]) -> &[u8] {
    without_front(bytes).trim_ascii_end()
}

/// What an input asks of two lists.
fn question_of(input: Input) -> Question {
    match input {
        Input::Unmet => Question::Met,
        Input::Lists | Input::Differences | Input::Messages | Input::Capture => Question::Equal,
    }
}

/// The answer to a question about two lists as JSON.
fn answer_json(question: Question, a: &[u8], b: &[u8]) -> Result<Value, PairError> {
    match question {
        Question::Equal => difference_json(a, b),
        Question::Met => unmet_json(a, b),
    }
}

/// What is wrong with a line of two lists that has no space.
const ONE_WORD: &str = "two lists are needed, with a space between them";

/// What is wrong with a word that is no list.
const NOT_HEX: &str = "a list is an even number of hex digits, or '-' for no attributes";

/// Decodes a list: hex digits, or `-` for no attributes. Returns `None` if it is neither.
fn read_hex(word: &[u8]) -> Result<Option<Vec<u8>>, AllocError> {
    if word == b"-".as_slice() {
        return Ok(Some(Vec::new()));
    }
    if word.is_empty() {
        return Ok(None);
    }
    let mut bytes = try_vec![0; word.len() / 2]?;
    if hex::decode_to_slice(word, bytes.as_mut_slice()).is_err() {
        return Ok(None);
    }
    Ok(Some(bytes))
}
