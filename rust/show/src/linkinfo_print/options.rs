// @generated from crates/linkinfo_print/src/options.rt by rust/translate/run.

//! The options of the program.

/// What the input is, and what is written of it.
#[derive(Clone, Copy, Debug, PartialEq, Eq)]
pub enum Input {
    /// A list in hex on each line: each is printed.
    Lists,
    /// Two lists in hex on each line: where they differ first.
    Differences,
    /// Two lists in hex on each line: what of the second the first does not meet.
    Unmet,
    /// Netlink messages, as a socket gives them.
    Messages,
    /// A capture of an nlmon device (a pcap file).
    Capture,
}

impl Input {
    /// Whether each line is one list.
    pub(crate) fn has_single_lists(self) -> bool {
        match self {
            Input::Lists => true,
            Input::Differences | Input::Unmet | Input::Messages | Input::Capture => false,
        }
    }

    /// Whether an error ends the input, given whether it breaks a stream of messages.
    pub(crate) fn ends_at_error(self, breaks: bool) -> bool {
        match self {
            Input::Messages => breaks,
            Input::Lists | Input::Differences | Input::Unmet | Input::Capture => false,
        }
    }
}

/// How a run reads and writes.
#[derive(Clone, Copy, Debug, PartialEq, Eq)]
pub struct Options {
    /// What the input is.
    pub input: Input,
    /// Whether JSON is written instead of text.
    pub json: bool,
}

/// What a command line asks for.
#[derive(Clone, Copy, Debug, PartialEq, Eq)]
pub enum Request {
    /// A run over standard input.
    Run(Options),
    /// The text of `--help`.
    Help,
    /// The text of `--version`.
    Version,
}

/// What the words so far have said.
#[derive(Clone, Copy)]
struct Seen {
    input: Option<Input>,
    json: bool,
}

/// What a word does.
#[derive(Clone, Copy)]
enum Step {
    /// It adds to what the words before it have said.
    Continues(Seen),
    /// It is a request of its own, whatever follows.
    Ends(Request),
    /// It is no option, or says a second time what the input is.
    Refused,
}

impl Seen {
    fn with_input(self, input: Input) -> Step {
        if self.input.is_some() {
            return Step::Refused;
        }
        Step::Continues(Seen {
            input: Some(input),
            json: self.json,
        })
    }

    fn step(self, word: &[u8]) -> Step {
        if word == b"--json".as_slice() {
            Step::Continues(Seen {
                input: self.input,
                json: true,
            })
        } else if word == b"--messages".as_slice() {
            self.with_input(Input::Messages)
        } else if word == b"--pcap".as_slice() {
            self.with_input(Input::Capture)
        } else if word == b"--diff".as_slice() {
            self.with_input(Input::Differences)
        } else if word == b"--unmet".as_slice() {
            self.with_input(Input::Unmet)
        } else if word == b"--help".as_slice() {
            Step::Ends(Request::Help)
        } else if word == b"--version".as_slice() {
            Step::Ends(Request::Version)
        } else {
            Step::Refused
        }
    }

    fn options(self) -> Options {
        Options {
            input: self.input.unwrap_or(Input::Lists),
            json: self.json,
        }
    }
}

/// Returns what the words of a command line ask for, without the program's name. `--help` and
/// `--version` count wherever they are, but after a word that is refused. The error is the index of
/// a word that is no option, or that says a second time what the input is.
pub fn request_of(words: &[String]) -> Result<Request, usize> {
    let mut seen = Seen {
        input: None,
        json: false,
    };
    for index in 0..words.len() {
        match seen.step(words[index].as_bytes()) {
            Step::Continues(next) => seen = next,
            Step::Ends(request) => return Ok(request),
            Step::Refused => return Err(index),
        }
    }
    Ok(Request::Run(seen.options()))
}
