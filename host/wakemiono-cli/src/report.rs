//! What a command has to say, and how the program ends.

use std::io::{self, Write};
use std::process::ExitCode;

use crate::json::Json;
use crate::printer::Printer;
use crate::refused::Refused;
use crate::terminal::Style;

/// How the program ends.
#[derive(Clone, Copy, Debug, PartialEq, Eq)]
pub enum Status {
    /// 0: the answer is there, even where it is none.
    Good,
    /// 1: a refusal, or two modules that are not the same.
    Bad,
    /// 2: the program was not used as it is meant to be, or a file could not be read or written.
    Misuse,
}

impl Status {
    /// Good or bad, by whether all is well.
    pub fn good_if(well: bool) -> Status {
        if well {
            Status::Good
        } else {
            Status::Bad
        }
    }

    fn code(self) -> ExitCode {
        ExitCode::from(match self {
            Status::Good => 0,
            Status::Bad => 1,
            Status::Misuse => 2,
        })
    }
}

/// What a command has to say at its end. A command with many rows has printed them already, as they came.
#[derive(Debug)]
pub struct Report {
    /// For standard output.
    pub out: Vec<u8>,
    /// For standard error: words for a person, which no script needs to read.
    pub said: String,
    /// How the program ends.
    pub status: Status,
}

impl Report {
    /// Lines for standard output, and nothing wrong.
    pub fn good(out: impl Into<Vec<u8>>) -> Report {
        Report::ending(Status::Good, out)
    }

    /// Lines for standard output, and an end of its own.
    pub fn ending(status: Status, out: impl Into<Vec<u8>>) -> Report {
        Report {
            out: out.into(),
            said: String::new(),
            status,
        }
    }

    /// One JSON value on a line of its own.
    pub fn json(status: Status, value: &Json) -> Report {
        Report::ending(status, format!("{value}\n"))
    }

    /// The same report with words for standard error.
    pub fn saying(mut self, words: impl Into<String>) -> Report {
        self.said = words.into();
        self
    }

    /// The sentence that says what is wrong with the use of the program and what to do.
    pub fn misuse(sentence: &str) -> Report {
        Report::ending(Status::Misuse, "").saying(format!("wakemiono: {sentence}\n"))
    }

    /// Prints the report, and answers how the program ends. The words are said whatever becomes of
    /// standard output.
    pub fn deliver(self, mut printer: Printer) -> ExitCode {
        printer.print(&self.out);
        let printed = printer.finish();
        say(&self.said);
        match printed {
            Err(error) => {
                say(&format!(
                    "wakemiono: standard output cannot be written ({error}): \
                     check where it is sent to and whether there is room.\n"
                ));
                Status::Misuse.code()
            }
            Ok(()) => self.status.code(),
        }
    }
}

/// Says something on standard error. Where even that is closed, there is no one left to tell.
fn say(words: &str) {
    let _ = io::stderr().lock().write_all(words.as_bytes());
}

/// Why a command has no answer.
#[derive(Debug)]
pub enum Failure {
    /// A sentence that says what is wrong and what to do.
    Misuse(String),
    /// What was read is refused by the library.
    Refused(Box<Refused>),
    /// The library contradicts itself, which the one that belongs to this program never does.
    Misfit,
}

impl Failure {
    /// The failure as it is printed.
    pub fn report(&self, json: bool) -> Report {
        match self {
            Failure::Misuse(sentence) => Report::misuse(sentence),
            Failure::Refused(refused) if json => Report::json(Status::Bad, &refused.document()),
            Failure::Refused(refused) => {
                let words = refused.words(Style::of_errors());
                Report::ending(Status::Bad, "").saying(format!("wakemiono: {words}"))
            }
            Failure::Misfit => Report::misuse(
                "the library contradicts itself: build this program with the library that belongs \
                 to it.",
            ),
        }
    }
}
