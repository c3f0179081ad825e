//! What is done only where a person watches: colour on a terminal, and a line that says how far it is.

use std::env;
use std::ffi::OsStr;
use std::io::{self, IsTerminal};

/// The variable that says which terminal it is, and the one that understands no escapes.
const TERMINAL: &str = "TERM";
const DUMB: &str = "dumb";

/// The variable that forbids colour, whatever is in it, unless that is nothing.
const NO_COLOUR: &str = "NO_COLOR";

/// Whether a line on standard error can be written over, and someone sees it.
pub fn has_progress() -> bool {
    understands_escapes(&io::stderr(), env::var_os(TERMINAL).as_deref())
}

fn understands_escapes(stream: &impl IsTerminal, terminal: Option<&OsStr>) -> bool {
    stream.is_terminal() && terminal.is_some_and(|it| it != DUMB)
}

/// How text is set off in what goes to one of the streams.
#[derive(Clone, Copy, Debug, PartialEq, Eq)]
pub enum Style {
    /// Not at all: nobody sees it, or it is not wanted.
    Plain,
    /// By the escapes of a terminal.
    Coloured,
}

const BOLD: &str = "\x1B[1m";
const BOLD_RED: &str = "\x1B[1;31m";
const AS_BEFORE: &str = "\x1B[0m";

impl Style {
    /// That of standard output.
    pub fn of_output() -> Style {
        Style::of(&io::stdout())
    }

    /// That of standard error.
    pub fn of_errors() -> Style {
        Style::of(&io::stderr())
    }

    fn of(stream: &impl IsTerminal) -> Style {
        let is_forbidden = env::var_os(NO_COLOUR).is_some_and(|it| !it.is_empty());
        let terminal = env::var_os(TERMINAL);
        if understands_escapes(stream, terminal.as_deref()) && !is_forbidden {
            Style::Coloured
        } else {
            Style::Plain
        }
    }

    /// What is wrong.
    pub fn wrong(self, text: &str) -> String {
        self.set(BOLD_RED, text)
    }

    /// What stands above something, or leads to it.
    pub fn heading(self, text: &str) -> String {
        self.set(BOLD, text)
    }

    fn set(self, escape: &str, text: &str) -> String {
        match self {
            Style::Coloured if !text.is_empty() => format!("{escape}{text}{AS_BEFORE}"),
            _ => text.to_owned(),
        }
    }
}

#[cfg(test)]
mod tests {
    use super::*;

    #[test]
    fn text_is_set_off_only_in_colour() {
        assert_eq!(Style::Plain.wrong("refused"), "refused");
        assert_eq!(Style::Coloured.wrong("refused"), "\x1B[1;31mrefused\x1B[0m");
        assert_eq!(Style::Coloured.heading("hints"), "\x1B[1mhints\x1B[0m");
    }
}
