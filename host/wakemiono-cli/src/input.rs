//! Modules from files or from standard input, read whole.

use std::ffi::{OsStr, OsString};
use std::fs::File;
use std::io::{self, ErrorKind, Read};
use std::marker::PhantomData;
use std::ops::Range;

use wakemiono::{First, Module, Refusal};

use crate::edition::Edition;
use crate::escape;
use crate::json::Json;
use crate::progress::Counted;
use crate::refused::Refused;
use crate::report::Failure;

/// The word for standard input, and behind `-o` for standard output.
pub const STANDARD_STREAM: &str = "-";

/// The word for an input on the command line, and the edition in which names are asked.
#[derive(Debug)]
pub struct Source<E: Edition = First> {
    file: OsString,
    edition: PhantomData<E>,
}

impl<E: Edition> Source<E> {
    /// A file, or standard input for `-`.
    pub fn of(file: &OsStr) -> Source<E> {
        Source {
            file: file.to_owned(),
            edition: PhantomData,
        }
    }

    /// What is made of all that can be read there, which may be known to have a length.
    pub fn read<T>(
        &self,
        reading: impl FnOnce(&mut dyn Read, Option<u64>) -> io::Result<T>,
    ) -> Result<T, Failure> {
        let read = if self.file == STANDARD_STREAM {
            reading(&mut Counted::new(io::stdin().lock(), None), None)
        } else {
            File::open(&self.file).and_then(|file| {
                let length = length(&file)?;
                reading(&mut Counted::new(file, length), length)
            })
        };
        read.map_err(|error| Failure::Misuse(unreadable(&quoted_label(&self.file), &error)))
    }

    /// What people call it: the path on one line, or `standard input`.
    pub fn label(&self) -> String {
        label(&self.file)
    }

    /// What scripts know it by: the word as it was given.
    pub fn file(&self) -> Json {
        Json::text(self.file.to_string_lossy())
    }

    /// What JSON says first: the file, and the edition where that is said.
    pub fn members(&self) -> Vec<(&'static str, Json)> {
        [vec![("file", self.file())], E::members()].concat()
    }
}

/// A module that was read whole, and where it was read from.
#[derive(Debug)]
pub struct Input<E: Edition = First> {
    source: Source<E>,
    bytes: Vec<u8>,
}

impl<E: Edition> Input<E> {
    /// Reads a file, or standard input for `-`.
    pub fn read(file: &OsStr) -> Result<Input<E>, Failure> {
        let source = Source::of(file);
        let bytes = source.read(read_all)?;
        Ok(Input { source, bytes })
    }

    /// The module, unchecked: each question to it checks it.
    pub fn module(&self) -> Module<'_, E> {
        Module::in_edition(&self.bytes)
    }

    /// The bytes.
    pub fn bytes(&self) -> &[u8] {
        &self.bytes
    }

    /// What people call it.
    pub fn label(&self) -> String {
        self.source.label()
    }

    /// What scripts know it by.
    pub fn file(&self) -> Json {
        self.source.file()
    }

    /// What JSON says first.
    pub fn members(&self) -> Vec<(&'static str, Json)> {
        self.source.members()
    }

    /// A refusal, with the bytes around the fault.
    pub fn refused(&self, refusal: Refusal) -> Refused {
        let bytes = |shown: Range<u64>| {
            let [start, end] = [shown.start, shown.end].map(usize::try_from);
            self.bytes.get(start.ok()?..end.ok()?)
        };
        Refused::new(&self.source, refusal, self.bytes.len() as u64, bytes)
    }

    /// What an answer of the library to this input means for a command: a refusal ends it.
    pub fn accepted<T>(&self, answer: Result<T, Refusal>) -> Result<T, Failure> {
        answer.map_err(|refusal| Failure::Refused(Box::new(self.refused(refusal))))
    }
}

fn label(file: &OsStr) -> String {
    if file == STANDARD_STREAM {
        "standard input".to_owned()
    } else {
        escape::word(file)
    }
}

/// What people call it in a sentence, where a path stands between quotes.
fn quoted_label(file: &OsStr) -> String {
    if file == STANDARD_STREAM {
        label(file)
    } else {
        escape::quoted(file)
    }
}

fn read_all(from: &mut dyn Read, length: Option<u64>) -> io::Result<Vec<u8>> {
    let mut bytes = Vec::new();
    // So that nothing is copied while it grows, and a file that is too large for memory is told.
    if let Some(length) = length.and_then(|length| usize::try_from(length).ok()) {
        bytes.try_reserve_exact(length)?;
    }
    from.read_to_end(&mut bytes)?;
    Ok(bytes)
}

/// How many bytes a file has; none of a device or a pipe.
fn length(file: &File) -> io::Result<Option<u64>> {
    let metadata = file.metadata()?;
    Ok(metadata.is_file().then_some(metadata.len()))
}

/// What is wrong with a file and what to do, where we know better than the system's own words.
fn unreadable(label: &str, error: &io::Error) -> String {
    match error.kind() {
        ErrorKind::NotFound => {
            format!("there is no file {label}: check the path, or give - for standard input.")
        }
        ErrorKind::PermissionDenied => {
            format!("{label} may not be read: ask for the right to read it.")
        }
        _ => format!("{label} cannot be read ({error}): give a file that holds a module."),
    }
}

#[cfg(test)]
mod tests {
    use super::*;

    fn said(file: &str, kind: ErrorKind) -> String {
        unreadable(&quoted_label(OsStr::new(file)), &kind.into())
    }

    #[test]
    fn what_cannot_be_read_is_said_with_what_to_do() {
        assert_eq!(
            said("a.wasm", ErrorKind::PermissionDenied),
            "'a.wasm' may not be read: ask for the right to read it."
        );
        assert_eq!(
            said("", ErrorKind::NotFound),
            "there is no file '': check the path, or give - for standard input."
        );
        assert_eq!(
            said("-", ErrorKind::TimedOut),
            "standard input cannot be read (timed out): give a file that holds a module."
        );
    }
}
