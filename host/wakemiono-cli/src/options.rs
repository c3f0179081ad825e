//! The words behind a command, told apart into files and options.

use std::ffi::{OsStr, OsString};

use crate::escape;
use crate::input::STANDARD_STREAM;

/// The options that a command takes.
#[derive(Clone, Copy, Debug)]
pub struct Takes {
    /// Those that stand alone.
    pub flags: &'static [&'static str],
    /// Those that a value follows.
    pub valued: &'static [&'static str],
}

/// What was given behind a command.
#[derive(Debug, Default)]
pub struct Given {
    /// The words that are no options, in their order.
    pub files: Vec<OsString>,
    options: Vec<(&'static str, OsString)>,
}

impl Given {
    /// Tells the words apart. The error is a sentence without the pointer to the help.
    pub fn sorted(words: &[OsString], takes: Takes) -> Result<Given, String> {
        let mut given = Given::default();
        let mut words = words.iter();
        while let Some(word) = words.next() {
            if word == "--" {
                given.files.extend(words.cloned());
                break;
            }
            if is_option(word) {
                let (option, value) = option(word, takes, &mut words)?;
                given.add(option, value)?;
            } else {
                given.files.push(word.clone());
            }
        }
        Ok(given)
    }

    /// Whether an option was given.
    pub fn has(&self, option: &str) -> bool {
        self.value(option).is_some()
    }

    /// The value of an option, which is empty for one that stands alone.
    pub fn value(&self, option: &str) -> Option<&OsStr> {
        let found = self.options.iter().find(|(name, _)| *name == option);
        found.map(|(_, value)| value.as_os_str())
    }

    fn add(&mut self, option: &'static str, value: OsString) -> Result<(), String> {
        if self.has(option) {
            return Err(format!("{option} is given twice: give it once"));
        }
        self.options.push((option, value));
        Ok(())
    }
}

/// Whether a word is meant as an option. A single `-` is standard input and none.
pub fn is_option(word: &OsStr) -> bool {
    word.as_encoded_bytes().starts_with(b"-") && word != STANDARD_STREAM
}

/// The option in a word, with its value from behind `=` or from the next word.
fn option<'a>(
    word: &OsStr,
    takes: Takes,
    rest: &mut impl Iterator<Item = &'a OsString>,
) -> Result<(&'static str, OsString), String> {
    let unknown = || {
        let known = [takes.flags, takes.valued].concat().join(", ");
        format!(
            "there is no option {}: give one of {known}",
            escape::quoted(word)
        )
    };
    let in_list = |list: &[&'static str], name: &str| list.iter().copied().find(|it| *it == name);
    let spelled = word.to_str();
    if let Some(flag) = spelled.and_then(|name| in_list(takes.flags, name)) {
        return Ok((flag, OsString::new()));
    }
    if let Some(valued) = spelled.and_then(|name| in_list(takes.valued, name)) {
        // A word such as --json is a forgotten value rather than a value.
        return match rest.next() {
            Some(value) if !value.as_encoded_bytes().starts_with(b"--") => {
                Ok((valued, value.clone()))
            }
            _ => Err(format!("{valued} needs a value: write it behind {valued}")),
        };
    }
    let (name, value) = spelled
        .and_then(|it| it.split_once('='))
        .ok_or_else(unknown)?;
    match in_list(takes.valued, name) {
        Some(valued) => Ok((valued, value.into())),
        None => Err(unknown()),
    }
}

#[cfg(test)]
mod tests {
    use super::*;

    const TAKES: Takes = Takes {
        flags: &["--json"],
        valued: &["--kind", "-o"],
    };

    fn sorted(line: &str) -> Result<Given, String> {
        let words: Vec<OsString> = line.split(' ').map(OsString::from).collect();
        Given::sorted(&words, TAKES)
    }

    #[test]
    fn options_may_stand_anywhere() {
        let given = sorted("--kind tag a - --json").unwrap();
        assert_eq!(given.files, ["a", "-"]);
        assert_eq!(given.value("--kind"), Some(OsStr::new("tag")));
        assert!(given.has("--json") && !given.has("-o"));
        let given = sorted("a --kind=tag -- --json").unwrap();
        assert_eq!(given.files, ["a", "--json"]);
        assert_eq!(given.value("--kind"), Some(OsStr::new("tag")));
    }

    #[test]
    fn mistakes_are_said() {
        let said = |line: &str| sorted(line).unwrap_err();
        assert_eq!(
            said("a --jsn"),
            "there is no option '--jsn': give one of --json, --kind, -o"
        );
        assert_eq!(
            said("a --json=yes"),
            "there is no option '--json=yes': give one of --json, --kind, -o"
        );
        assert_eq!(
            said("a --json --json"),
            "--json is given twice: give it once"
        );
        let forgotten = "--kind needs a value: write it behind --kind";
        assert_eq!(said("a --kind"), forgotten);
        assert_eq!(said("a --kind --json"), forgotten);
    }
}
