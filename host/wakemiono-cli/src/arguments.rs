//! What the command line asks for.

mod asked;

use std::ffi::{OsStr, OsString};

use wakemiono::{First, FunctionIndex, LocalIndex, Wider};

use crate::commands::same::Shown;
use crate::edition::Edition;
use crate::escape;
use crate::input::STANDARD_STREAM;
use crate::options::{self, Given, Takes};
use crate::question::{Kind, Question};

/// The word that asks for help, as the option `--help` does.
const HELP: &str = "help";

/// The option that names a file of names beside a module.
const BESIDE: &str = "--beside";

/// The option that asks for every difference.
const ALL: &str = "--all";

/// The option that asks for the hints of the older edition.
const OLD_HINTS: &str = "--old-hints";

/// The option that names a format of code metadata.
const FORMAT: &str = "--format";

/// The option that asks for the whole module with canonical names in it.
const IN_MODULE: &str = "--in-module";

/// What the program is to do.
#[derive(Debug, PartialEq, Eq)]
pub enum Invocation {
    /// To explain itself, or one command.
    Help(Option<Topic>),
    /// To say its version.
    Version,
    /// To run a command.
    Run {
        /// The command.
        command: Command,
        /// Whether names are asked in their wider edition.
        wide: bool,
        /// Whether the answer is to be JSON.
        json: bool,
    },
}

/// A command with all that it needs.
#[derive(Debug, PartialEq, Eq)]
pub enum Command {
    /// The sections of a module.
    List(OsString),
    /// All names of a module, or those of one kind.
    Names(OsString, Option<Kind>),
    /// The same of a module beside a file of names.
    NamesBeside(OsString, OsString, Option<Kind>),
    /// One name.
    Name(OsString, Question),
    /// The same of a module beside a file of names.
    NameBeside(OsString, OsString, Question),
    /// Why a function, or a local in it, has no name.
    Why(OsString, FunctionIndex, Option<LocalIndex>),
    /// All branch hints of a module.
    Hints(OsString),
    /// All code metadata of a module, or that of one format.
    Metadata(OsString, Option<OsString>),
    /// The canonical name payload, written to a file where one is given.
    Canon(OsString, Option<OsString>),
    /// The same in the place of the payload: the whole module.
    CanonInModule(OsString, Option<OsString>),
    /// The same of the hints of the older edition.
    CanonOldHints(OsString, Option<OsString>),
    /// The names of a module and of a file beside it in one canonical payload, written to a file
    /// where one is given.
    Join(OsString, OsString, Option<OsString>),
    /// Whether two modules have the same names, and what of the differences is shown.
    Same(OsString, OsString, Shown),
    /// Whether a module and its payloads are accepted.
    Judge(OsString),
}

/// A command's word, without what follows it.
#[derive(Clone, Copy, Debug, PartialEq, Eq)]
pub enum Topic {
    /// `list`
    List,
    /// `names`
    Names,
    /// `name`
    Name,
    /// `why`
    Why,
    /// `hints`
    Hints,
    /// `metadata`
    Metadata,
    /// `canon`
    Canon,
    /// `join`
    Join,
    /// `same`
    Same,
    /// `judge`
    Judge,
}

impl Topic {
    /// Every command, in the order in which they are explained.
    pub const ALL: [Topic; 10] = [
        Topic::List,
        Topic::Names,
        Topic::Name,
        Topic::Why,
        Topic::Hints,
        Topic::Metadata,
        Topic::Canon,
        Topic::Join,
        Topic::Same,
        Topic::Judge,
    ];

    /// The word on the command line.
    pub const fn word(self) -> &'static str {
        match self {
            Topic::List => "list",
            Topic::Names => "names",
            Topic::Name => "name",
            Topic::Why => "why",
            Topic::Hints => "hints",
            Topic::Metadata => "metadata",
            Topic::Canon => "canon",
            Topic::Join => "join",
            Topic::Same => "same",
            Topic::Judge => "judge",
        }
    }

    fn takes(self) -> Takes {
        let (flags, valued): (&[_], &[_]) = match self {
            Topic::Names => (&["--json", "--wide"], &["--kind", BESIDE]),
            Topic::Name => (&["--json", "--wide", "--module"], asked::OPTIONS),
            Topic::Why => (&["--json", "--wide"], &["--function", "--local"]),
            Topic::Canon => (&["--json", "--wide", OLD_HINTS, IN_MODULE], &["-o"]),
            Topic::Join => (&["--json", "--wide"], &["-o"]),
            Topic::Same => (&["--json", "--wide", ALL], &[]),
            Topic::Judge => (&["--json", "--wide"], &[]),
            Topic::Metadata => (&["--json"], &[FORMAT]),
            Topic::List | Topic::Hints => (&["--json"], &[]),
        };
        Takes { flags, valued }
    }
}

/// Reads the command line. The error is a sentence that says what is wrong and what to do.
pub fn parse(words: impl IntoIterator<Item = OsString>) -> Result<Invocation, String> {
    let words: Vec<OsString> = words.into_iter().collect();
    let Some((first, rest)) = words.split_first() else {
        return Err(no_command("no command is given"));
    };
    if is_help(first) {
        return Ok(Invocation::Help(None));
    }
    if first == HELP {
        return help(rest);
    }
    if first == "--version" || first == "-V" {
        return Ok(Invocation::Version);
    }
    let topic = topic(first)?;
    if rest.iter().take_while(|word| *word != "--").any(is_help) {
        return Ok(Invocation::Help(Some(topic)));
    }
    run(topic, rest).map_err(|wrong| {
        let word = topic.word();
        format!("{wrong}; see `wakemiono {word} --help`.")
    })
}

/// What the word `help` asks for: all, or the command that follows it.
fn help(words: &[OsString]) -> Result<Invocation, String> {
    match words {
        [] => Ok(Invocation::Help(None)),
        [word] if is_help(word) => Ok(Invocation::Help(None)),
        [word] => Ok(Invocation::Help(Some(topic(word)?))),
        [_, second, ..] => Err(format!(
            "one command is explained at a time, and {} is a second word: leave it out; \
             see `wakemiono --help`.",
            escape::quoted(second)
        )),
    }
}

fn is_help(word: &OsString) -> bool {
    word == "--help" || word == "-h"
}

fn topic(word: &OsStr) -> Result<Topic, String> {
    let found = Topic::ALL.into_iter().find(|topic| word == topic.word());
    found.ok_or_else(|| {
        let quoted = escape::quoted(word);
        if options::is_option(word) {
            no_command(&format!("the command comes before the option {quoted}"))
        } else {
            no_command(&format!("there is no command {quoted}"))
        }
    })
}

fn no_command(wrong: &str) -> String {
    let words: Vec<_> = Topic::ALL.into_iter().map(Topic::word).collect();
    format!(
        "{wrong}: give one of {}; see `wakemiono --help`.",
        words.join(", ")
    )
}

fn run(topic: Topic, words: &[OsString]) -> Result<Invocation, String> {
    let given = Given::sorted(words, topic.takes())?;
    let (wide, json) = (given.has("--wide"), given.has("--json"));
    let command = match topic {
        Topic::List => Command::List(one_file(&given)?),
        Topic::Names => names(&given, wide)?,
        Topic::Name => name(&given, wide)?,
        Topic::Why => why(&given)?,
        Topic::Hints => Command::Hints(one_file(&given)?),
        Topic::Metadata => metadata(&given)?,
        Topic::Canon => canon(&given)?,
        Topic::Join => join(&given)?,
        Topic::Same => same(&given)?,
        Topic::Judge => Command::Judge(one_file(&given)?),
    };
    Ok(Invocation::Run {
        command,
        wide,
        json,
    })
}

fn names(given: &Given, wide: bool) -> Result<Command, String> {
    let (file, kind) = (one_file(given)?, kind(given, wide)?);
    Ok(match beside(given, &file)? {
        Some(names) => Command::NamesBeside(file, names, kind),
        None => Command::Names(file, kind),
    })
}

fn name(given: &Given, wide: bool) -> Result<Command, String> {
    let (file, question) = (one_file(given)?, asked::question(given, wide)?);
    Ok(match beside(given, &file)? {
        Some(names) => Command::NameBeside(file, names, question),
        None => Command::Name(file, question),
    })
}

/// The file of names beside a module, where one is given.
fn beside(given: &Given, file: &OsStr) -> Result<Option<OsString>, String> {
    let Some(names) = given.value(BESIDE) else {
        return Ok(None);
    };
    check_streams(file, names)?;
    Ok(Some(names.to_owned()))
}

fn why(given: &Given) -> Result<Command, String> {
    let file = one_file(given)?;
    let (function, local) = asked::function_or_local(given)?;
    Ok(Command::Why(file, function, local))
}

fn metadata(given: &Given) -> Result<Command, String> {
    let (file, format) = (one_file(given)?, given.value(FORMAT));
    Ok(Command::Metadata(file, format.map(OsStr::to_owned)))
}

fn canon(given: &Given) -> Result<Command, String> {
    if given.has(OLD_HINTS) && given.has("--wide") {
        return Err(format!(
            "--wide is about names, and {OLD_HINTS} rewrites hints: leave out one of the two"
        ));
    }
    if given.has(OLD_HINTS) && given.has(IN_MODULE) {
        return Err(format!(
            "{IN_MODULE} puts names in place, and {OLD_HINTS} rewrites hints: leave out one of the two"
        ));
    }
    let (file, out) = (one_file(given)?, output(given)?);
    Ok(if given.has(OLD_HINTS) {
        Command::CanonOldHints(file, out)
    } else if given.has(IN_MODULE) {
        Command::CanonInModule(file, out)
    } else {
        Command::Canon(file, out)
    })
}

fn one_file(given: &Given) -> Result<OsString, String> {
    match given.files.as_slice() {
        [file] => Ok(file.clone()),
        [] => Err("no file is given: name one, or give - for standard input".to_owned()),
        [_, second, ..] => Err(format!(
            "one file is asked at a time, and {} is a second one: leave it out",
            escape::quoted(second)
        )),
    }
}

fn join(given: &Given) -> Result<Command, String> {
    let (file, names) = two_files(given, "a module and its names are joined")?;
    Ok(Command::Join(file, names, output(given)?))
}

fn same(given: &Given) -> Result<Command, String> {
    let (a, b) = two_files(given, "two files are compared")?;
    let shown = if given.has(ALL) {
        Shown::All
    } else {
        Shown::First
    };
    Ok(Command::Same(a, b, shown))
}

/// The two files that a command needs, of which it says what is done with them.
fn two_files(given: &Given, done: &str) -> Result<(OsString, OsString), String> {
    match given.files.as_slice() {
        [a, b] => {
            check_streams(a, b)?;
            Ok((a.clone(), b.clone()))
        }
        files => Err(format!(
            "{done}, and {} given: name two",
            match files.len() {
                0 => "none is".to_owned(),
                1 => "one is".to_owned(),
                many => format!("{many} are"),
            }
        )),
    }
}

/// One of two files may be standard input, and not both.
fn check_streams(a: &OsStr, b: &OsStr) -> Result<(), String> {
    if a == STANDARD_STREAM && b == STANDARD_STREAM {
        return Err(
            "standard input can be read only once: give a file for one of the two".to_owned(),
        );
    }
    Ok(())
}

fn kind(given: &Given, wide: bool) -> Result<Option<Kind>, String> {
    let Some(word) = given.value("--kind") else {
        return Ok(None);
    };
    let found = Kind::ALL.into_iter().find(|kind| word == kind.word());
    match found {
        Some(kind) if may_be_asked(kind, wide) => Ok(Some(kind)),
        Some(_) => Err(add_wide(&format!("--kind {}", escape::word(word)))),
        None => Err(format!(
            "there is no kind {}: give one of {}",
            escape::quoted(word),
            words_of_kinds(wide).join(", ")
        )),
    }
}

/// Whether the edition that is asked has names of a kind.
fn may_be_asked(kind: Kind, wide: bool) -> bool {
    if wide {
        Wider::has(kind)
    } else {
        First::has(kind)
    }
}

/// The words of the kinds that may be asked, in the order in which they are explained.
fn words_of_kinds(wide: bool) -> Vec<&'static str> {
    let asked = Kind::ALL
        .into_iter()
        .filter(|kind| may_be_asked(*kind, wide));
    asked.map(Kind::word).collect()
}

/// What to do about a question that only the wider edition has.
fn add_wide(question: &str) -> String {
    format!("{question} asks for names that only the wider edition has: add --wide")
}

fn output(given: &Given) -> Result<Option<OsString>, String> {
    let out = given.value("-o");
    if out == Some(OsStr::new(STANDARD_STREAM)) && given.has("--json") {
        return Err(
            "what is written and JSON cannot both go to standard output: leave out --json, \
             or give a file behind -o"
                .to_owned(),
        );
    }
    Ok(out.map(OsStr::to_owned))
}

#[cfg(test)]
mod tests {
    use super::*;

    fn parsed(line: &str) -> Result<Invocation, String> {
        parse(line.split_whitespace().map(OsString::from))
    }

    #[test]
    fn help_is_given_wherever_it_is_asked() {
        assert_eq!(parsed("--help"), Ok(Invocation::Help(None)));
        let of_names = Ok(Invocation::Help(Some(Topic::Names)));
        assert_eq!(parsed("names --help"), of_names);
        assert_eq!(parsed("names --nonsense f -h"), of_names);
        assert_eq!(parsed("help names"), of_names);
        assert_eq!(parsed("help"), Ok(Invocation::Help(None)));
        assert_eq!(parsed("help --help"), Ok(Invocation::Help(None)));
        assert!(matches!(
            parsed("names -- --help"),
            Ok(Invocation::Run { .. })
        ));
    }
}
