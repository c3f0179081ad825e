//! The question that the options of `name` ask, and that of `why`.

use wakemiono::{FunctionIndex, LocalIndex};

use super::{add_wide, may_be_asked, BESIDE};
use crate::escape;
use crate::options::Given;
use crate::question::{Kind, Question};

/// The options of `name` that a value follows: the numbers that are asked for, and the file of names.
pub const OPTIONS: &[&str] = &[
    "--function",
    "--local",
    "--label",
    "--type",
    "--field",
    "--tag",
    "--table",
    "--memory",
    "--global",
    "--element",
    "--data",
    "--kept",
    BESIDE,
];

/// Those of them that say what lies within something else, and within what.
const WITHIN: [(&str, &str); 3] = [
    ("--local", "function"),
    ("--label", "function"),
    ("--field", "type"),
];

/// The one question that the options ask.
pub fn question(given: &Given, wide: bool) -> Result<Question, String> {
    check_edition(given, wide)?;
    let number = |option: &str| index(given, option);
    let asked = [
        given.has("--module").then_some(Question::Module),
        number("--function")?.map(|it| Question::Function(it.into())),
        number("--type")?.map(|it| Question::Type(it.into())),
        number("--tag")?.map(|it| Question::Tag(it.into())),
        number("--table")?.map(|it| Question::Table(it.into())),
        number("--memory")?.map(|it| Question::Memory(it.into())),
        number("--global")?.map(|it| Question::Global(it.into())),
        number("--element")?.map(|it| Question::Element(it.into())),
        number("--data")?.map(|it| Question::Data(it.into())),
        kept(given)?.map(Question::Kept),
    ];
    let mut asked = asked.into_iter().flatten();
    let question = match (asked.next(), asked.next()) {
        (Some(one), None) => one,
        (None, _) => return Err(no_question(given, wide)),
        (Some(one), Some(other)) => {
            return Err(format!(
                "one name is asked at a time, and --{} and --{} are both given: leave one out",
                one.kind().word(),
                other.kind().word()
            ));
        }
    };
    let (local, label, field) = (number("--local")?, number("--label")?, number("--field")?);
    within(question, local, label, field)
}

/// The function, or the local in it, that `why` asks about.
pub fn function_or_local(given: &Given) -> Result<(FunctionIndex, Option<LocalIndex>), String> {
    let (function, local) = (index(given, "--function")?, index(given, "--local")?);
    let function = function.ok_or_else(|| {
        lone(given).unwrap_or_else(|| {
            "nothing is asked: give --function, and --local too for a local in it".to_owned()
        })
    })?;
    Ok((function.into(), local.map(LocalIndex::from)))
}

/// Only the wider edition is asked for what only it has.
fn check_edition(given: &Given, wide: bool) -> Result<(), String> {
    let mut options = Kind::ALL
        .into_iter()
        .filter(|kind| !may_be_asked(*kind, wide))
        .map(option);
    match options.find(|option| given.has(option)) {
        Some(option) => Err(add_wide(&option)),
        None => Ok(()),
    }
}

/// The option that asks for a name of a kind.
fn option(kind: Kind) -> String {
    format!("--{}", kind.word())
}

/// The question with the local, label or field that goes with it.
fn within(
    outer: Question,
    local: Option<u32>,
    label: Option<u32>,
    field: Option<u32>,
) -> Result<Question, String> {
    match (outer, local, label, field) {
        (_, None, None, None) => Ok(outer),
        (Question::Function(function), Some(local), None, None) => {
            Ok(Question::Local(function, local.into()))
        }
        (Question::Function(function), None, Some(label), None) => {
            Ok(Question::Label(function, label.into()))
        }
        (Question::Type(type_), None, None, Some(field)) => {
            Ok(Question::Field(type_, field.into()))
        }
        (Question::Function(_), _, _, Some(_)) | (_, None, None, Some(_)) => {
            Err("a field belongs to a type: give --field together with --type alone".to_owned())
        }
        (_, Some(_), _, _) => Err(
            "a local belongs to a function: give --local together with --function alone".to_owned(),
        ),
        (_, None, Some(_), _) => Err(
            "a label belongs to a function: give --label together with --function alone".to_owned(),
        ),
    }
}

/// What is missing beside an option that says what lies within something else.
fn lone(given: &Given) -> Option<String> {
    let lone = WITHIN.iter().find(|(inner, _)| given.has(inner));
    lone.map(|(inner, outer)| format!("{inner} needs its {outer}: give --{outer} too"))
}

fn no_question(given: &Given, wide: bool) -> String {
    match lone(given) {
        Some(sentence) => sentence,
        None if wide => "nothing is asked: give --module, --function, --type, --tag, --table, \
             --memory, --global, --element, --data or --kept"
            .to_owned(),
        None => "nothing is asked: give --module, --function, --type, --tag or --kept".to_owned(),
    }
}

fn index(given: &Given, option: &str) -> Result<Option<u32>, String> {
    number(given, option, "an index from 0 to 4294967295")
}

fn kept(given: &Given) -> Result<Option<u8>, String> {
    number(given, "--kept", "an id from 0 to 255")
}

/// A number in decimal, or in hexadecimal behind `0x`, as dumps and debuggers print them.
fn number<N: TryFrom<u64>>(given: &Given, option: &str, wanted: &str) -> Result<Option<N>, String> {
    let Some(word) = given.value(option) else {
        return Ok(None);
    };
    let read = word
        .to_str()
        .and_then(unsigned)
        .and_then(|it| it.try_into().ok());
    read.map(Some).ok_or_else(|| {
        format!(
            "{option} is given {}: give {wanted}, in decimal or behind 0x",
            escape::quoted(word)
        )
    })
}

fn unsigned(word: &str) -> Option<u64> {
    let (digits, radix) = match word.strip_prefix("0x") {
        Some(digits) => (digits, 16),
        None => (word, 10),
    };
    // A sign is accepted by the standard library, but an index has none.
    let only_digits = digits.chars().all(|digit| digit.is_digit(radix));
    only_digits.then(|| u64::from_str_radix(digits, radix).ok())?
}

#[cfg(test)]
mod tests {
    use std::ffi::OsString;

    use wakemiono::{
        DataIndex, ElementIndex, FieldIndex, GlobalIndex, LabelIndex, MemoryIndex, TableIndex,
        TagIndex, TypeIndex,
    };

    use super::*;
    use crate::arguments::{parse, Command, Invocation};

    fn parsed(line: &str) -> Result<Invocation, String> {
        parse(line.split_whitespace().map(OsString::from))
    }

    #[track_caller]
    fn asks_in(wide: bool, line: &str, question: Question) {
        let asked = Invocation::Run {
            command: Command::Name("f".into(), question),
            wide,
            json: false,
        };
        assert_eq!(parsed(line), Ok(asked));
    }

    #[track_caller]
    fn asks(line: &str, question: Question) {
        asks_in(false, line, question);
        asks_in(true, &format!("{line} --wide"), question);
    }

    #[test]
    fn every_question_can_be_asked() {
        let (function, type_) = (FunctionIndex(7), TypeIndex(3));
        asks("name f --module", Question::Module);
        asks("name f --function 7", Question::Function(function));
        asks(
            "name f --function 0x7 --local 2",
            Question::Local(function, LocalIndex(2)),
        );
        asks("name --type=3 f", Question::Type(type_));
        asks(
            "name --field 1 --type 3 f",
            Question::Field(type_, FieldIndex(1)),
        );
        asks("name f --tag 4294967295", Question::Tag(TagIndex(u32::MAX)));
        asks("name f --kept 0xff", Question::Kept(255));
    }

    #[test]
    fn every_question_of_the_wider_edition_can_be_asked() {
        let wide = |line: &str, question| asks_in(true, &format!("name f --wide {line}"), question);
        let label = Question::Label(FunctionIndex(7), LabelIndex(2));
        wide("--function 7 --label 0x2", label);
        wide("--table 1", Question::Table(TableIndex(1)));
        wide("--memory=0", Question::Memory(MemoryIndex(0)));
        wide("--global 3", Question::Global(GlobalIndex(3)));
        wide("--element 4", Question::Element(ElementIndex(4)));
        wide("--data 4294967295", Question::Data(DataIndex(u32::MAX)));
    }

    #[test]
    fn a_function_and_a_local_can_be_asked_about() {
        let why = |line: &str, wide, function, local: Option<u32>| {
            let local = local.map(LocalIndex);
            let asked = Invocation::Run {
                command: Command::Why("f".into(), FunctionIndex(function), local),
                wide,
                json: false,
            };
            assert_eq!(parsed(line), Ok(asked));
        };
        why("why f --function 7", false, 7, None);
        why("why --function=0x7 f --wide", true, 7, None);
        why(
            "why f --local 4294967295 --function 0",
            false,
            0,
            Some(u32::MAX),
        );
    }

    #[test]
    fn numbers_are_whole_and_fit() {
        for wrong in ["4294967296", "-1", "+1", "1.0", "0x", "", "seven", "1_000"] {
            let said = parsed(&format!("name f --function={wrong}")).unwrap_err();
            assert!(
                said.contains("give an index from 0 to 4294967295"),
                "{said}"
            );
        }
        let said = parsed("name f --kept 256").unwrap_err();
        assert!(said.contains("give an id from 0 to 255"), "{said}");
    }
}
