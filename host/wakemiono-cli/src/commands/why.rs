//! `why`: why a function or a local has no name, or where the name stands that it has.

use std::fmt::Display;

use wakemiono::{FunctionIndex, LocalIndex, NamePayload, Why};

use crate::edition::Edition;
use crate::input::Input;
use crate::json::Json;
use crate::payloads;
use crate::question::Question;
use crate::report::{Failure, Report, Status};

/// Says why, of a function or of a local in it.
pub fn run<E: Edition>(
    input: &Input<E>,
    function: FunctionIndex,
    local: Option<LocalIndex>,
    json: bool,
) -> Result<Report, Failure> {
    let said = match input.accepted(payloads::names(input.module()))? {
        Some(payload) => asked(payload.as_bytes(), function, local)?,
        None => Said::no_section(),
    };
    let sentence = said.sentence(function, local);
    if !json {
        return Ok(Report::good(format!("{sentence}\n")));
    }
    let question = match local {
        Some(local) => Question::Local(function, local),
        None => Question::Function(function),
    };
    let asked = vec![
        ("question", Json::Object(question.members())),
        ("named", Json::Bool(said.named)),
    ];
    let sentence = vec![("sentence", Json::text(sentence))];
    let document = Json::Object([input.members(), asked, said.members, sentence].concat());
    Ok(Report::json(Status::Good, &document))
}

/// Puts the question to the first edition, the only one that has it. It accepts what the other has
/// accepted, and has the same names of functions and locals.
fn asked(
    accepted: &[u8],
    function: FunctionIndex,
    local: Option<LocalIndex>,
) -> Result<Said, Failure> {
    let payload = NamePayload::new(accepted);
    let said = match local {
        Some(local) => payload
            .why_local(function, local)
            .map(|why| Said::of(why, |nearest| nearest.0)),
        None => payload
            .why_function(function)
            .map(|why| Said::of(why, |nearest| nearest.0)),
    };
    // What was accepted is not refused now.
    said.map_err(|_| Failure::Misfit)
}

/// What there is to say of a function or a local.
struct Said {
    named: bool,
    /// Why it has no name, or where its name stands.
    words: String,
    /// The same in JSON.
    members: Vec<(&'static str, Json)>,
}

impl Said {
    fn no_section() -> Said {
        Said {
            named: false,
            words: "the module has no name section".to_owned(),
            members: vec![reason("no section")],
        }
    }

    fn of<Index: Copy>(why: Why<Index>, number: fn(Index) -> u32) -> Said
    where
        Why<Index>: Display,
    {
        let nearest = |index: Option<Index>| index.map_or(Json::Null, |it| number(it).into());
        let members = match why {
            Why::Named {
                subsection,
                position,
            } => vec![
                ("subsection", subsection.into()),
                ("position", Json::Number(position)),
            ],
            Why::NoSubsection => vec![reason("no subsection")],
            Why::NoGroup => vec![reason("no group")],
            Why::NoEntry { below, above } => vec![
                reason("no entry"),
                ("below", nearest(below)),
                ("above", nearest(above)),
            ],
        };
        Said {
            named: matches!(why, Why::Named { .. }),
            words: why.to_string(),
            members,
        }
    }

    fn sentence(&self, function: FunctionIndex, local: Option<LocalIndex>) -> String {
        let what = match local {
            Some(local) => format!("local {local} of function {function}"),
            None => format!("function {function}"),
        };
        let has = if self.named { "a name" } else { "no name" };
        format!("{what} has {has}: {}", self.words)
    }
}

fn reason(words: &str) -> (&'static str, Json) {
    ("reason", Json::text(words))
}
