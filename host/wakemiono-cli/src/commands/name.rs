//! `name`: one name of a module, or of a module beside names that came apart from it.

use crate::beside::{self, Beside};
use crate::edition::Edition;
use crate::input::Input;
use crate::json::Json;
use crate::question::{self, Question};
use crate::report::{Failure, Report, Status};

/// Asks one question.
pub fn run<E: Edition>(
    input: &Input<E>,
    question: Question,
    json: bool,
) -> Result<Report, Failure> {
    let answer = input.accepted(question.ask(input.module()))?;
    if !json {
        return Ok(Report::good(format!("{}\n", question::shown(answer))));
    }
    Ok(document(input.members(), question, question::json(answer)))
}

/// Asks one question of a module beside its names, and says whose the name is.
pub fn run_beside<E: Edition>(
    beside: &Beside<E>,
    question: Question,
    json: bool,
) -> Result<Report, Failure> {
    let found = beside.ask(question, beside.pair()?)?;
    if json {
        let answer = found.map_or(Json::Null, |(whose, answer)| {
            Json::Object([vec![beside::member(whose)], answer.members()].concat())
        });
        return Ok(document(beside.members(), question, answer));
    }
    let whose = found.map_or(String::new(), |(whose, _)| {
        format!("{} ", beside::word(whose))
    });
    let shown = question::shown(found.map(|(_, answer)| answer));
    Ok(Report::good(format!("{whose}{shown}\n")))
}

fn document(members: Vec<(&'static str, Json)>, question: Question, answer: Json) -> Report {
    let asked = vec![
        ("question", Json::Object(question.members())),
        ("answer", answer),
    ];
    let document = Json::Object([members, asked].concat());
    Report::json(Status::Good, &document)
}
