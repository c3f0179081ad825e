//! `names`: all names of a module, or of a module beside names that came apart from it.

use wakemiono::{NamePayload, Pair, Whose};

use crate::beside::{self, Beside};
use crate::edition::Edition;
use crate::entries::Subsection;
use crate::escape;
use crate::input::Input;
use crate::json::Json;
use crate::listing::Listing;
use crate::payloads;
use crate::printer::Printer;
use crate::question::{Answer, Kind, Question, KEPT_MEANS};
use crate::report::{Failure, Report};

/// The member of JSON with the names.
const NAMES: &str = "names";

/// A name in the listing.
struct Row<'a> {
    question: Question,
    /// Whose it is, where there are two payloads.
    whose: Option<Whose>,
    answer: Answer<'a>,
}

/// Lists the names of a kind, or all.
pub fn run<E: Edition>(
    input: &Input<E>,
    kind: Option<Kind>,
    json: bool,
    out: &mut Printer,
) -> Result<Report, Failure> {
    let payload = input.accepted(payloads::names(input.module()))?;
    let mut listing = Listing::begin(out, json.then(|| input.members()));
    let listed = listing.list(NAMES, |listing| match payload {
        Some(payload) => list(input, payload, kind, listing),
        None => Ok(Listed::default()),
    })?;
    listing.end();
    let none = match (payload, kind) {
        (None, _) => "wakemiono: the module has no name section.\n",
        (Some(_), None) => "wakemiono: the name section has no names.\n",
        (Some(_), Some(_)) => "wakemiono: the name section has no such names.\n",
    };
    Ok(listed.report(none, json))
}

/// The same of a module beside its names, with whose each name is.
pub fn run_beside<E: Edition>(
    beside: &Beside<E>,
    kind: Option<Kind>,
    json: bool,
    out: &mut Printer,
) -> Result<Report, Failure> {
    let pair = beside.pair()?;
    let joined = beside.joined(pair)?;
    let mut listing = Listing::begin(out, json.then(|| beside.members()));
    let listed = listing.list(NAMES, |listing| {
        let joined = NamePayload::in_edition(&joined);
        list_beside(beside, pair, joined, kind, listing)
    })?;
    listing.end();
    let none = match kind {
        None => "wakemiono: neither of the two files has names.\n",
        Some(_) => "wakemiono: neither of the two files has such names.\n",
    };
    Ok(listed.report(none, json))
}

fn list<E: Edition>(
    input: &Input<E>,
    payload: NamePayload<'_, E>,
    kind: Option<Kind>,
    listing: &mut Listing<'_>,
) -> Result<Listed, Failure> {
    let mut listed = Listed::default();
    for subsection in Subsection::all(payload, kind)? {
        for (question, name) in subsection.rows(payload)? {
            let row = Row {
                question,
                whose: None,
                answer: Answer::new(question, input.bytes(), name),
            };
            if !listed.take(&row, listing) {
                return Ok(listed);
            }
        }
    }
    Ok(listed)
}

/// The library says by the joined payload what there is. A name is of those that came apart where they have it, and
/// else of the module's own.
fn list_beside<E: Edition>(
    beside: &Beside<E>,
    pair: Pair<'_, '_, E>,
    joined: NamePayload<'_, E>,
    kind: Option<Kind>,
    listing: &mut Listing<'_>,
) -> Result<Listed, Failure> {
    let mut listed = Listed::default();
    for subsection in Subsection::all(joined, kind)? {
        let mut separate = subsection.rows(pair.separate())?.peekable();
        let mut own = subsection.rows(pair.own())?.peekable();
        for (question, name) in subsection.rows(joined)? {
            let of_separate = separate.next_if(|(it, _)| *it == question);
            let of_own = own.next_if(|(it, _)| *it == question);
            let (whose, answer) = match (of_separate, of_own) {
                (Some((_, name)), _) => (Whose::Separate, name),
                (None, Some((_, name))) => (Whose::Own, name),
                (None, None) => return Err(Failure::Misfit),
            };
            if answer != name {
                return Err(Failure::Misfit);
            }
            let row = Row {
                question,
                whose: Some(whose),
                answer: beside.answer(question, whose, answer),
            };
            if !listed.take(&row, listing) {
                return Ok(listed);
            }
        }
    }
    Ok(listed)
}

/// What has been listed.
#[derive(Default)]
struct Listed {
    has_names: bool,
    has_kept: bool,
}

impl Listed {
    /// Prints a row, and answers whether there is any use in another.
    fn take(&mut self, row: &Row<'_>, listing: &mut Listing<'_>) -> bool {
        self.has_names = true;
        self.has_kept |= row.question.kind() == Kind::Kept;
        listing.row(|| line(row), || object(row))
    }

    /// A sentence for a person who sees no names, or sees kept ones. JSON needs none.
    fn report(&self, none: &str, json: bool) -> Report {
        let said = match self {
            _ if json => "",
            Listed {
                has_names: false, ..
            } => none,
            Listed { has_kept: true, .. } => KEPT_MEANS,
            Listed { .. } => "",
        };
        Report::good("").saying(said)
    }
}

fn line(row: &Row<'_>) -> String {
    let Row {
        question,
        whose,
        answer,
    } = row;
    let whose = whose.map_or(String::new(), |whose| format!("{} ", beside::word(whose)));
    let name = escape::escaped(answer.bytes());
    format!("{question} {whose}{} {name}\n", answer.offset())
}

fn object(row: &Row<'_>) -> Json {
    let whose = row.whose.map(beside::member).into_iter().collect();
    Json::Object([row.question.members(), whose, row.answer.members()].concat())
}
