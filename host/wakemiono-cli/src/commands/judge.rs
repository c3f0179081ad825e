//! `judge`: whether a module and its payloads are accepted, the payloads canonical, and hints on branches.

use std::ffi::OsStr;

use wakemiono::{Hints, NamePayload, OldHints, Place, Refusal, Walked};

use crate::arriving::{Arrived, Wanted};
use crate::edition::Edition;
use crate::json::Json;
use crate::payloads::{HINTS, NAMES, OLD_HINTS};
use crate::refused::Refused;
use crate::report::{Failure, Report, Status};
use crate::terminal::Style;

/// What there is to say of a module or of one of its payloads.
enum Verdict {
    /// The module is accepted, or every hint stands on a branch.
    Accepted,
    /// The payload is accepted, and is its own canonical form or not.
    AcceptedPayload {
        canonical: bool,
    },
    /// There is no such section.
    None,
    Refused(Refused),
    /// The module around it is refused, or the hints that it is about.
    NotAsked,
}

impl Verdict {
    fn word(&self) -> &'static str {
        match self {
            Verdict::Accepted | Verdict::AcceptedPayload { .. } => "accepted",
            Verdict::None => "none",
            Verdict::Refused(_) => "refused",
            Verdict::NotAsked => "not asked",
        }
    }

    fn lines(&self) -> String {
        match self {
            Verdict::Refused(refused) => refused.verdict(Style::of_output()),
            Verdict::AcceptedPayload { canonical } => {
                let form = if *canonical {
                    "canonical already"
                } else {
                    "not canonical"
                };
                format!("{}, {form}\n", self.word())
            }
            Verdict::Accepted | Verdict::None | Verdict::NotAsked => format!("{}\n", self.word()),
        }
    }

    fn json(&self) -> Json {
        let mut members = vec![("verdict", Json::text(self.word()))];
        match self {
            Verdict::AcceptedPayload { canonical } => {
                members.push(("canonical", Json::Bool(*canonical)));
            }
            Verdict::Refused(refused) => members.push(("refusal", refused.json())),
            Verdict::Accepted | Verdict::None | Verdict::NotAsked => {}
        }
        Json::Object(members)
    }

    fn is_refused(&self) -> bool {
        matches!(self, Verdict::Refused(_))
    }
}

/// All that is judged, but for code, which is kept where there are hints on it.
const JUDGED: [Wanted; 4] = [
    Wanted::Custom(NAMES),
    Wanted::Custom(HINTS),
    Wanted::Custom(OLD_HINTS),
    Wanted::Imports,
];

/// Judges the module and then its payloads, each whatever is wrong with the other.
pub fn run<E: Edition>(file: &OsStr, json: bool) -> Result<Report, Failure> {
    let module = Arrived::<E>::read(file, &JUDGED)?;
    let verdicts = verdicts(&module)?;
    let accepted = !verdicts.iter().any(|(_, verdict)| verdict.is_refused());
    let status = Status::good_if(accepted);
    if json {
        let document = document(module.members(), accepted, &verdicts);
        return Ok(Report::json(status, &document));
    }
    let line = |(word, verdict): &(&str, Verdict)| format!("{word} {}", verdict.lines());
    let lines = verdicts.iter().map(line).collect::<String>();
    Ok(Report::ending(status, lines))
}

fn verdicts<E: Edition>(module: &Arrived<E>) -> Result<[(&'static str, Verdict); 5], Failure> {
    let (of_module, [name, hints, old_hints, on_branches]) = match module.walked {
        Ok(walked) => (Verdict::Accepted, of_all(module, walked)?),
        Err(refusal) => (
            Verdict::Refused(module.refused(refusal)),
            [const { Verdict::NotAsked }; 4],
        ),
    };
    Ok([
        ("module", of_module),
        ("name", name),
        ("hints", hints),
        ("old_hints", old_hints),
        ("on_branches", on_branches),
    ])
}

/// Of the payloads of an accepted module, and of hints on branches.
fn of_all<E: Edition>(module: &Arrived<E>, walked: Walked) -> Result<[Verdict; 4], Failure> {
    let [name, hints, old_hints] = of_payloads(module, walked)?;
    let on_branches = match walked.hints {
        None => Verdict::None,
        Some(_) if hints.is_refused() => Verdict::NotAsked,
        Some(place) => of_branches(module, place)?,
    };
    Ok([name, hints, old_hints, on_branches])
}

/// Of accepted hints, by the sections that say whether they stand on branches.
fn of_branches<E: Edition>(module: &Arrived<E>, hints: Place) -> Result<Verdict, Failure> {
    let excerpt = module.of_branches(hints)?;
    Ok(match excerpt.module().hints_on_branches() {
        Ok(()) => Verdict::Accepted,
        Err(refusal) => Verdict::Refused(module.refused(excerpt.in_whole(refusal))),
    })
}

/// Of the names and of the hints of both editions, in an accepted module.
fn of_payloads<E: Edition>(module: &Arrived<E>, walked: Walked) -> Result<[Verdict; 3], Failure> {
    Ok([
        of_payload(module, walked.name, |bytes| {
            let names = NamePayload::<E>::in_edition(bytes);
            names.judge().map(|()| names.is_canonical())
        })?,
        of_payload(module, walked.hints, |bytes| {
            let hints = Hints::new(bytes);
            hints.judge().map(|()| hints.is_canonical())
        })?,
        of_payload(module, walked.old_hints, |bytes| {
            let hints = OldHints::new(bytes);
            hints.judge().map(|()| hints.is_canonical())
        })?,
    ])
}

/// Of a payload, by whether it is canonical where it is accepted. A refusal counts from the start of
/// the file that the person has, and not from the start of a payload in it.
fn of_payload<E: Edition>(
    module: &Arrived<E>,
    place: Option<Place>,
    is_canonical: impl FnOnce(&[u8]) -> Result<bool, Refusal>,
) -> Result<Verdict, Failure> {
    let Some(place) = place else {
        return Ok(Verdict::None);
    };
    Ok(match is_canonical(module.payload(place)?) {
        Ok(canonical) => Verdict::AcceptedPayload { canonical },
        Err(refusal) => Verdict::Refused(module.refused(refusal.in_module(place))),
    })
}

fn document(
    mut members: Vec<(&'static str, Json)>,
    accepted: bool,
    verdicts: &[(&'static str, Verdict)],
) -> Json {
    members.push(("accepted", Json::Bool(accepted)));
    let judged = verdicts.iter();
    members.extend(judged.map(|(word, verdict)| (*word, verdict.json())));
    Json::Object(members)
}
