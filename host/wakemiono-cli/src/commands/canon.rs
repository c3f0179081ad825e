//! `canon`: the canonical form of a module's name payload, alone or in its place, or of its hints of the
//! older edition.

use std::ffi::OsStr;

use wakemiono::{First, Module, NamePayload};

use crate::edition::Edition;
use crate::in_place;
use crate::input::Input;
use crate::json::Json;
use crate::output::{self, Read};
use crate::payloads;
use crate::report::{Failure, Report};

/// Rewrites the name payload: writes it where an output is given, and says what it saves otherwise.
pub fn names<E: Edition>(file: &OsStr, out: Option<&OsStr>, json: bool) -> Result<Report, Failure> {
    output::check_apart(file, Read::Module, out)?;
    let input = &Input::<E>::read(file)?;
    let payload = input.accepted(payloads::names(input.module()))?;
    let rewriting = Rewriting {
        members: input.members(),
        before: payload.map_or(0, |payload| payload.as_bytes().len()),
        made: payloads::canonical_names(payload)?,
        is_canonical: payload.map(|payload| payload.is_canonical()),
        without: "wakemiono: the module has no name section; its canonical payload is empty.\n",
    };
    rewriting.reported(out, json)
}

/// The same with the canonical payload in its place: what is made is the whole module.
pub fn in_module<E: Edition>(
    file: &OsStr,
    out: Option<&OsStr>,
    json: bool,
) -> Result<Report, Failure> {
    output::check_apart(file, Read::Module, out)?;
    let input = &Input::<E>::read(file)?;
    let payload = input.accepted(payloads::names(input.module()))?;
    let mut members = input.members();
    members.push(("in_module", Json::Bool(true)));
    let rewriting = Rewriting {
        members,
        before: input.bytes().len(),
        made: match payload {
            Some(payload) => with_canonical_names(input.module(), payload)?,
            None => input.bytes().to_vec(),
        },
        is_canonical: payload.map(|payload| payload.is_canonical()),
        without: "wakemiono: the module has no name section, and stays as it is.\n",
    };
    rewriting.reported(out, json)
}

/// The module with the canonical form of its names, which the library finds there.
fn with_canonical_names<E: Edition>(
    module: Module<'_, E>,
    payload: NamePayload<'_, E>,
) -> Result<Vec<u8>, Failure> {
    let canonical = payloads::canonical_names(Some(payload))?;
    let made = in_place::with_names(module, &canonical).ok_or(Failure::Misfit)?;
    let found = payloads::names(Module::<E>::in_edition(&made));
    match found {
        Ok(Some(found)) if found.as_bytes() == canonical => Ok(made),
        _ => Err(Failure::Misfit),
    }
}

/// The same for hints of the older edition.
pub fn old_hints(file: &OsStr, out: Option<&OsStr>, json: bool) -> Result<Report, Failure> {
    output::check_apart(file, Read::Module, out)?;
    let input = &Input::<First>::read(file)?;
    let payload = input.accepted(payloads::old_hints(input.module()))?;
    let mut members = input.members();
    members.push(("payload", Json::text("old_hints")));
    let rewriting = Rewriting {
        members,
        before: payload.map_or(0, |payload| payload.as_bytes().len()),
        made: input.accepted(payloads::canonical_old_hints(payload))?,
        is_canonical: payload.map(|payload| payload.is_canonical()),
        without: "wakemiono: the module has no section branchHints; its canonical payload is the \
                  one byte 00, that of no hints.\n",
    };
    rewriting.reported(out, json)
}

/// A payload's canonical form, alone or in its module.
struct Rewriting {
    /// What stands first in JSON.
    members: Vec<(&'static str, Json)>,
    /// How many bytes there were.
    before: usize,
    made: Vec<u8>,
    /// Whether the payload is canonical already; none without the section.
    is_canonical: Option<bool>,
    /// What is said where there is no section.
    without: &'static str,
}

impl Rewriting {
    fn reported(self, out: Option<&OsStr>, json: bool) -> Result<Report, Failure> {
        let note = match self.is_canonical {
            Some(_) => "",
            None => self.without,
        };
        let saving = Saving {
            before: self.before,
            after: self.made.len(),
            is_canonical: self.is_canonical,
        };
        let document = json.then(|| document(self.members, &saving, out));
        let report = output::reported(self.made, out, document, || saving.lines())?;
        // JSON says it by itself.
        Ok(if json { report } else { report.saying(note) })
    }
}

/// What the canonical form saves, in bytes.
struct Saving {
    before: usize,
    after: usize,
    /// Whether the payload is canonical already; none without a section.
    is_canonical: Option<bool>,
}

impl Saving {
    /// The canonical form of a payload is never the longer one.
    fn saved(&self) -> usize {
        self.before.saturating_sub(self.after)
    }

    fn lines(&self) -> String {
        let tenths = self.tenths_of_a_percent();
        // In a module, the size of the section may be shortened even so.
        let already = if self.is_canonical == Some(true) && self.saved() == 0 {
            "it is canonical already: the rewriting saves nothing\n"
        } else {
            ""
        };
        format!(
            "before {}\nafter {}\nsaves {} ({}.{} %)\n{already}",
            self.before,
            self.after,
            self.saved(),
            tenths / 10,
            tenths % 10
        )
    }

    /// Rounded down, so that it is 100 only where nothing is left.
    fn tenths_of_a_percent(&self) -> u128 {
        let (saved, before) = (self.saved() as u128, self.before as u128);
        (saved * 1000).checked_div(before).unwrap_or(0)
    }
}

fn document(members: Vec<(&'static str, Json)>, saving: &Saving, out: Option<&OsStr>) -> Json {
    let said = vec![
        ("section", Json::Bool(saving.is_canonical.is_some())),
        (
            "canonical",
            saving.is_canonical.map_or(Json::Null, Json::Bool),
        ),
        ("before", Json::size(saving.before)),
        ("after", Json::size(saving.after)),
        ("saves", Json::size(saving.saved())),
        output::written_to(out),
    ];
    Json::Object([members, said].concat())
}
