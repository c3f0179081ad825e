//! `hints`: all branch hints of a module, those of each edition under the name of its section.

use wakemiono::{FunctionIndex, Hint};

use crate::input::Input;
use crate::json::Json;
use crate::listing::Listing;
use crate::payloads;
use crate::printer::Printer;
use crate::report::{Failure, Report};
use crate::terminal::Style;

/// A hint: its function, its place there, which each edition counts from another start, and what it
/// says.
type Row = (FunctionIndex, u32, Hint);

/// The hints of one edition.
struct Shown {
    section: &'static str,
    /// What JSON calls them.
    key: &'static str,
    /// None without the section.
    rows: Option<Vec<Row>>,
}

/// Lists the hints.
pub fn run(input: &Input, json: bool, out: &mut Printer) -> Result<Report, Failure> {
    let shown = [
        Shown {
            section: payloads::HINTS,
            key: "hints",
            rows: newer(input)?,
        },
        Shown {
            section: payloads::OLD_HINTS,
            key: "old_hints",
            rows: older(input)?,
        },
    ];
    let mut listing = Listing::begin(out, json.then(|| input.members()));
    for edition in &shown {
        edition.list(&mut listing);
    }
    listing.end();
    let note = if json { String::new() } else { note(&shown) };
    Ok(Report::good("").saying(note))
}

fn newer(input: &Input) -> Result<Option<Vec<Row>>, Failure> {
    let Some(payload) = input.accepted(payloads::hints(input.module()))? else {
        return Ok(None);
    };
    // What was accepted is not refused now, nor below.
    let hints = payload.items().map_err(|_| Failure::Misfit)?;
    let row = |((function, at), hint): ((_, wakemiono::CodeOffset), _)| (function, at.0, hint);
    Ok(Some(hints.map(row).collect()))
}

fn older(input: &Input) -> Result<Option<Vec<Row>>, Failure> {
    let Some(payload) = input.accepted(payloads::old_hints(input.module()))? else {
        return Ok(None);
    };
    let hints = payload.items().map_err(|_| Failure::Misfit)?;
    let row =
        |((function, at), hint): ((_, wakemiono::InstructionOffset), _)| (function, at.0, hint);
    Ok(Some(hints.map(row).collect()))
}

impl Shown {
    /// The section's name and a line for each hint; no lines without the section.
    fn list(&self, listing: &mut Listing<'_>) {
        if self.rows.is_some() {
            listing.line(&Style::of_output().heading(self.section));
        }
        listing.list(self.key, |listing| {
            let mut rows = self.rows.iter().flatten();
            // Until there is no use in another.
            rows.all(|row| listing.row(|| line(row), || object(row)))
        });
    }
}

fn line((function, offset, hint): &Row) -> String {
    format!("{function} {offset} {hint}\n")
}

fn object((function, offset, hint): &Row) -> Json {
    Json::Object(vec![
        ("function", function.0.into()),
        ("offset", (*offset).into()),
        ("hint", Json::text(hint.to_string())),
    ])
}

/// What is said of sections that are not there, or have nothing in them.
fn note(shown: &[Shown]) -> String {
    if shown.iter().all(|edition| edition.rows.is_none()) {
        return "wakemiono: the module has no section of branch hints.\n".to_owned();
    }
    let is_empty = |edition: &&Shown| edition.rows.as_ref().is_some_and(Vec::is_empty);
    let empty = shown.iter().filter(is_empty);
    empty
        .map(|edition| format!("wakemiono: the section {} has no hints.\n", edition.section))
        .collect()
}
