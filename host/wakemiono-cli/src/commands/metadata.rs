//! `metadata`: all code metadata of a module, that of each format under the name of its section.

use std::collections::BTreeSet;
use std::ffi::OsStr;

use wakemiono::{offset_in, CodeOffset, FunctionIndex, Name, Section};

use crate::escape;
use crate::input::Input;
use crate::json::Json;
use crate::listing::Listing;
use crate::payloads;
use crate::printer::Printer;
use crate::report::{Failure, Report};
use crate::terminal::Style;

/// Data, and the place in a function's code that has it.
type Row<'a> = ((FunctionIndex, CodeOffset), &'a [u8]);

/// The data of one format.
struct Shown<'a> {
    section: Name<'a>,
    rows: Vec<Row<'a>>,
}

/// Lists the metadata of one format, or of all that the module has.
pub fn run(
    input: &Input,
    format: Option<&OsStr>,
    json: bool,
    out: &mut Printer,
) -> Result<Report, Failure> {
    let mut shown = Vec::new();
    for (name, format) in formats(input, format)? {
        shown.push(Shown {
            section: name,
            rows: items(input, format)?,
        });
    }
    let mut listing = Listing::begin(out, json.then(|| input.members()));
    if json {
        listing.list("sections", |listing| {
            shown
                .iter()
                .all(|it| listing.row(String::new, || it.json(input)))
        });
    } else {
        shown.iter().for_each(|it| it.list(input, &mut listing));
    }
    listing.end();
    let note = if json {
        String::new()
    } else {
        note(&shown, format)
    };
    Ok(Report::good("").saying(note))
}

/// The sections to be listed, each by its name and its format. Of several with one name the library asks the first.
fn formats<'a>(
    input: &'a Input,
    wanted: Option<&OsStr>,
) -> Result<Vec<(Name<'a>, &'a [u8])>, Failure> {
    let sections = input.accepted(input.module().sections())?;
    let mut met = BTreeSet::new();
    let format = |section: Section<'a>| {
        let name = section.name()?;
        let format = name
            .as_bytes()
            .strip_prefix(payloads::METADATA.as_bytes())?;
        let is_wanted = wanted.map_or(true, |it| it.as_encoded_bytes() == format);
        (is_wanted && met.insert(format)).then_some((name, format))
    };
    Ok(sections.filter_map(format).collect())
}

/// All data of a format, judged by a question through the module, so that the offset of a refusal counts from its
/// start.
fn items<'a>(input: &'a Input, format: &[u8]) -> Result<Vec<Row<'a>>, Failure> {
    let module = input.module();
    let asked = module.metadata(format, FunctionIndex(0), CodeOffset(0));
    input.accepted(asked)?;
    // It was found among the sections, and what was accepted is not refused now.
    let payload = input.accepted(module.code_metadata(format))?;
    let items = payload.ok_or(Failure::Misfit)?.items();
    Ok(items.map_err(|_| Failure::Misfit)?.collect())
}

impl Shown<'_> {
    fn list(&self, input: &Input, listing: &mut Listing<'_>) {
        let heading = self.section.to_string();
        listing.line(&Style::of_output().heading(&heading));
        let mut rows = self.rows.iter();
        // Until there is no use in another.
        rows.all(|row| listing.row(|| line(row, input), || object(row, input)));
    }

    fn json(&self, input: &Input) -> Json {
        let items = self.rows.iter().map(|row| object(row, input));
        let name = String::from_utf8_lossy(self.section.as_bytes());
        Json::Object(vec![
            ("section", Json::text(name)),
            ("items", items.collect()),
        ])
    }
}

/// Where data lies in the file.
fn place(data: &[u8], input: &Input) -> usize {
    offset_in(input.bytes(), data).expect("what is found lies in what was lent")
}

fn line(((function, at), data): &Row<'_>, input: &Input) -> String {
    let (place, length) = (place(data, input), data.len());
    let bytes: String = data.iter().map(|byte| format!(" {byte:02X}")).collect();
    format!("{function} {at} {place} {length}{bytes}\n")
}

fn object(((function, at), data): &Row<'_>, input: &Input) -> Json {
    Json::Object(vec![
        ("function", function.0.into()),
        ("offset", at.0.into()),
        (
            "data",
            Json::Object(vec![
                ("offset", Json::size(place(data, input))),
                ("length", Json::size(data.len())),
                ("bytes", Json::bytes(data)),
            ]),
        ),
    ])
}

/// What is said of sections that are not there, or have nothing in them.
fn note(shown: &[Shown<'_>], wanted: Option<&OsStr>) -> String {
    match (shown, wanted) {
        ([], None) => "wakemiono: the module has no section of code metadata.\n".to_owned(),
        ([], Some(format)) => {
            let section = format!("{}{}", payloads::METADATA, escape::word(format));
            format!("wakemiono: the module has no section {section}.\n")
        }
        _ => {
            let empty = shown.iter().filter(|it| it.rows.is_empty());
            let said =
                |it: &Shown<'_>| format!("wakemiono: the section {} has no data.\n", it.section);
            empty.map(said).collect()
        }
    }
}
