//! `list`: the sections of a module, and where their contents and its payloads lie.

use std::ffi::OsStr;
use std::ops::Range;

use wakemiono::{First, Place, Walked};

use crate::arriving::Arrived;
use crate::escape;
use crate::heads::{Section, ShownName};
use crate::json::Json;
use crate::refused::Refused;
use crate::report::{Failure, Report, Status};
use crate::terminal::Style;

/// What stands behind a name that is shown by its beginning. No whole name is shown so, since a
/// backslash in it would be escaped.
const CUT: &str = r"\...";

/// Lists the sections.
pub fn run(file: &OsStr, json: bool) -> Result<Report, Failure> {
    let module = Arrived::<First>::read(file, &[])?;
    match module.walked.map_err(|refusal| module.refused(refusal)) {
        Ok(walked) if json => Ok(Report::json(Status::Good, &document(&module, walked)?)),
        Ok(walked) => Ok(Report::good(lines(&module, walked)?)),
        Err(refused) if json => Err(Failure::Refused(Box::new(refused))),
        Err(refused) => Ok(refused_lines(&refused)),
    }
}

/// The listing format has a line for a refusal, and the person gets the words as well.
fn refused_lines(refused: &Refused) -> Report {
    let words = format!("wakemiono: {}", refused.words(Style::of_errors()));
    Report::ending(Status::Bad, refused.listing_line()).saying(words)
}

fn lines(module: &Arrived<First>, walked: Walked) -> Result<String, Failure> {
    let mut lines = format!("sections {}\n", module.sections.len());
    for (section, contents) in module.with_contents() {
        let name = module.shown_name(section.id, &contents)?;
        lines.push_str(&line(section, contents.start, name));
    }
    for (word, place) in [("name", walked.name), ("hints", walked.hints)] {
        lines.push_str(&match place {
            Some(Place { offset, length }) => format!("{word} {offset} {length}\n"),
            None => format!("{word} none\n"),
        });
    }
    Ok(lines)
}

/// The line of a section. The name stands last, since it may have spaces.
fn line(section: &Section, contents: u64, name: Option<ShownName<'_>>) -> String {
    let Section { id, offset, length } = section;
    let name = name.map_or(String::new(), |name| {
        let cut = if name.is_cut() { CUT } else { "" };
        format!(" {}{cut}", escape::escaped(name.text.as_bytes()))
    });
    format!("{id} {offset} {length} {contents}{name}\n")
}

fn document(module: &Arrived<First>, walked: Walked) -> Result<Json, Failure> {
    let section = |(section, contents): (&Section, Range<u64>)| {
        let name = module.shown_name(section.id, &contents)?;
        Ok(section_json(section, contents.start, name))
    };
    let sections: Result<Vec<Json>, Failure> = module.with_contents().map(section).collect();
    Ok(Json::Object(vec![
        ("file", module.file()),
        ("sections", Json::List(sections?)),
        ("name", place_json(walked.name)),
        ("hints", place_json(walked.hints)),
    ]))
}

fn section_json(section: &Section, contents: u64, name: Option<ShownName<'_>>) -> Json {
    let mut members = vec![
        ("id", section.id.into()),
        ("offset", Json::Number(section.offset)),
        ("length", Json::Number(section.length)),
        ("contents", Json::Number(contents)),
    ];
    if let Some(name) = name {
        members.push(("name", Json::text(name.text)));
        members.push(("name_length", name.length.into()));
    }
    Json::Object(members)
}

fn place_json(place: Option<Place>) -> Json {
    place.map_or(Json::Null, |Place { offset, length }| {
        Json::Object(vec![
            ("offset", Json::Number(offset)),
            ("length", Json::Number(length)),
        ])
    })
}
