//! `join`: names that came apart from a module and its own, in one canonical payload.

use std::ffi::OsStr;

use crate::beside::Beside;
use crate::edition::Edition;
use crate::json::Json;
use crate::output::{self, Read};
use crate::report::{Failure, Report};

/// Joins both payloads: writes the joined one where an output is given, and says how long it would be
/// otherwise.
pub fn run<E: Edition>(
    file: &OsStr,
    names: &OsStr,
    out: Option<&OsStr>,
    json: bool,
) -> Result<Report, Failure> {
    output::check_apart(file, Read::Module, out)?;
    output::check_apart(names, Read::Names, out)?;
    let beside = Beside::<E>::read(file, names)?;
    let pair = beside.pair()?;
    let joined = beside.joined(pair)?;
    let lengths = [
        ("separate", pair.separate().as_bytes().len()),
        ("own", pair.own().as_bytes().len()),
        ("joined", joined.len()),
    ];
    output::reported(
        joined,
        out,
        json.then(|| document(beside.members(), &lengths, out)),
        || lines(&lengths),
    )
}

type Lengths = [(&'static str, usize)];

fn lines(lengths: &Lengths) -> String {
    let line = |(of, length): &(&str, usize)| format!("{of} {length}\n");
    lengths.iter().map(line).collect()
}

fn document(members: Vec<(&'static str, Json)>, lengths: &Lengths, out: Option<&OsStr>) -> Json {
    let lengths = lengths
        .iter()
        .map(|(of, length)| (*of, Json::size(*length)));
    let written = vec![output::written_to(out)];
    Json::Object([members, lengths.collect(), written].concat())
}
