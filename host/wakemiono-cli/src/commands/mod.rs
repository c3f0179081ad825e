//! The commands, each in a file of its own. A command reads, asks and sets the answers in lines or
//! JSON. One with many answers prints them as they come; what the others have to say is their report.

mod canon;
mod hints;
mod join;
mod judge;
mod list;
mod metadata;
mod name;
mod names;
pub mod same;
mod why;

use wakemiono::{First, Wider};

use crate::arguments::Command;
use crate::beside::Beside;
use crate::edition::Edition;
use crate::input::Input;
use crate::printer::Printer;
use crate::report::{Failure, Report};

/// Runs a command, in the wider edition of names or in the first.
pub fn run(
    command: &Command,
    wide: bool,
    json: bool,
    out: &mut Printer,
) -> Result<Report, Failure> {
    if wide {
        run_in::<Wider>(command, json, out)
    } else {
        run_in::<First>(command, json, out)
    }
}

fn run_in<E: Edition>(command: &Command, json: bool, out: &mut Printer) -> Result<Report, Failure> {
    match command {
        Command::List(file) => list::run(file, json),
        Command::Names(file, kind) => names::run(&Input::<E>::read(file)?, *kind, json, out),
        Command::NamesBeside(file, names, kind) => {
            names::run_beside(&Beside::<E>::read(file, names)?, *kind, json, out)
        }
        Command::Name(file, question) => name::run(&Input::<E>::read(file)?, *question, json),
        Command::NameBeside(file, names, question) => {
            name::run_beside(&Beside::<E>::read(file, names)?, *question, json)
        }
        Command::Why(file, function, local) => {
            why::run(&Input::<E>::read(file)?, *function, *local, json)
        }
        Command::Hints(file) => hints::run(&Input::read(file)?, json, out),
        Command::Metadata(file, format) => {
            metadata::run(&Input::read(file)?, format.as_deref(), json, out)
        }
        Command::Canon(file, out) => canon::names::<E>(file, out.as_deref(), json),
        Command::CanonInModule(file, out) => canon::in_module::<E>(file, out.as_deref(), json),
        Command::CanonOldHints(file, out) => canon::old_hints(file, out.as_deref(), json),
        Command::Join(file, names, out) => join::run::<E>(file, names, out.as_deref(), json),
        Command::Same(a, b, shown) => {
            same::run(&Input::<E>::read(a)?, &Input::read(b)?, *shown, json)
        }
        Command::Judge(file) => judge::run::<E>(file, json),
    }
}
