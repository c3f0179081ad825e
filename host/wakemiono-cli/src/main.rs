//! `wakemiono`: asks the metadata of WebAssembly modules from the command line.
//!
//! Every name, reason for none, hint, judgement, refusal and rewriting that is printed comes from the
//! proved library behind the crate `wakemiono`, and so do the places of the payloads in `list`. The
//! sections that it lists are found here: plain Rust (`heads.rs`), which steps over a module that the
//! library accepts and counts, and is held to the library's `wm_section` by tests. So is the place found
//! where `canon --in-module` puts canonical names (`in_place.rs`), and the library is asked whether what
//! is made has them. This program only reads and writes files, asks, and sets the answers in lines or JSON.
//!
//! `list` and `judge` give a module to the library as it is read and do not hold it whole
//! (`arriving.rs`); the others ask more than one question, and read it whole first (`input.rs`).

#![forbid(unsafe_code)]
#![deny(missing_docs)]

mod arguments;
mod arriving;
mod beside;
mod commands;
mod dump;
mod edition;
mod entries;
mod escape;
mod excerpt;
mod heads;
mod help;
mod in_place;
mod input;
mod json;
mod listing;
mod options;
mod output;
mod payloads;
mod printer;
mod progress;
mod question;
mod reader;
mod refused;
mod report;
mod sparse;
mod terminal;

use std::env;
use std::process::ExitCode;

use arguments::Invocation;
use printer::Printer;
use report::Report;
use terminal::Style;

fn main() -> ExitCode {
    let mut printer = Printer::new();
    let report = match arguments::parse(env::args_os().skip(1)) {
        Ok(Invocation::Help(topic)) => Report::good(help::text(topic, Style::of_output())),
        Ok(Invocation::Version) => Report::good(format!("wakemiono {}\n", version())),
        Ok(Invocation::Run {
            command,
            wide,
            json,
        }) => commands::run(&command, wide, json, &mut printer)
            .unwrap_or_else(|failure| failure.report(json)),
        Err(misuse) => Report::misuse(&misuse),
    };
    report.deliver(printer)
}

fn version() -> &'static str {
    env!("CARGO_PKG_VERSION")
}
