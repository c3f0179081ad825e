//! `bench`: what the library and the second reader execute for the same payloads, in instructions.
//!
//! It runs under qemu with the plugin `icount.c`, one payload in a run, since a region's number is one byte. A run
//! prints which region counts what; the plugin's counts, put behind that, are what the table is made of.

mod bars;
mod bytes;
mod code;
mod fixtures;
mod gaps;
mod made;
mod measuring;
mod modules;
mod name_map;
mod old_hints;
mod operation;
mod pairs;
mod payload;
mod region;
mod shared;
mod table;
mod texts;

use std::process::ExitCode;

use table::Row;

// The crate that links the library is used for nothing else here.
use wakemiono as _;

const USAGE: &str = "\
bench payloads        the names of the payloads, a line each
bench run PAYLOAD     puts each operation on a payload to both readers, and prints which region counts what
bench table COUNTS    the counts of all runs as a table
bench lines COUNTS    the same as tab-separated lines
bench bars COUNTS     how near rewritings of older hints, markers, quick questions, pairs, modules in parts, hints on branches, opens and compactions of shared tables are to their bars; fails where one is broken
";

fn main() -> ExitCode {
    let arguments: Vec<String> = std::env::args().skip(1).collect();
    let words: Vec<&str> = arguments.iter().map(String::as_str).collect();
    let said = match words[..] {
        ["payloads"] => Ok(payload::names().join("\n") + "\n"),
        ["run", name] => run(name),
        ["table", counts] => rows(counts).map(|rows| table::aligned(&rows)),
        ["lines", counts] => rows(counts).map(|rows| table::tab_separated(&rows)),
        ["bars", counts] => rows(counts).and_then(|rows| bars::lines(&rows)),
        _ => Err(USAGE.to_string()),
    };
    match said {
        Ok(text) => {
            print!("{text}");
            ExitCode::SUCCESS
        }
        Err(sentence) => {
            eprintln!("{}", sentence.trim_end());
            ExitCode::FAILURE
        }
    }
}

fn run(name: &str) -> Result<String, String> {
    let unknown = || format!("There is no payload '{name}': `bench payloads` lists them.");
    let payload = payload::named(name).ok_or_else(unknown)?;
    let operations = measuring::measure(&payload)?;
    Ok(table::mapping(&payload, &operations))
}

fn rows(path: &str) -> Result<Vec<Row>, String> {
    let counts = std::fs::read_to_string(path).map_err(|why| format!("{path}: {why}"))?;
    table::rows(&counts)
}
