//! A symbol server: a module's name payload is marked once, and then every function index of a stack trace
//! is asked quickly.
//!
//! `cargo run --example symbol_server app.wasm 3 17` names these two functions. Without indices they are
//! read from standard input, one on a line, as a trace comes in.

use std::env;
use std::error::Error;
use std::fs;
use std::io::{self, BufRead, Write};

use wakemiono::{FunctionIndex, Markers, Module};

const USAGE: &str = "usage: symbol_server MODULE [INDEX..]";

fn main() -> Result<(), Box<dyn Error>> {
    let mut words = env::args().skip(1);
    let module = fs::read(words.next().ok_or(USAGE)?)?;
    let indices: Vec<String> = words.collect();
    let mut out = io::stdout().lock();
    if indices.is_empty() {
        return serve(&module, io::stdin().lock().lines(), &mut out);
    }
    serve(&module, indices.into_iter().map(Ok), &mut out)
}

/// Answers each index on a line of its own, as soon as it is asked.
pub fn serve(
    module: &[u8],
    asked: impl Iterator<Item = io::Result<String>>,
    out: &mut impl Write,
) -> Result<(), Box<dyn Error>> {
    let module = Module::new(module);
    // Asked through the module first, so that a refusal says where in the file the fault lies.
    module.module_name()?;
    // The payload is judged here, and not by each question.
    let markers = module.names()?.map(|names| names.markers()).transpose()?;
    for line in asked {
        let line = line?;
        match line.trim().parse() {
            Ok(index) => answer(markers.as_ref(), FunctionIndex(index), out)?,
            Err(wrong) => writeln!(out, "{line:?} is no function index: {wrong}")?,
        }
        out.flush()?;
    }
    Ok(())
}

fn answer(
    markers: Option<&Markers<'_>>,
    function: FunctionIndex,
    out: &mut impl Write,
) -> io::Result<()> {
    match markers.and_then(|markers| markers.quick(function)) {
        Some(name) => writeln!(out, "{function} {name}"),
        None => writeln!(out, "{function} has no name"),
    }
}
