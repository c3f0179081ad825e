//! A store that keeps the names of many modules, and each canonical payload once, however its producer
//! spelled it.
//!
//! `cargo run --example store_names builds/` stores the names of every module in the folder, and prints
//! what that saved.

use std::collections::BTreeMap;
use std::env;
use std::error::Error;
use std::fs;
use std::io::{self, Write};
use std::path::{Path, PathBuf};

use wakemiono::{Module, Refusal};

const USAGE: &str = "usage: store_names FOLDER";

fn main() -> Result<(), Box<dyn Error>> {
    let folder = env::args_os().nth(1).ok_or(USAGE)?;
    store(Path::new(&folder), &mut io::stdout().lock())
}

/// What is stored: canonical payloads, each with the modules that have it.
#[derive(Default)]
struct Store {
    payloads: BTreeMap<Vec<u8>, Vec<String>>,
    /// How many bytes the payloads took as they came.
    came: usize,
}

impl Store {
    /// Takes the names of a module, and answers whether there were any.
    fn take(&mut self, file: &str, module: &[u8]) -> Result<bool, Refusal> {
        let module = Module::new(module);
        // Asked through the module first, so that a refusal says where in the file the fault lies.
        module.module_name()?;
        let Some(names) = module.names()? else {
            return Ok(false);
        };
        // Two payloads have the same canonical form exactly where every question gets the same answer.
        let canonical = names.to_canonical()?;
        self.came += names.as_bytes().len();
        let files = self.payloads.entry(canonical).or_default();
        files.push(file.to_owned());
        Ok(true)
    }

    /// How many bytes are kept.
    fn kept(&self) -> usize {
        self.payloads.keys().map(Vec::len).sum()
    }
}

/// Stores all modules of a folder, in the order of their names, and prints what becomes of each.
pub fn store(folder: &Path, out: &mut impl Write) -> Result<(), Box<dyn Error>> {
    let mut store = Store::default();
    for path in modules_in(folder)? {
        let file = path.file_name().unwrap_or_default().to_string_lossy();
        match store.take(&file, &fs::read(&path)?) {
            Ok(true) => {}
            Ok(false) => writeln!(out, "{file}: no name section")?,
            Err(refusal) => {
                writeln!(out, "{file}: not stored: {refusal}")?;
                writeln!(out, "  what to do: {}", refusal.advice())?;
            }
        }
    }
    for (payload, files) in store.payloads.iter().filter(|(_, files)| files.len() > 1) {
        writeln!(out, "{} bytes once for {}", payload.len(), files.join(", "))?;
    }
    let (came, kept) = (store.came, store.kept());
    let modules: usize = store.payloads.values().map(Vec::len).sum();
    let payloads = store.payloads.len();
    writeln!(out, "{modules} modules have {payloads} payloads")?;
    writeln!(
        out,
        "{kept} bytes in place of {came}: {} saved",
        came - kept
    )?;
    Ok(())
}

fn modules_in(folder: &Path) -> io::Result<Vec<PathBuf>> {
    let entries: io::Result<Vec<fs::DirEntry>> = fs::read_dir(folder)?.collect();
    let paths = entries?.into_iter().map(|entry| entry.path());
    let mut modules: Vec<PathBuf> = paths
        .filter(|path| path.extension().is_some_and(|it| it == "wasm"))
        .collect();
    modules.sort();
    Ok(modules)
}
