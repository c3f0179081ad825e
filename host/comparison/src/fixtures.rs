//! The committed fixtures.

use std::fs;
use std::path::{Path, PathBuf};

/// Their modules, in the order of their names, which is not that of the folder.
pub fn modules() -> Vec<PathBuf> {
    files("wasm")
}

/// All files of a kind, which is what their names end in, in the order of their names.
pub fn files(kind: &str) -> Vec<PathBuf> {
    let folder = Path::new(env!("CARGO_MANIFEST_DIR")).join("../fixtures");
    let mut files: Vec<PathBuf> = fs::read_dir(folder)
        .expect("host/fixtures can be read")
        .map(|entry| entry.expect("an entry can be read").path())
        .filter(|path| path.extension().is_some_and(|ending| ending == kind))
        .collect();
    files.sort();
    files
}

/// The path of the module of a fixture.
pub fn module(name: &str) -> PathBuf {
    let mut paths = modules().into_iter();
    let path = paths.find(|path| path.file_stem().is_some_and(|stem| stem == name));
    path.expect("there is such a fixture")
}
