//! Links the archive `libwakemiono.a`, which `make lib` writes.

use std::env;
use std::path::{Path, PathBuf};
use std::process::ExitCode;

const ARCHIVE: &str = "libwakemiono.a";
const FOLDER_VARIABLE: &str = "WAKEMIONO_LIB_DIR";

fn main() -> ExitCode {
    println!("cargo:rerun-if-changed=build.rs");
    println!("cargo:rerun-if-env-changed={FOLDER_VARIABLE}");
    match link() {
        Ok(()) => ExitCode::SUCCESS,
        Err(sentence) => {
            eprintln!("{sentence}");
            ExitCode::FAILURE
        }
    }
}

fn link() -> Result<(), String> {
    target_is_supported()?;
    let folder = folder()?;
    let archive = folder.join(ARCHIVE);
    println!("cargo:rerun-if-changed={}", archive.display());
    if !archive.is_file() {
        let folder = folder.display();
        return Err(match env::var_os(FOLDER_VARIABLE) {
            Some(_) => format!(
                "The archive {ARCHIVE} is not in {folder}, which {FOLDER_VARIABLE} names: name the \
                 folder that holds it, or unset the variable and run `make lib` at the root of the \
                 repository."
            ),
            None => format!(
                "The archive {ARCHIVE} is not in {folder}: run `make lib` at the root of the \
                 repository, or set {FOLDER_VARIABLE} to the folder that holds it."
            ),
        });
    }
    println!("cargo:rustc-link-search=native={}", folder.display());
    println!("cargo:rustc-link-lib=static=wakemiono");
    Ok(())
}

fn target_is_supported() -> Result<(), String> {
    let of_target = |name: &str| env::var(format!("CARGO_CFG_TARGET_{name}")).unwrap_or_default();
    let (arch, width, family) = (
        of_target("ARCH"),
        of_target("POINTER_WIDTH"),
        of_target("FAMILY"),
    );
    if (arch.as_str(), width.as_str(), family.as_str()) == ("x86_64", "64", "unix") {
        return Ok(());
    }
    Err(format!(
        "The archive {ARCHIVE} is for x86-64 with the System V calling convention, and this build \
         is for {}: build with `--target x86_64-unknown-linux-gnu`.",
        env::var("TARGET").unwrap_or_default()
    ))
}

/// The folder that the environment names, or the one that `make lib` writes to.
fn folder() -> Result<PathBuf, String> {
    if let Some(named) = env::var_os(FOLDER_VARIABLE) {
        let named = PathBuf::from(named);
        if named.is_absolute() {
            return Ok(named);
        }
        return Err(format!(
            "{FOLDER_VARIABLE} is '{}': set it to a whole path, from the root of the file system.",
            named.display()
        ));
    }
    let package = env::var_os("CARGO_MANIFEST_DIR")
        .ok_or("CARGO_MANIFEST_DIR is not set: build with cargo.")?;
    let root = Path::new(&package).ancestors().nth(2);
    Ok(root
        .ok_or("This package has no repository around it.")?
        .join("target")
        .join("staticlib"))
}
