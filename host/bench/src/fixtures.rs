//! The name payloads of the committed fixtures, where module and payload are accepted.

use std::fs;
use std::path::Path;

use comparison::fixtures::modules;
use comparison::library::{custom, names_judge, FOUND};

use crate::payload::{Kind, Payload, NAMES};

/// Those that are measured by the wider edition too: binaryen names what it knows but labels, lld globals and segments.
const WIDE: [&str; 2] = ["binaryen-wide", "clang-lld-threads"];

/// How a fixture is called that is refused, be it by the wider edition alone.
const REFUSED: &str = "refused-";

pub fn payloads() -> Vec<Payload> {
    modules().iter().filter_map(|path| accepted(path)).collect()
}

fn accepted(path: &Path) -> Option<Payload> {
    let stem = path.file_stem().expect("a file has a name");
    let stem = stem.to_string_lossy();
    if stem.starts_with(REFUSED) {
        return None;
    }
    let module = fs::read(path).expect("a fixture can be read");
    let found = custom(&module, NAMES.as_bytes());
    if found.kind != FOUND {
        return None;
    }
    let bytes = &module[found.offset as usize..][..found.length as usize];
    if names_judge(bytes).kind != FOUND {
        return None;
    }
    let kind = match WIDE.contains(&stem.as_ref()) {
        true => Kind::WideNames,
        false => Kind::Names,
    };
    let name = format!("fixture:{stem}");
    Some(Payload::alone(name, kind, bytes.to_vec()))
}

#[cfg(test)]
mod tests {
    use super::*;

    #[test]
    fn two_are_measured_by_the_wider_edition() {
        let wide = |payload: &Payload| payload.kind == Kind::WideNames;
        assert_eq!(payloads().into_iter().filter(wide).count(), WIDE.len());
    }
}
