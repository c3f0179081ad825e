//! Every public item of this crate has an example in its documentation, where it runs as a test.

use std::fs;
use std::path::Path;

/// What begins a public item that is to have an example.
const PUBLIC: [&str; 7] = [
    "pub fn ",
    "pub const fn ",
    "pub const ",
    "pub struct ",
    "pub enum ",
    "pub trait ",
    "pub type ",
];

/// The public items of a file, each with whether an example stands in the comment before it. What a macro makes has
/// its comment where the macro is used, and what stands in `ffi` cannot be named outside this crate.
fn items(source: &str) -> Vec<(&str, bool)> {
    let mut items = vec![];
    let mut has_example = false;
    for line in source.lines().map(str::trim_start) {
        let is_item = PUBLIC.iter().any(|begin| line.starts_with(begin));
        if is_item && !line.contains('$') {
            items.push((line, has_example));
        }
        let goes_on = line.starts_with("///") || line.starts_with("#[");
        has_example = goes_on && (has_example || line.starts_with("/// ```"));
    }
    items
}

#[test]
fn every_public_item_has_an_example() {
    let folder = Path::new(env!("CARGO_MANIFEST_DIR")).join("src");
    let mut checked = 0;
    for entry in fs::read_dir(folder).unwrap() {
        let path = entry.unwrap().path();
        if path.is_dir() || path.ends_with("ffi.rs") {
            continue;
        }
        let source = fs::read_to_string(&path).unwrap();
        for (item, has_example) in items(&source) {
            assert!(has_example, "{}: {item}", path.display());
            checked += 1;
        }
    }
    assert!(checked > 100, "{checked}");
}

#[test]
fn an_item_without_an_example_is_seen() {
    let source = "/// Is one.\n///\n/// ```\n/// one();\n/// ```\n#[must_use]\npub fn one() {}\n\n\
                  /// Is two.\npub fn two() {}\n\npub(crate) fn three() {}\n";
    let seen = [("pub fn one() {}", true), ("pub fn two() {}", false)];
    assert_eq!(items(source), seen);
}
