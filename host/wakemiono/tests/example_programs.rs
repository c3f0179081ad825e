//! The programs of the folder `examples`, each run and held to what it is to print.

use std::fs;
use std::io::{self, Read};
use std::path::{Path, PathBuf};

#[path = "../examples/check_upload.rs"]
#[allow(dead_code)] // its `main` is the program's, as in those below
mod check_upload;

#[path = "../examples/close_the_gaps.rs"]
#[allow(dead_code)]
mod close_the_gaps;

#[path = "../examples/store_names.rs"]
#[allow(dead_code)]
mod store_names;

#[path = "../examples/symbol_server.rs"]
#[allow(dead_code)]
mod symbol_server;

#[path = "../examples/two_customers.rs"]
#[allow(dead_code)]
mod two_customers;

fn fixture(name: &str) -> PathBuf {
    let package = Path::new(env!("CARGO_MANIFEST_DIR"));
    package.join("../fixtures").join(name)
}

fn bytes_of(name: &str) -> Vec<u8> {
    fs::read(fixture(name)).expect("a fixture can be read")
}

/// What a program prints is what stands in the file beside it.
#[track_caller]
fn prints(printed: Vec<u8>, expected: &str) {
    assert_eq!(String::from_utf8(printed).unwrap(), expected);
}

#[test]
fn a_shared_table_is_told_of() {
    let (mut shared, mut compacted) = (vec![], vec![]);
    two_customers::tell(&mut shared).expect("it is told");
    close_the_gaps::tell(&mut compacted).expect("it is told");
    prints(shared, include_str!("../examples/two_customers.expected"));
    prints(
        compacted,
        include_str!("../examples/close_the_gaps.expected"),
    );
}

#[test]
fn functions_of_a_trace_are_named() {
    let mut out = vec![];
    let asked = ["0", "17", " 40 ", "4294967295", "4294967296", "main"];
    let asked = asked.into_iter().map(|line| Ok(line.to_owned()));
    symbol_server::serve(&bytes_of("rustc.wasm"), asked, &mut out).expect("it is served");
    let no_names = b"\0asm\x01\0\0\0";
    symbol_server::serve(no_names, [Ok("3".to_owned())].into_iter(), &mut out)
        .expect("it is served");
    prints(out, include_str!("../examples/symbol_server.expected"));
}

/// Names are asked only of what is accepted.
#[test]
fn no_function_of_damaged_names_is_named() {
    let module = bytes_of("refused-11-payload-function-index.wasm");
    let mut out = vec![];
    let asked = [Ok("0".to_owned())].into_iter();
    let refused = symbol_server::serve(&module, asked, &mut out).expect_err("it is refused");
    let refusal: &wakemiono::Refusal = refused.downcast_ref().expect("by the library");
    assert_eq!((refusal.number(), out.len()), (11, 0));
}

#[test]
fn names_are_stored_once() {
    let folder = Path::new(env!("CARGO_TARGET_TMPDIR")).join("store_names");
    fs::create_dir_all(&folder).unwrap();
    for name in [
        "by-hand-document-example.wasm",
        "by-hand-empty-module.wasm",
        "by-hand-padded-numbers.wasm",
        "refused-09-payload-subsection-order.wasm",
        "rustc.wasm",
        "wabt-hints-padded.wasm",
        "wabt-hints.wasm",
    ] {
        fs::copy(fixture(name), folder.join(name)).unwrap();
    }
    fs::write(folder.join("notes.txt"), "no module").unwrap();
    let mut out = vec![];
    store_names::store(&folder, &mut out).expect("it is stored");
    prints(out, include_str!("../examples/store_names.expected"));
}

/// A reader that has one byte at a time.
struct ByteByByte<'a>(&'a [u8]);

impl Read for ByteByByte<'_> {
    fn read(&mut self, buffer: &mut [u8]) -> io::Result<usize> {
        let length = buffer.len().min(1);
        self.0.read(&mut buffer[..length])
    }
}

#[test]
fn uploads_are_checked_however_they_are_cut() {
    let mut out = vec![];
    for (name, accepted) in [
        ("wabt-hints.wasm", true),
        ("by-hand-empty-module.wasm", true),
        ("refused-02-section-past-end.wasm", false),
        ("refused-07-second-name.wasm", false),
    ] {
        let module = bytes_of(name);
        let mut at_once = vec![];
        let checked = check_upload::check(&mut &module[..], module.len(), &mut at_once).unwrap();
        assert_eq!(checked, accepted, "{name}");
        for part in [1, 7, 4096] {
            let mut in_parts = vec![];
            check_upload::check(&mut ByteByByte(&module), part, &mut in_parts).unwrap();
            assert_eq!(in_parts, at_once, "{name}");
        }
        out.extend(at_once);
    }
    prints(out, include_str!("../examples/check_upload.expected"));
}
