//! The examples of this folder's README.md, run as they are written.

mod common;

use std::fs;

use common::{path, program, BARE, COMMANDS, MODULE, NAMES, NO_SUCH_SECTION, WIDE};

const README: &str = include_str!("../README.md");

/// The indented lines, without their indent.
fn examples() -> Vec<&'static str> {
    let lines = README.lines();
    lines.filter_map(|line| line.strip_prefix("    ")).collect()
}

#[test]
fn examples_print_what_they_say() {
    let folder = path("readme");
    fs::create_dir_all(&folder).unwrap();
    let newer = common::hinted(b"\x01\x02\x01\x05\x01\x01");
    let older = common::old_hinted(b"\x01\x02\x00\x01\x00\x03");
    let hinted = common::joined(&newer, &older);
    let traced = common::custom("metadata.code.trace", b"\x01\x02\x02\x05\x02ab\x09\x00");
    for (name, module) in [
        ("app.wasm", MODULE),
        ("wide.wasm", WIDE),
        ("hinted.wasm", &hinted),
        ("traced.wasm", &traced),
        ("bare.wasm", BARE),
        ("later.wasm", NO_SUCH_SECTION),
        ("app.names", NAMES),
    ] {
        fs::write(format!("{folder}/{name}"), module).unwrap();
    }
    for example in examples().chunks(2) {
        let [asked, printed] = example else {
            panic!("an example without what it prints: {example:?}");
        };
        let words: Vec<&str> = asked.split(' ').skip(1).collect();
        let mut command = program(&words);
        let output = command.current_dir(&folder).output().unwrap();
        let out = String::from_utf8(output.stdout).unwrap();
        assert_eq!(out, format!("{printed}\n"), "{asked}");
        assert_eq!(output.stderr, b"", "{asked}");
        common::json::check(printed);
    }
}

#[test]
fn every_command_has_an_example_and_a_row() {
    let examples = examples();
    for command in COMMANDS {
        let asked = format!("wakemiono {command} ");
        assert!(examples.iter().any(|line| line.starts_with(&asked)));
        assert!(README.contains(&format!("\n| `{command}` | ")), "{command}");
    }
}

#[test]
fn misuse_has_no_json() {
    for command in COMMANDS {
        let misused = common::run(&[command, "there-is-no-such-file", "--json", "--nonsense"]);
        misused.ends(2, "");
        assert!(misused.said.starts_with("wakemiono: "), "{}", misused.said);
    }
    let read = common::run(&["judge", "there-is-no-such-file", "--json"]);
    read.ends(2, "");
    assert_ne!(read.said, "");
}
