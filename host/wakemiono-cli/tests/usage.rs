//! Help, version, misuse, and outputs that cannot be written.

mod common;

use std::fs::{self, File};
use std::io::Write;
use std::process::Stdio;

use common::{fed, file, path, program, run, BARE, COMMANDS, MODULE};

#[test]
fn help_has_every_command_and_an_example() {
    let overall = run(&["--help"]);
    overall.prints(overall.out());
    assert!(overall.out().contains("Example: wakemiono "));
    for command in COMMANDS {
        assert!(
            overall.out().contains(&format!("\n  {command} ")),
            "{command}"
        );
        let help = run(&[command, "--help"]);
        help.prints(help.out());
        assert!(
            help.out().contains(&format!("Usage: wakemiono {command} ")),
            "{command}"
        );
        assert!(
            help.out()
                .contains(&format!("Example: wakemiono {command} ")),
            "{command}"
        );
        assert!(help.out().contains("--json"), "{command}");
        assert_eq!(run(&[command, "-h"]).out(), help.out());
        run(&["help", command]).prints(help.out());
    }
    assert_eq!(run(&["-h"]).out(), overall.out());
    run(&["help"]).prints(overall.out());
}

#[test]
fn the_overview_fits_one_screen() {
    let overall = run(&["help"]);
    let lines: Vec<&str> = overall.out().lines().collect();
    assert!(lines.len() <= 24, "{} lines", lines.len());
    for line in lines {
        assert!(line.chars().count() <= 80, "{line}");
    }
}

#[test]
fn help_for_what_is_no_command() {
    run(&["help", "lst"]).is_misuse(&format!("there is no command 'lst': {LIST_OF_COMMANDS}"));
    run(&["help", "list", "names"]).is_misuse(
        "one command is explained at a time, and 'names' is a second word: leave it out; \
         see `wakemiono --help`.",
    );
}

#[test]
fn version() {
    let version = concat!("wakemiono ", env!("CARGO_PKG_VERSION"), "\n");
    run(&["--version"]).prints(version);
    run(&["-V"]).prints(version);
}

const LIST_OF_COMMANDS: &str =
    "give one of list, names, name, why, hints, metadata, canon, join, same, judge; see `wakemiono --help`.";

#[test]
fn no_such_command() {
    run(&[]).is_misuse(&format!("no command is given: {LIST_OF_COMMANDS}"));
    run(&["lst", "f"]).is_misuse(&format!("there is no command 'lst': {LIST_OF_COMMANDS}"));
    let early = format!("the command comes before the option '--json': {LIST_OF_COMMANDS}");
    run(&["--json", "list"]).is_misuse(&early);
}

#[test]
fn no_such_option() {
    for command in COMMANDS {
        let misused = run(&[command, "-", "--al\u{7}l"]);
        misused.ends(2, "");
        let sentence = "wakemiono: there is no option '--al\\u{7}l': give one of --json";
        assert!(misused.said.starts_with(sentence), "{}", misused.said);
        let see = format!("; see `wakemiono {command} --help`.\n");
        assert!(misused.said.ends_with(&see), "{}", misused.said);
    }
    run(&["list", "f", "--kind", "tag"])
        .is_misuse("there is no option '--kind': give one of --json; see `wakemiono list --help`.");
}

#[test]
fn files_that_are_not_given_or_too_many() {
    run(&["list"]).is_misuse(
        "no file is given: name one, or give - for standard input; see `wakemiono list --help`.",
    );
    run(&["judge", "a", "b"]).is_misuse(
        "one file is asked at a time, and 'b' is a second one: leave it out; \
         see `wakemiono judge --help`.",
    );
    let see = "see `wakemiono same --help`.";
    for (files, given) in [
        (&[][..], "none is"),
        (&["a"], "one is"),
        (&["a", "b", "c"], "3 are"),
    ] {
        run(&[&["same"], files].concat()).is_misuse(&format!(
            "two files are compared, and {given} given: name two; {see}"
        ));
    }
    run(&["same", "-", "-"]).is_misuse(&format!(
        "standard input can be read only once: give a file for one of the two; {see}"
    ));
}

#[test]
fn questions_that_are_none() {
    let asked = |options: &[&str], sentence: &str| {
        let sentence = format!("{sentence}; see `wakemiono name --help`.");
        run(&[&["name", "f"], options].concat()).is_misuse(&sentence);
    };
    asked(
        &[],
        "nothing is asked: give --module, --function, --type, --tag or --kept",
    );
    asked(
        &["--module", "--tag", "0"],
        "one name is asked at a time, and --module and --tag are both given: leave one out",
    );
    asked(
        &["--local", "0"],
        "--local needs its function: give --function too",
    );
    asked(&["--field", "0"], "--field needs its type: give --type too");
    asked(
        &["--type", "0", "--local", "0"],
        "a local belongs to a function: give --local together with --function alone",
    );
    asked(
        &["--function", "0", "--field", "0"],
        "a field belongs to a type: give --field together with --type alone",
    );
    asked(
        &["--function", "4294967296"],
        "--function is given '4294967296': give an index from 0 to 4294967295, in decimal or \
         behind 0x",
    );
    asked(
        &["--kept", "256"],
        "--kept is given '256': give an id from 0 to 255, in decimal or behind 0x",
    );
    asked(&["--tag"], "--tag needs a value: write it behind --tag");
}

#[test]
fn nothing_that_could_have_no_name() {
    let asked = |options: &[&str], sentence: &str| {
        let sentence = format!("{sentence}; see `wakemiono why --help`.");
        run(&[&["why", "f"], options].concat()).is_misuse(&sentence);
    };
    asked(
        &[],
        "nothing is asked: give --function, and --local too for a local in it",
    );
    asked(
        &["--local", "0"],
        "--local needs its function: give --function too",
    );
    asked(
        &["--function", "seven"],
        "--function is given 'seven': give an index from 0 to 4294967295, in decimal or behind 0x",
    );
    asked(
        &["--function", "7", "--local", "4294967296"],
        "--local is given '4294967296': give an index from 0 to 4294967295, in decimal or behind 0x",
    );
    asked(
        &["--type", "0"],
        "there is no option '--type': give one of --json, --wide, --function, --local",
    );
    asked(
        &["g", "--function", "0"],
        "one file is asked at a time, and 'g' is a second one: leave it out",
    );
}

#[test]
fn no_such_kind() {
    run(&["names", "f", "--kind", "functions"]).is_misuse(
        "there is no kind 'functions': give one of module, function, type, tag, local, field, kept; \
         see `wakemiono names --help`.",
    );
}

#[test]
fn files_that_cannot_be_read() {
    let missing = path("there-is-no-such-file");
    let sentence =
        format!("there is no file '{missing}': check the path, or give - for standard input.");
    for command in ["list", "names", "hints", "metadata", "canon", "judge"] {
        run(&[command, &missing]).is_misuse(&sentence);
    }
    run(&["name", &missing, "--module", "--json"]).is_misuse(&sentence);
    run(&["why", &missing, "--function", "0"]).is_misuse(&sentence);
    run(&["list", ""])
        .is_misuse("there is no file '': check the path, or give - for standard input.");
    fed(&["same", "-", &missing], BARE).is_misuse(&sentence);
    let folder = path("");
    let read = run(&["list", &folder]);
    read.ends(2, "");
    assert!(
        read.said.contains("give a file that holds a module"),
        "{}",
        read.said
    );
}

#[test]
fn a_file_that_begins_with_a_dash() {
    let folder = path("dash");
    fs::create_dir_all(&folder).unwrap();
    file("dash/--json", BARE);
    let mut command = program(&["list", "--", "--json"]);
    let output = command.current_dir(folder).output().unwrap();
    assert_eq!(output.stdout, b"sections 0\nname none\nhints none\n");
}

#[test]
#[cfg(unix)]
fn a_file_whose_name_is_not_text() {
    use std::ffi::OsStr;
    use std::os::unix::ffi::OsStrExt;

    let output = program(&["list"])
        .arg(OsStr::from_bytes(b"no\\\xFF\x1B"))
        .output()
        .unwrap();
    assert_eq!(output.status.code(), Some(2));
    let said = String::from_utf8(output.stderr).unwrap();
    assert!(
        said.contains("there is no file 'no\\\\\\xFF\\u{1b}': "),
        "{said}"
    );
}

#[test]
fn json_gives_the_file_as_it_was_named() {
    let quoted = file("a\"b\\c.wasm", BARE);
    let listed = run(&["list", &quoted, "--json"]);
    assert_eq!(listed.status, 0);
    common::json::check(listed.out().trim_end());
    assert!(
        listed.out().contains("a\\\"b\\\\c.wasm\","),
        "{}",
        listed.out()
    );
}

#[test]
fn outputs_that_cannot_be_written() {
    let nowhere = path("no-such-folder/out");
    let written = fed(&["canon", "-", "-o", &nowhere], MODULE);
    written.ends(2, "");
    assert!(
        written.said.contains("give another file behind -o"),
        "{}",
        written.said
    );
    fed(&["canon", "-", "-o", "-", "--json"], MODULE).is_misuse(
        "what is written and JSON cannot both go to standard output: leave out --json, or give a file \
         behind -o; see `wakemiono canon --help`.",
    );
}

/// How the program ends and what it says where the reader of its output is gone.
fn unread(arguments: &[&str], input: &[u8]) -> (Option<i32>, String) {
    let mut command = program(arguments);
    command.stdin(Stdio::piped());
    command.stdout(Stdio::piped()).stderr(Stdio::piped());
    let mut child = command.spawn().unwrap();
    // Before it has read its input, the program has nothing to print.
    drop(child.stdout.take());
    child.stdin.take().unwrap().write_all(input).unwrap();
    let ended = child.wait_with_output().unwrap();
    (
        ended.status.code(),
        String::from_utf8(ended.stderr).unwrap(),
    )
}

#[test]
fn a_broken_pipe_ends_quietly() {
    assert_eq!(unread(&["names", "-"], MODULE), (Some(0), String::new()));
}

#[test]
fn a_broken_pipe_leaves_the_words() {
    let (status, said) = unread(&["list", "-"], b"no module");
    assert_eq!(status, Some(1));
    let sentence = "wakemiono: standard input: refused, number 1: ";
    assert!(said.starts_with(sentence), "{said}");
}

#[test]
#[cfg(target_os = "linux")]
fn a_full_disk_is_said() {
    let full = || File::options().write(true).open("/dev/full");
    let run = |file: &str| {
        let mut command = program(&["list", file]);
        command.stdout(full().expect("Linux has /dev/full"));
        let output = command.output().unwrap();
        (
            output.status.code(),
            String::from_utf8(output.stderr).unwrap(),
        )
    };
    let (status, said) = run(&file("full-disk.wasm", MODULE));
    assert_eq!(status, Some(2));
    let start = "wakemiono: standard output cannot be written (";
    assert!(said.starts_with(start), "{said}");
    let advice = "): check where it is sent to and whether there is room.\n";
    assert!(said.ends_with(advice), "{said}");
    // What else there is to say is not lost.
    let (status, said) = run(&file("full-disk-refused.wasm", b"no module"));
    assert_eq!(status, Some(2));
    assert!(said.contains(": refused, number 1: "), "{said}");
    assert!(said.ends_with(advice), "{said}");
}

#[test]
fn names_and_older_hints_are_rewritten_apart() {
    run(&["canon", "f", "--old-hints", "--wide"]).is_misuse(
        "--wide is about names, and --old-hints rewrites hints: leave out one of the two; \
         see `wakemiono canon --help`.",
    );
    run(&["hints", "f", "--old-hints"]).is_misuse(
        "there is no option '--old-hints': give one of --json; see `wakemiono hints --help`.",
    );
}
