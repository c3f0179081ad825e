//! What a person at a terminal sees besides: colour, and a line that says how far it is. `script`, which Debian always
//! has, lends a terminal.

mod common;

use std::process::Command;

use common::{file, run, BARE, NO_SUCH_SECTION};

/// What begins and ends what is wrong, and a heading.
const WRONG: &str = "\x1B[1;31m";
const HEADING: &str = "\x1B[1m";
const AS_BEFORE: &str = "\x1B[0m";

/// What wipes a line away.
const WIPE: &str = "\r\x1B[K";

/// What a shell shows on a terminal, in which `$wakemiono` is the program and `$file` a file.
fn shown(line: &str, file: &str, variables: &[(&str, &str)]) -> String {
    let mut script = Command::new("script");
    script.args(["--quiet", "--return", "--command", line, "/dev/null"]);
    script.env_remove("NO_COLOR").env("TERM", "xterm");
    script.env("wakemiono", env!("CARGO_BIN_EXE_wakemiono"));
    script.env("file", file).envs(variables.iter().copied());
    let output = script.output().expect("script runs");
    let shown = String::from_utf8(output.stdout).unwrap();
    shown.replace("\r\n", "\n")
}

#[test]
fn a_refusal_is_set_off() {
    let file = file("terminal-refused.wasm", NO_SUCH_SECTION);
    let plain = run(&["names", &file]).said;
    assert!(!plain.contains('\x1B'), "{plain:?}");
    let coloured = shown("$wakemiono names $file", &file, &[]);
    assert_ne!(coloured, plain);
    for set_off in [
        format!("{WRONG}refused, number 5{AS_BEFORE}: "),
        format!("  {WRONG}^^{AS_BEFORE}\n"),
        format!("  {HEADING}what to do{AS_BEFORE}: "),
    ] {
        assert!(coloured.contains(&set_off), "{coloured:?}");
    }
    let without = [WRONG, HEADING, AS_BEFORE].iter();
    let without = without.fold(coloured, |text, escape| text.replace(escape, ""));
    assert_eq!(without, plain);
    let judged = shown("$wakemiono judge $file", &file, &[]);
    let set_off = format!("module {WRONG}refused, number 5{AS_BEFORE}: ");
    assert!(judged.starts_with(&set_off), "{judged:?}");
}

#[test]
fn nothing_is_set_off_where_it_is_not_wanted_or_understood() {
    let file = file("terminal-plain.wasm", NO_SUCH_SECTION);
    let plain = run(&["names", &file]).said;
    for variables in [[("NO_COLOR", "1")], [("TERM", "dumb")]] {
        assert_eq!(shown("$wakemiono names $file", &file, &variables), plain);
    }
    // What goes to a pipe is plain, and what goes to the terminal is not.
    let piped = shown("$wakemiono judge $file | cat", &file, &[]);
    assert_eq!(piped, run(&["judge", &file]).out());
    let empty = shown("$wakemiono names $file", &file, &[("NO_COLOR", "")]);
    assert!(empty.contains(WRONG), "{empty:?}");
}

#[test]
fn help_has_headings() {
    let help = shown("$wakemiono help list", "", &[]);
    assert!(help.contains(&format!("\n{HEADING}Usage:{AS_BEFORE} ")));
    assert!(help.contains(&format!("\n{HEADING}Example:{AS_BEFORE} ")));
}

/// A module of which the end comes only after more than a second.
const SLOWLY: &str = "(head -c 4 $file; sleep 1.7; tail -c 4 $file) | $wakemiono list -";

#[test]
fn what_takes_long_is_followed_and_the_line_wiped_away() {
    let file = file("terminal-slow.wasm", BARE);
    let listed = "sections 0\nname none\nhints none\n";
    let seen = shown(SLOWLY, &file, &[]);
    let (progress, end) = seen.rsplit_once(WIPE).expect("the line is wiped away");
    assert_eq!(end, listed);
    let first = progress.strip_prefix(WIPE).expect("a line of its own");
    assert!(first.starts_with("wakemiono: 4 B read, "), "{first:?}");
}

#[test]
fn what_is_quick_or_not_watched_has_no_such_line() {
    let file = file("terminal-quick.wasm", BARE);
    let listed = "sections 0\nname none\nhints none\n";
    assert_eq!(shown("$wakemiono list $file", &file, &[]), listed);
    let unwatched = format!("{{ {SLOWLY}; }} 2>&1 | cat");
    assert_eq!(shown(&unwatched, &file, &[]), listed);
    assert_eq!(shown(SLOWLY, &file, &[("TERM", "dumb")]), listed);
}
