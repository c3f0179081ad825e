//! The completions for bash, zsh and fish and the manual page: each has every command with exactly the
//! options that it takes.

mod common;

use std::collections::BTreeSet;
use std::process::Command;

use common::{run, COMMANDS};

const BASH: &str = include_str!("../completions/wakemiono.bash");
const ZSH: &str = include_str!("../completions/_wakemiono");
const FISH: &str = include_str!("../completions/wakemiono.fish");
const MAN: &str = include_str!("../man/wakemiono.1");
const INSTALL: &str = include_str!("../../../tools/install");

/// What completions add to the options of a command.
const HELP: &str = "--help";

/// The words of which misuse says that one is to be given.
fn to_be_given(arguments: &[&str]) -> BTreeSet<String> {
    let misused = run(arguments);
    let (_, words) = misused.said.split_once(": give one of ").unwrap();
    let (words, _) = words.split_once("; see ").unwrap();
    words.split(", ").map(str::to_owned).collect()
}

/// The options that a command takes.
fn options(command: &str) -> BTreeSet<String> {
    to_be_given(&[command, "-", "--no-such-option"])
}

/// The options in a text, without that for help.
fn options_in(text: &str) -> BTreeSet<String> {
    let words = text.split(|c: char| !c.is_ascii_alphanumeric() && c != '-');
    let options = words.filter(|word| word.len() > 1 && word.starts_with('-') && *word != HELP);
    options.map(str::to_owned).collect()
}

/// The part of a text from one mark to another.
#[track_caller]
fn between<'a>(text: &'a str, from: &str, to: &str) -> &'a str {
    let (_, rest) = text.split_once(from).unwrap_or_else(|| panic!("{from:?}"));
    rest.split(to).next().unwrap()
}

#[test]
fn help_has_every_option() {
    for command in COMMANDS {
        let help = run(&["help", command]);
        let in_help = options_in(help.out());
        for option in options(command) {
            assert!(in_help.contains(&option), "{command} {option}");
        }
    }
}

#[test]
fn bash_has_every_option() {
    for command in COMMANDS {
        let choices = between(BASH, &format!("*:{command}) choices='"), "'");
        assert!(choices.ends_with(HELP), "{command}");
        assert_eq!(options_in(choices), options(command), "{command}");
    }
}

#[test]
fn zsh_has_every_option() {
    for command in COMMANDS {
        assert!(ZSH.contains(&format!("\n    '{command}:")), "{command}");
        let specs = between(ZSH, &format!("\n{command})\n"), ";;");
        assert!(specs.contains(HELP), "{command}");
        let names = specs.lines().filter_map(|line| line.split('[').next());
        let names: Vec<&str> = names.collect();
        assert_eq!(options_in(&names.join(" ")), options(command), "{command}");
    }
}

#[test]
fn fish_has_every_option() {
    assert!(FISH.contains("\ncomplete -c wakemiono -l help "));
    for command in COMMANDS {
        assert!(FISH.contains(&format!(" -a {command} -d ")), "{command}");
        let with = format!("'__wakemiono_with {command}' ");
        let lines = FISH.lines().filter_map(|line| line.split_once(&with));
        let option = |line: &str| {
            let mut words = line.split(' ');
            let dashes = if words.next() == Some("-l") {
                "--"
            } else {
                "-"
            };
            format!("{dashes}{}", words.next().unwrap())
        };
        let completed: BTreeSet<String> = lines.map(|(_, line)| option(line)).collect();
        assert_eq!(completed, options(command), "{command}");
    }
}

#[test]
fn the_manual_page_has_every_option() {
    for command in COMMANDS {
        let section = between(MAN, &format!("\n.SS {command} "), "\n.S");
        let plain = section.replace("\\-", "-").replace("\\fB", " ");
        assert_eq!(options_in(&plain), options(command), "{command}");
    }
}

#[test]
fn all_have_what_the_overview_has_and_every_kind() {
    let kinds = to_be_given(&["names", "f", "--wide", "--kind", "no-such-kind"]);
    for (file, text) in [("bash", BASH), ("zsh", ZSH), ("fish", FISH), ("man", MAN)] {
        for kind in &kinds {
            assert!(text.contains(kind), "{file}: {kind}");
        }
        let plain = text.replace("\\-", "-").replace("-l ", "--");
        for word in ["help", "--help", "--version"] {
            assert!(plain.contains(word), "{file}: {word}");
        }
    }
}

/// What bash would offer for the last of these words.
fn completed(words: &[&str]) -> Vec<String> {
    let script = format!(
        "{BASH}\nCOMP_WORDS=(\"$@\"); COMP_CWORD=$(($# - 1)); _wakemiono; \
         printf '%s\\n' \"${{COMPREPLY[@]}}\""
    );
    let mut bash = Command::new("bash");
    let output = bash.args(["-c", &script, "bash"]).args(words).output();
    let output = output.expect("bash runs, which Debian always has");
    assert_eq!(output.stderr, b"");
    let offered = String::from_utf8(output.stdout).unwrap();
    let offered = offered.lines().filter(|line| !line.is_empty());
    offered.map(str::to_owned).collect()
}

#[test]
fn bash_completes() {
    let offers = |words: &[&str], offered: &[&str]| assert_eq!(completed(words), offered);
    offers(&["wakemiono", "na"], &["names", "name"]);
    offers(&["wakemiono", "help", "j"], &["join", "judge"]);
    offers(&["wakemiono", "names", "f", "--k"], &["--kind"]);
    offers(&["wakemiono", "names", "--kind", "ta"], &["tag", "table"]);
    offers(
        &["wakemiono", "names", "--kind", "=", "ta"],
        &["tag", "table"],
    );
    assert_eq!(completed(&["wakemiono", "names", "--kind", "="]).len(), 13);
    offers(&["wakemiono", "same", "a", "b", "--a"], &["--all"]);
    // Files are for bash itself.
    offers(&["wakemiono", "list", "a"], &[]);
    offers(&["wakemiono", "canon", "-o", ""], &[]);
}

#[test]
fn all_are_installed() {
    for file in [
        "man/wakemiono.1",
        "completions/wakemiono.bash",
        "completions/_wakemiono",
        "completions/wakemiono.fish",
    ] {
        assert!(
            INSTALL.contains(&format!("\ncp $of_command/{file} ")),
            "{file}"
        );
    }
}
