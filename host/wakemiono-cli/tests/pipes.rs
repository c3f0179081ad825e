//! Modules that come through a pipe: `list` and `judge` read them without holding them, and say the same
//! as the commands that do.

mod common;

use std::fs;
use std::io::Write;
use std::process::{Child, Stdio};

use common::{fed, fixtures, program, Run, BARE, MODULE};

/// The bytes of contents that are left out of a module of 4 GB.
const ZEROS: usize = 4_000_000_000;

/// How many of them are written at once: a megabyte.
const WRITTEN_AT_ONCE: usize = 1 << 20;

/// The most memory that the program may take, in KiB, also where an emulator runs it, which takes 15 MB
/// for itself; and by how much it may grow from the first megabyte to the last.
const MOST: u64 = 32 * 1_024;
const MOST_GROWTH: u64 = 1_024;

/// The most memory that a running process has taken so far, in KiB.
fn peak(child: &Child) -> u64 {
    let status = fs::read_to_string(format!("/proc/{}/status", child.id())).unwrap();
    let line = status.lines().find_map(|line| line.strip_prefix("VmHWM:"));
    let words = line.expect("a process has a peak").split_whitespace();
    words.map(str::parse).next().unwrap().unwrap()
}

fn write_zeros(to: &mut impl Write, count: usize) {
    let zeros = vec![0; WRITTEN_AT_ONCE];
    let mut left = count;
    while left > 0 {
        let length = left.min(WRITTEN_AT_ONCE);
        to.write_all(&zeros[..length]).expect("it is read");
        left -= length;
    }
}

/// Runs the program on a module with so many zeros between its beginning and its end. It takes no more
/// memory for the last of them than for the first megabyte.
fn piped(arguments: &[&str], beginning: &[u8], zeros: usize, end: &[u8]) -> Run {
    let mut command = program(arguments);
    command.stdin(Stdio::piped());
    command.stdout(Stdio::piped()).stderr(Stdio::piped());
    let mut child = command.spawn().expect("the program starts");
    let mut stdin = child.stdin.take().expect("its input is a pipe");
    stdin.write_all(beginning).expect("it is read");
    write_zeros(&mut stdin, WRITTEN_AT_ONCE);
    let early = peak(&child);
    write_zeros(&mut stdin, zeros - WRITTEN_AT_ONCE);
    // What it has not read yet is in the pipe, and it waits for more.
    let late = peak(&child);
    stdin.write_all(end).expect("it is read");
    drop(stdin);
    println!("{arguments:?}: {early} KiB after {WRITTEN_AT_ONCE} bytes, {late} KiB after {zeros}");
    assert!(late <= MOST && late - early <= MOST_GROWTH);
    Run::of(child.wait_with_output().expect("the program ends"))
}

/// The ids of a custom section and of that with code.
const CUSTOM: u8 = 0;
const CODE: u8 = 10;

/// A module up to the contents of a section, of which it has one byte: the length of a name, or the count
/// of bodies.
fn begun(id: u8, contents: usize) -> Vec<u8> {
    let mut size = [0; 5];
    for (place, byte) in size.iter_mut().enumerate() {
        *byte = (contents >> (7 * place)) as u8 | 0x80;
    }
    size[4] &= 0x7F;
    [BARE, &[id], &size, &[0]].concat()
}

/// The section with names of the rules' module.
const NAMES: &[u8] = MODULE.split_at(8).1;

#[test]
fn four_gigabytes_are_listed_in_a_few_megabytes() {
    let listed = piped(&["list", "-"], &begun(CUSTOM, ZEROS + 1), ZEROS, NAMES);
    listed.prints(
        "sections 2\n0 8 4000000001 14 \n0 4000000015 26 4000000017 name\n\
         name 4000000022 21\nhints none\n",
    );
}

/// A name may be as long as its section, and is not held either.
#[test]
fn a_long_name_of_a_section_is_not_held() {
    const ZEROS: usize = 100_000_000;
    let size_and_length = [0x84, 0xC2, 0xD7, 0x2F, 0x80, 0xC2, 0xD7, 0x2F];
    let beginning = [BARE, &[CUSTOM], &size_and_length].concat();
    let listed = piped(&["list", "-"], &beginning, ZEROS, NAMES);
    let shown = r"\0".repeat(128);
    listed.prints(&format!(
        "sections 2\n0 8 100000004 13 {shown}\\...\n0 100000017 26 100000019 name\n\
         name 100000024 21\nhints none\n"
    ));
}

#[test]
fn four_gigabytes_are_judged_in_a_few_megabytes() {
    let judged = piped(&["judge", "-"], &begun(CUSTOM, ZEROS + 1), ZEROS, NAMES);
    judged
        .prints("module accepted\nname accepted, canonical already\nhints none\nold_hints none\non_branches none\n");
}

/// Code is judged where there are hints on it, and otherwise not held.
#[test]
fn code_without_hints_is_not_held() {
    const ZEROS: usize = 100_000_000;
    let judged = piped(&["judge", "-"], &begun(CODE, ZEROS + 1), ZEROS, NAMES);
    judged.prints(
        "module accepted\nname accepted, canonical already\nhints none\nold_hints none\non_branches none\n",
    );
}

/// The fault is known only at the end, far behind the bytes that are shown.
#[test]
fn what_is_cut_off_is_shown_where_it_began() {
    const ZEROS: usize = 100_000_000;
    let refused = piped(&["list", "-"], &begun(CUSTOM, ZEROS + 2), ZEROS, &[]);
    refused.ends(1, "refused 2 9\n");
    assert!(refused.said.contains(
        "  00000000  00 61 73 6D 01 00 00 00 00 82 C2 D7 AF 00 00 00  |.asm............|\n\
         \x20                                      ^^\n\
         \x20 00000010  00 00 00 00 00 00 00 00 00 00 00 00 00 00 00 00  |................|\n"
    ));
}

/// What cannot be accepted takes no more memory than what can.
#[test]
fn sections_that_are_refused_are_not_held() {
    const ZEROS: usize = 100_000_000;
    for command in ["list", "judge"] {
        let refused = piped(&[command, "-"], BARE, ZEROS, &[]);
        assert_eq!(refused.status, 1);
    }
}

/// The lines of sections: four numbers, and the name of a custom one.
fn section_lines(listed: &Run) -> impl Iterator<Item = Vec<&str>> {
    let lines = listed.out().lines();
    let lines = lines.filter(|line| line.starts_with(|c: char| c.is_ascii_digit()));
    lines.map(|line| line.splitn(5, ' ').collect())
}

/// What is printed, with the first three numbers of each section alone, as the rules list it.
fn without_contents(listed: &Run) -> String {
    let mut sections = section_lines(listed);
    let line = |line: &str| {
        if line.starts_with(|c: char| c.is_ascii_digit()) {
            sections.next().expect("a section")[..3].join(" ") + "\n"
        } else {
            format!("{line}\n")
        }
    };
    listed.out().lines().map(line).collect()
}

/// The contents end where the next section begins, and those of a custom one begin with its name.
#[test]
fn contents_of_fixtures_lie_where_it_is_said() {
    let mut named = 0;
    for path in fixtures() {
        let module = fs::read(&path).unwrap();
        let listed = fed(&["list", "-"], &module);
        let mut next = 8;
        for words in section_lines(&listed) {
            let numbers: Vec<usize> = words[..4].iter().map(|it| it.parse().unwrap()).collect();
            let [id, offset, length, contents] = numbers[..] else {
                panic!("{words:?}");
            };
            assert_eq!(offset, next, "{}", path.display());
            next = contents + length;
            assert_eq!(id == 0, words.len() == 5, "{}", path.display());
            let front = &module[contents..next];
            if let Some(name) = words.get(4).filter(|name| !name.contains('\\')) {
                let is_there = |at: usize| front[at..].starts_with(name.as_bytes());
                assert!((1..=5).any(is_there), "{}: {name}", path.display());
                named += 1;
            }
        }
        assert!(next == module.len() || listed.status != 0);
    }
    assert!(named >= 100, "{named}");
}

/// Fixtures are listed as a third reading of the rules has them; and a refusal is shown as by a command
/// that holds the module.
#[test]
fn fixtures_are_listed_through_a_pipe() {
    let mut refused = 0;
    for path in fixtures() {
        let module = fs::read(&path).unwrap();
        let listing = fs::read_to_string(path.with_extension("listing")).unwrap();
        let listed = fed(&["list", "-"], &module);
        assert_eq!(without_contents(&listed), listing, "{}", path.display());
        let from_file = common::run(&["list", path.to_str().unwrap()]);
        assert_eq!(from_file.out(), listed.out(), "{}", path.display());
        if listed.status != 0 {
            let held = fed(&["canon", "-"], &module);
            assert_eq!(listed.said, held.said, "{}", path.display());
            let held = fed(&["canon", "-", "--json"], &module);
            assert_eq!(fed(&["list", "-", "--json"], &module).out(), held.out());
            refused += 1;
        }
    }
    assert!(refused >= 20, "{refused}");
}

/// What is judged of a payload is what a command says that holds the module.
#[test]
fn fixtures_are_judged_through_a_pipe() {
    let mut refused = 0;
    for path in fixtures() {
        let module = fs::read(&path).unwrap();
        if fed(&["list", "-"], &module).status != 0 {
            continue;
        }
        for (word, arguments) in [
            ("name", &["canon", "-"][..]),
            ("old_hints", &["canon", "-", "--old-hints"]),
        ] {
            let held = fed(arguments, &module);
            let judged = fed(&["judge", "-"], &module);
            let verdict = format!("\n{word} refused");
            assert_eq!(judged.out().contains(&verdict), held.status != 0);
            if held.status != 0 {
                let words = held
                    .said
                    .strip_prefix("wakemiono: standard input: ")
                    .unwrap();
                let judged = judged.out().split_once(&format!("\n{word} ")).unwrap().1;
                assert!(judged.starts_with(words), "{}", path.display());
                refused += 1;
            }
        }
    }
    assert!(refused >= 20, "{refused}");
}

/// Where hints stand is said as a third reading of the rules has it, unless the hints are refused.
#[test]
fn hints_of_fixtures_are_judged_through_a_pipe() {
    let mut asked = 0;
    for path in fixtures() {
        let payloads = fs::read_to_string(path.with_extension("payloads")).unwrap_or_default();
        let expected = |word: &str| payloads.lines().find_map(|line| line.strip_prefix(word));
        let Some(on_branches) = expected("on-branches ") else {
            continue;
        };
        let judged = fed(&["judge", "-"], &fs::read(&path).unwrap());
        let (_, said) = judged.out().split_once("\non_branches ").unwrap();
        let words: Vec<&str> = on_branches.split(' ').collect();
        let expected = match words[..] {
            ["accepted"] => said == "accepted\n",
            _ if expected("hints ").unwrap().starts_with("refused") => said == "not asked\n",
            [refused, number, at] => {
                let is_told = said.starts_with(&format!("{refused}, number {number}: "));
                is_told && said.contains(&format!(" ({at})\n"))
            }
            _ => panic!("{on_branches}"),
        };
        assert!(expected, "{}: {said}", path.display());
        asked += 1;
    }
    assert!(asked >= 20, "{asked}");
}
