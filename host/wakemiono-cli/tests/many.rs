//! Modules with 150,000 names, and as many hints. Every command takes one pass over them, or a few: with a question each
//! these tests would not end in an hour.

mod common;

use std::io::Read;
use std::process::Stdio;

use common::{fed, file, long_custom, long_named, program, run};
use wakemiono::{function_names, FunctionIndex};

const MANY: u32 = 150_000;

fn name(index: u32) -> String {
    format!("f{index}")
}

fn payload(indices: impl Iterator<Item = u32>) -> Vec<u8> {
    function_names(indices.map(|index| (FunctionIndex(index), name(index)))).unwrap()
}

fn many_names() -> Vec<u8> {
    long_named(&payload(0..MANY))
}

/// The last word of each line.
fn last_words(out: &str) -> impl Iterator<Item = &str> {
    out.lines().filter_map(|line| line.rsplit(' ').next())
}

#[test]
fn names_in_their_order() {
    let listed = fed(&["names", "-"], &many_names());
    assert_eq!(listed.status, 0);
    assert!(last_words(listed.out()).eq((0..MANY).map(name)));
    assert_eq!(
        fed(&["names", "-", "--wide"], &many_names()).out(),
        listed.out()
    );
}

#[test]
fn names_in_json() {
    let listed = fed(&["names", "-", "--json"], &many_names());
    assert_eq!(listed.status, 0);
    let json = listed.out().strip_suffix('\n').unwrap();
    common::json::check(json);
    assert_eq!(json.matches("\"kind\":\"function\"").count(), MANY as usize);
}

/// The even ones came apart from the module, which has those that three divides.
#[test]
fn names_beside_others() {
    let names = file("many.names", &payload((0..MANY).step_by(2)));
    let module = long_named(&payload((0..MANY).step_by(3)));
    let listed = fed(&["names", "-", "--beside", &names], &module);
    assert_eq!((listed.status, listed.said.as_str()), (0, ""));
    let named = (0..MANY).filter(|index| index % 2 == 0 || index % 3 == 0);
    let mut lines = listed.out().lines();
    for index in named {
        let whose = if index % 2 == 0 { "separate" } else { "own" };
        let line = lines.next().unwrap();
        let begin = format!("function {index} {whose} ");
        assert!(line.starts_with(&begin) && line.ends_with(&format!(" f{index}")));
    }
    assert_eq!(lines.next(), None);
}

#[test]
fn names_that_differ() {
    let fewer = file(
        "many-fewer.wasm",
        &long_named(&payload((0..MANY).step_by(2))),
    );
    let differing = fed(&["same", "-", &fewer, "--all"], &many_names());
    assert_eq!(differing.status, 1);
    let lines = differing.out().lines().count();
    assert_eq!(lines, 1 + 3 * (MANY as usize / 2));
    fed(&["same", "-", &fewer], &many_names()).ends(
        1,
        &format!("not the same\nfunction 1\nstandard input: f1\n{fewer}: none\n"),
    );
}

#[test]
fn one_of_many() {
    let module = file("many.wasm", &many_names());
    run(&["name", &module, "--function", "149999"]).prints("f149999\n");
    run(&["why", &module, "--function", "150000"]).prints(
        "function 150000 has no name: the map of function names has no entry for it; \
         the nearest below is 149999, and there is none above\n",
    );
}

/// One function with a hint at every other offset.
fn many_hints() -> Vec<u8> {
    let number = |number: u32| {
        let bytes = [number, number >> 7, number >> 14];
        [
            bytes[0] as u8 | 0x80,
            bytes[1] as u8 | 0x80,
            bytes[2] as u8 & 0x7F,
        ]
    };
    let hint = |at: u32| [&number(2 * at)[..], &[1, (at % 2) as u8]].concat();
    let hints = (0..MANY).flat_map(hint).collect::<Vec<u8>>();
    [&[1, 0], &number(MANY)[..], &hints].concat()
}

#[test]
fn hints_and_data() {
    let module = long_custom("metadata.code.branch_hint", &many_hints());
    let listed = fed(&["hints", "-"], &module);
    let mut lines = listed.out().lines();
    assert_eq!(lines.next(), Some("metadata.code.branch_hint"));
    for (at, line) in (0..MANY).zip(&mut lines) {
        let hint = if at % 2 == 1 { "likely" } else { "unlikely" };
        assert_eq!(line, format!("0 {} {hint}", 2 * at));
    }
    assert_eq!(lines.next(), None);
    let data = fed(&["metadata", "-"], &module);
    assert_eq!(data.out().lines().count(), 1 + MANY as usize);
}

/// Whoever reads the beginning gets it, and the program ends then, and quietly, though it has more to print than a pipe
/// holds.
#[test]
fn the_beginning_alone() {
    let module = file("many-beginning.wasm", &many_names());
    for (arguments, beginning) in [
        (&["names", &module][..], "function 0 "),
        (&["names", &module, "--json"], "{\"file\":\""),
    ] {
        let mut command = program(arguments);
        command.stdout(Stdio::piped()).stderr(Stdio::piped());
        let mut child = command.spawn().unwrap();
        let mut read = vec![0; beginning.len()];
        let mut out = child.stdout.take().unwrap();
        out.read_exact(&mut read).unwrap();
        drop(out);
        assert_eq!(String::from_utf8(read).unwrap(), beginning);
        let ended = child.wait_with_output().unwrap();
        assert_eq!((ended.status.code(), ended.stderr), (Some(0), vec![]));
    }
}
