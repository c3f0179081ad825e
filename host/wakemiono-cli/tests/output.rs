//! The file behind `-o`: kept where it is the module or cannot be written, and otherwise replaced
//! as a whole.

mod common;

use std::fs::{self, File};
use std::os::unix::fs::{symlink, FileTypeExt, MetadataExt, PermissionsExt};
use std::path::{Path, PathBuf};
use std::process::{Command, Output};
use std::thread;

use common::{fed, long_named, named, path, program, run, MODULE};

/// The canonical payload of the rules' module, which is the one that it has.
const PAYLOAD: &[u8] = MODULE.split_at(15).1;

/// An empty folder of a test's own.
fn folder(name: &str) -> PathBuf {
    let folder = PathBuf::from(path(name));
    if folder.exists() {
        fs::remove_dir_all(&folder).unwrap();
    }
    fs::create_dir(&folder).unwrap();
    folder
}

fn text(path: &Path) -> &str {
    path.to_str().unwrap()
}

fn said(output: &Output) -> &str {
    std::str::from_utf8(&output.stderr).unwrap()
}

fn names_in(folder: &Path) -> Vec<String> {
    let entries = fs::read_dir(folder).unwrap();
    let mut names: Vec<String> = entries
        .map(|entry| entry.unwrap().file_name().into_string().unwrap())
        .collect();
    names.sort();
    names
}

#[test]
fn the_module_itself_is_never_written_over() {
    let folder = folder("output-module");
    let module = folder.join("module.wasm");
    fs::write(&module, MODULE).unwrap();
    let by_link = folder.join("symbolic");
    symlink("module.wasm", &by_link).unwrap();
    let by_inode = folder.join("hard");
    fs::hard_link(&module, &by_inode).unwrap();
    let respelled = folder.join("..").join("output-module").join("module.wasm");
    for out in [&module, &by_link, &by_inode, &respelled] {
        let sentence = format!(
            "'{}' is the module that is read, and would be lost: give another file behind -o.",
            text(out)
        );
        run(&["canon", text(&module), "-o", text(out)]).is_misuse(&sentence);
        run(&["canon", text(out), "-o", text(out), "--json"]).is_misuse(&sentence);
        let read = program(&["canon", "-", "-o", text(out)])
            .stdin(File::open(&module).unwrap())
            .output()
            .unwrap();
        assert_eq!(read.status.code(), Some(2));
        assert_eq!(said(&read), format!("wakemiono: {sentence}\n"));
    }
    assert_eq!(fs::read(&module).unwrap(), MODULE);
    assert_eq!(names_in(&folder), ["hard", "module.wasm", "symbolic"]);
}

#[test]
fn another_module_with_the_same_bytes_may_be_written_over() {
    let folder = folder("output-copy");
    let (module, copy) = (folder.join("module.wasm"), folder.join("copy.wasm"));
    fs::write(&module, MODULE).unwrap();
    fs::write(&copy, MODULE).unwrap();
    run(&["canon", text(&module), "-o", text(&copy)]).prints("");
    assert_eq!(fs::read(&copy).unwrap(), PAYLOAD);
}

/// Runs the program where no file can grow, as on a full disk.
fn without_room(arguments: &[&str]) -> Output {
    Command::new("sh")
        .args(["-c", "trap '' XFSZ; ulimit -f 0; exec \"$0\" \"$@\""])
        .arg(env!("CARGO_BIN_EXE_wakemiono"))
        .args(arguments)
        .output()
        .unwrap()
}

#[test]
fn a_failed_write_leaves_what_was_there() {
    let folder = folder("output-failed");
    let (module, out) = (folder.join("module.wasm"), folder.join("out"));
    fs::write(&module, MODULE).unwrap();
    fs::write(&out, "precious").unwrap();
    let failed = without_room(&["canon", text(&module), "-o", text(&out)]);
    assert_eq!(failed.status.code(), Some(2), "{}", said(&failed));
    let start = format!("wakemiono: '{}' cannot be written (", text(&out));
    assert!(said(&failed).starts_with(&start), "{}", said(&failed));
    let end = "); it is as it was: check its folder and whether there is room, \
               or give another file behind -o.\n";
    assert!(said(&failed).ends_with(end), "{}", said(&failed));
    assert_eq!(fs::read_to_string(&out).unwrap(), "precious");
    assert_eq!(names_in(&folder), ["module.wasm", "out"]);
}

#[test]
fn a_failed_write_makes_no_file() {
    let folder = folder("output-none");
    let (module, out) = (folder.join("module.wasm"), folder.join("out"));
    fs::write(&module, MODULE).unwrap();
    let failed = without_room(&["canon", text(&module), "-o", text(&out)]);
    assert_eq!(failed.status.code(), Some(2), "{}", said(&failed));
    assert_eq!(names_in(&folder), ["module.wasm"]);
    let nowhere = folder.join("no-such-folder").join("out");
    let failed = fed(&["canon", "-", "-o", text(&nowhere)], MODULE);
    failed.ends(2, "");
    assert!(failed.said.contains("; it is as it was"), "{}", failed.said);
}

#[test]
fn a_folder_is_not_written_over() {
    let folder = folder("output-folder");
    let failed = fed(&["canon", "-", "-o", text(&folder)], MODULE);
    failed.ends(2, "");
    let sentence = format!("wakemiono: '{}' cannot be written (", text(&folder));
    assert!(failed.said.starts_with(&sentence), "{}", failed.said);
    assert!(folder.is_dir());
}

#[test]
fn the_file_that_is_replaced_keeps_its_permissions() {
    const ONLY_ITS_GROUP_READS: u32 = 0o640;
    let folder = folder("output-permissions");
    let out = folder.join("out");
    fs::write(&out, "longer than what takes its place, and gone").unwrap();
    fs::set_permissions(&out, PermissionsExt::from_mode(ONLY_ITS_GROUP_READS)).unwrap();
    fed(&["canon", "-", "-o", text(&out)], MODULE).prints("");
    assert_eq!(fs::read(&out).unwrap(), PAYLOAD);
    let rights = fs::metadata(&out).unwrap().mode() & 0o777;
    assert_eq!(rights, ONLY_ITS_GROUP_READS);
    assert_eq!(names_in(&folder), ["out"]);
}

#[test]
fn a_link_stays_and_leads_to_what_is_written() {
    let folder = folder("output-link");
    let (there, link) = (folder.join("there"), folder.join("link"));
    symlink("there", &link).unwrap();
    let smaller = named(b"\x00\x02\x01m");
    for (module, payload) in [(MODULE, PAYLOAD), (smaller.as_slice(), b"\x00\x02\x01m")] {
        // The first time the link leads to nothing.
        fed(&["canon", "-", "-o", text(&link)], module).prints("");
        assert!(fs::symlink_metadata(&link).unwrap().is_symlink());
        assert_eq!(fs::read(&there).unwrap(), payload);
    }
}

#[test]
fn the_file_of_standard_output_is_written_in_turn() {
    let out = folder("output-stream").join("out");
    let script = "echo before; \"$0\" canon \"$1\" -o /dev/stdout; echo behind";
    let module = common::file("output-stream.wasm", MODULE);
    let ran = Command::new("sh")
        .args(["-c", script, env!("CARGO_BIN_EXE_wakemiono"), &module])
        .stdout(File::create(&out).unwrap())
        .output()
        .unwrap();
    assert_eq!(said(&ran), "");
    let expected = [b"before\n", PAYLOAD, b"behind\n"].concat();
    assert_eq!(fs::read(&out).unwrap(), expected);
}

/// A named pipe, which stands here for everything that is no file. A device of the system would do
/// too, but a program that took its place, run by an administrator, would take it from everyone.
fn pipe_in(folder: &Path) -> PathBuf {
    let pipe = folder.join("pipe");
    let made = Command::new("mkfifo").arg(&pipe).status().unwrap();
    assert!(made.success());
    pipe
}

#[test]
fn a_pipe_is_written_as_it_is() {
    let folder = folder("output-pipe");
    let pipe = pipe_in(&folder);
    let reader = {
        let pipe = pipe.clone();
        thread::spawn(move || fs::read(pipe).unwrap())
    };
    fed(&["canon", "-", "-o", text(&pipe)], MODULE).prints("");
    assert_eq!(reader.join().unwrap(), PAYLOAD);
    assert!(fs::metadata(&pipe).unwrap().file_type().is_fifo());
    assert_eq!(names_in(&folder), ["pipe"]);
}

#[test]
fn nothing_is_promised_of_what_a_pipe_has_taken() {
    // So that it cannot be written before the reader is gone.
    const MORE_THAN_A_PIPE_HOLDS: usize = 1 << 20;
    let pipe = pipe_in(&folder("output-broken-pipe"));
    let reader = {
        let pipe = pipe.clone();
        thread::spawn(move || drop(File::open(pipe).unwrap()))
    };
    let name = [(
        wakemiono::FunctionIndex(0),
        "x".repeat(MORE_THAN_A_PIPE_HOLDS),
    )];
    let module = long_named(&wakemiono::function_names(name).unwrap());
    let failed = fed(&["canon", "-", "-o", text(&pipe)], &module);
    failed.ends(2, "");
    reader.join().unwrap();
    let start = format!("wakemiono: '{}' cannot be written (", text(&pipe));
    assert!(failed.said.starts_with(&start), "{}", failed.said);
    assert!(!failed.said.contains("as it was"), "{}", failed.said);
}

#[test]
fn a_pipe_may_be_both_ends() {
    let pipe = pipe_in(&folder("output-both"));
    let writer = {
        let pipe = pipe.clone();
        thread::spawn(move || fs::write(pipe, "no module").unwrap())
    };
    // Nothing is lost by that, and so it is the module that is judged.
    let read = run(&["canon", text(&pipe), "-o", text(&pipe)]);
    read.ends(1, "");
    assert!(read.said.contains("refused, number 1: "), "{}", read.said);
    writer.join().unwrap();
}
