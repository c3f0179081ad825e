//! What the tests share: small modules, the program's runs, and a check that output is JSON.

#![allow(dead_code)] // each test file uses its own part of this

pub mod json;

use std::fs;
use std::io::Write;
use std::path::{Path, PathBuf};
use std::process::{Command, Output, Stdio};

/// The rules' module of 36 bytes.
pub const MODULE: &[u8] = b"\0asm\x01\0\0\0\x00\x1A\x04name\
    \x00\x02\x01m\x01\x07\x02\x00\x01a\x03\x01b\x02\x06\x01\x03\x01\x00\x01x";

/// The same with a label and a global, which only the wider edition of names knows.
pub const WIDE: &[u8] = b"\0asm\x01\0\0\0\x00\x28\x04name\
    \x00\x02\x01m\x01\x07\x02\x00\x01a\x03\x01b\x02\x06\x01\x03\x01\x00\x01x\
    \x03\x06\x01\x03\x01\x02\x01l\x07\x04\x01\x03\x01g";

/// A module without sections.
pub const BARE: &[u8] = b"\0asm\x01\0\0\0";

/// A module that is refused, for a section of a later version.
pub const NO_SUCH_SECTION: &[u8] = b"\0asm\x01\0\0\0\x0E\x00";

/// A name payload that came apart from its module: function 3 called `f`.
pub const NAMES: &[u8] = b"\x01\x04\x01\x03\x01f";

/// The words of all commands.
pub const COMMANDS: [&str; 10] = [
    "list", "names", "name", "why", "hints", "metadata", "canon", "join", "same", "judge",
];

/// The words of those that ask names, and so take `--wide`.
pub const ASK_NAMES: [&str; 7] = ["names", "name", "why", "canon", "join", "same", "judge"];

/// A name payload with every kind of name that the first edition knows.
pub const EVERY_KIND: &[u8] = b"\x00\x02\x01m\x01\x04\x01\x00\x01a\x02\x06\x01\x03\x01\x00\x01x\
    \x03\x01\xFF\x04\x04\x01\x02\x01t\x0A\x06\x01\x02\x01\x01\x01f\x0B\x04\x01\x00\x01e";

/// A name payload with every kind of name that the wider edition knows.
pub const EVERY_WIDE_KIND: &[u8] =
    b"\x00\x02\x01m\x01\x04\x01\x00\x01a\x02\x06\x01\x03\x01\x00\x01x\
    \x03\x06\x01\x03\x01\x02\x01l\x04\x04\x01\x02\x01t\x05\x04\x01\x01\x01b\x06\x04\x01\x00\x01y\
    \x07\x04\x01\x03\x01g\x08\x04\x01\x04\x01s\x09\x04\x01\x05\x01d\
    \x0A\x06\x01\x02\x01\x01\x01f\x0B\x04\x01\x00\x01e\x0C\x01\xFF";

/// A module whose only section is custom and small.
pub fn custom(name: &str, payload: &[u8]) -> Vec<u8> {
    let length = u8::try_from(1 + name.len() + payload.len()).unwrap();
    assert!(length < 0x80, "the size is written in one byte");
    let name_length = u8::try_from(name.len()).unwrap();
    [BARE, &[0, length, name_length], name.as_bytes(), payload].concat()
}

/// A module with a name section.
pub fn named(payload: &[u8]) -> Vec<u8> {
    custom("name", payload)
}

/// A module with a name section of any length.
pub fn long_named(payload: &[u8]) -> Vec<u8> {
    long_custom("name", payload)
}

/// A module whose only section is custom and of any length; the size is padded to the most bytes.
pub fn long_custom(name: &str, payload: &[u8]) -> Vec<u8> {
    const SIZE_BYTES: usize = 5;
    const BITS_IN_A_BYTE: usize = 7;
    const GOES_ON: u8 = 1 << BITS_IN_A_BYTE;
    let contents = [&[name.len() as u8], name.as_bytes(), payload].concat();
    let mut size = [0; SIZE_BYTES];
    for (place, byte) in size.iter_mut().enumerate() {
        *byte = (contents.len() >> (BITS_IN_A_BYTE * place)) as u8 | GOES_ON;
    }
    size[SIZE_BYTES - 1] &= !GOES_ON;
    [BARE, &[0], &size, &contents].concat()
}

/// A module with branch hints.
pub fn hinted(payload: &[u8]) -> Vec<u8> {
    custom("metadata.code.branch_hint", payload)
}

/// A module of one function, `i32.const 1`, `if`, `end`, `end`, with a hint at an offset of it. The `if`
/// is at 3.
pub fn hinted_code(offset: u8) -> Vec<u8> {
    let types = [BARE, &[1, 4, 1, 0x60, 0, 0, 3, 2, 1, 0]].concat();
    let hint = hinted(&[1, 0, 1, offset, 1, 1]);
    let code = [10, 9, 1, 7, 0, 0x41, 1, 0x04, 0x40, 0x0B, 0x0B];
    [joined(&types, &hint), code.to_vec()].concat()
}

/// A module with branch hints of the older edition.
pub fn old_hinted(payload: &[u8]) -> Vec<u8> {
    custom("branchHints", payload)
}

/// The sections of one module behind those of another.
pub fn joined(module: &[u8], other: &[u8]) -> Vec<u8> {
    [module, &other[BARE.len()..]].concat()
}

/// How a run of the program ended, and what it said.
#[derive(Debug)]
pub struct Run {
    pub status: i32,
    pub bytes: Vec<u8>,
    pub said: String,
}

impl Run {
    pub fn of(output: Output) -> Run {
        Run {
            status: output.status.code().expect("the program is not killed"),
            bytes: output.stdout,
            said: String::from_utf8(output.stderr).expect("it says text"),
        }
    }

    pub fn out(&self) -> &str {
        std::str::from_utf8(&self.bytes).expect("it prints text")
    }

    /// It printed this, had nothing else to say than what that means and ended well.
    #[track_caller]
    pub fn prints(&self, out: &str) {
        self.ends(0, out);
        assert_eq!(self.said, meaning(out));
    }

    /// It printed this and ended so.
    #[track_caller]
    pub fn ends(&self, status: i32, out: &str) {
        assert_eq!((self.status, self.out()), (status, out), "{}", self.said);
    }

    /// It printed nothing but said this, as for misuse.
    #[track_caller]
    pub fn is_misuse(&self, sentence: &str) {
        self.ends(2, "");
        assert_eq!(self.said, format!("wakemiono: {sentence}\n"));
    }

    /// It printed this JSON on a line, which is well formed, and nothing else.
    #[track_caller]
    pub fn is_json(&self, status: i32, json: &str) {
        self.ends(status, &format!("{json}\n"));
        assert_eq!(self.said, "");
        json::check(json);
    }
}

/// What is said beside lines of names: where some are kept, what that means, and else nothing.
pub fn meaning(out: &str) -> &'static str {
    if out.lines().any(|line| line.starts_with("kept ")) {
        "wakemiono: `kept ID` is a subsection of the name section whose id this edition of names \
         does not know: it is shown, and kept, as it is.\n"
    } else {
        ""
    }
}

/// The program with these arguments.
pub fn program(arguments: &[&str]) -> Command {
    let mut command = Command::new(env!("CARGO_BIN_EXE_wakemiono"));
    command.args(arguments);
    command
}

/// Runs the program with nothing on standard input.
pub fn run(arguments: &[&str]) -> Run {
    fed(arguments, &[])
}

/// Runs the program with these bytes on standard input.
pub fn fed(arguments: &[&str], input: &[u8]) -> Run {
    let mut command = program(arguments);
    command.stdin(Stdio::piped());
    command.stdout(Stdio::piped()).stderr(Stdio::piped());
    let mut child = command.spawn().expect("the program starts");
    let mut stdin = child.stdin.take().expect("its input is a pipe");
    // A program that reads nothing may have ended by now.
    let _ = stdin.write_all(input);
    drop(stdin);
    Run::of(child.wait_with_output().expect("the program ends"))
}

/// A file of the tests' own with these bytes. Each name is used by one test only, since tests run
/// side by side.
pub fn file(name: &str, bytes: &[u8]) -> String {
    let path = path(name);
    fs::write(&path, bytes).expect("the file is written");
    path
}

/// Where a file of the tests' own would lie.
pub fn path(name: &str) -> String {
    let path = PathBuf::from(env!("CARGO_TARGET_TMPDIR")).join(name);
    path.into_os_string()
        .into_string()
        .expect("the path is text")
}

/// The modules of `host/fixtures`.
pub fn fixtures() -> Vec<PathBuf> {
    let folder = Path::new(env!("CARGO_MANIFEST_DIR")).join("../fixtures");
    let entries = fs::read_dir(folder).expect("host/fixtures can be read");
    let paths = entries.map(|entry| entry.unwrap().path());
    paths
        .filter(|path| path.extension().is_some_and(|kind| kind == "wasm"))
        .collect()
}

/// The lines for two payloads that are not the same, without the names of the files.
pub fn told_apart(name: &str, options: &[&str], a: &[u8], b: &[u8]) -> String {
    let file = file(name, &named(a));
    let compared = fed(
        &[&["same", file.as_str(), "-"], options].concat(),
        &named(b),
    );
    assert_eq!(compared.status, 1);
    assert_eq!(compared.said, meaning(compared.out()));
    compared
        .out()
        .replace(&file, "a")
        .replace("standard input", "b")
}
