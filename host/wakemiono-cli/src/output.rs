//! The file behind `-o`: never the one that is read, and written whole or not at all.
//!
//! Files are told apart as unix does, since the library is linked nowhere else.

use std::ffi::OsStr;
use std::fs::{self, File, Permissions};
use std::io::{self, ErrorKind, Write};
use std::os::unix::fs::MetadataExt;
use std::path::{Path, PathBuf};
use std::process;

use crate::escape;
use crate::input::STANDARD_STREAM;
use crate::json::Json;
use crate::report::{Failure, Report, Status};

/// Paths by which the streams can be compared with files.
const STANDARD_INPUT: &str = "/dev/stdin";
const STANDARD_OUTPUT: &str = "/dev/stdout";

/// What is read from a file.
#[derive(Clone, Copy, Debug)]
pub enum Read {
    /// A module.
    Module,
    /// Names that came apart from a module.
    Names,
}

impl Read {
    const fn words(self) -> &'static str {
        match self {
            Read::Module => "the module",
            Read::Names => "the file of names",
        }
    }
}

/// Refuses an output that is the very file that is read, since what is in it would be lost.
pub fn check_apart(input: &OsStr, read: Read, out: Option<&OsStr>) -> Result<(), Failure> {
    let Some(out) = out else {
        return Ok(());
    };
    let input = if input == STANDARD_STREAM {
        OsStr::new(STANDARD_INPUT)
    } else {
        input
    };
    if out == STANDARD_STREAM || !are_one_file(Path::new(input), Path::new(out)) {
        return Ok(());
    }
    Err(Failure::Misuse(format!(
        "{} is {} that is read, and would be lost: give another file behind -o.",
        escape::quoted(out),
        read.words()
    )))
}

/// Writes a payload where an output is given, and reports it: in JSON where there is some, and
/// otherwise by the lines, which are left out where the payload was written.
pub fn reported(
    payload: Vec<u8>,
    out: Option<&OsStr>,
    json: Option<Json>,
    lines: impl FnOnce() -> String,
) -> Result<Report, Failure> {
    if out == Some(OsStr::new(STANDARD_STREAM)) {
        return Ok(Report::good(payload));
    }
    if let Some(out) = out {
        write(out, &payload)?;
    }
    Ok(match (json, out) {
        (Some(json), _) => Report::json(Status::Good, &json),
        (None, Some(_)) => Report::good(""),
        (None, None) => Report::good(lines()),
    })
}

/// The member of a JSON object that says where a payload was written to.
pub fn written_to(out: Option<&OsStr>) -> (&'static str, Json) {
    let word = out.map(OsStr::to_string_lossy);
    ("written_to", word.map_or(Json::Null, Json::text))
}

/// Writes bytes over what is there. Where that fails, a file is as it was, while a device or a pipe
/// may have taken some of them.
fn write(out: &OsStr, bytes: &[u8]) -> Result<(), Failure> {
    let path = Path::new(out);
    let target = Target::of(path);
    let keeps = match &target {
        Ok(Target::Stream(_)) => "",
        Ok(Target::File { .. }) | Err(_) => "; it is as it was",
    };
    target
        .and_then(|target| target.write(bytes))
        .map_err(|error| {
            Failure::Misuse(format!(
                "{} cannot be written ({error}){keeps}: check its folder and whether there is \
                 room, or give another file behind -o.",
                escape::quoted(out)
            ))
        })
}

/// Whether two paths lead to one regular file, be it by links or by another spelling.
fn are_one_file(a: &Path, b: &Path) -> bool {
    let (Ok(of_a), Ok(of_b)) = (fs::metadata(a), fs::metadata(b)) else {
        return false;
    };
    let one_inode = (of_a.dev(), of_a.ino()) == (of_b.dev(), of_b.ino());
    // Not every file system gives a file the same inode each time.
    let one_path = || fs::canonicalize(a).is_ok_and(|a| fs::canonicalize(b).is_ok_and(|b| a == b));
    of_a.is_file() && of_b.is_file() && (one_inode || one_path())
}

/// What stands behind a path, as far as it matters to who writes there.
enum Target {
    /// A file to be replaced as a whole, with the permissions of the one that is there.
    File {
        path: PathBuf,
        permissions: Option<Permissions>,
    },
    /// A device, a pipe or a standard stream, which nothing can take the place of.
    Stream(Box<dyn Write>),
}

impl Target {
    fn of(path: &Path) -> io::Result<Target> {
        // Whoever sent standard output to a file may have more to write there.
        if are_one_file(path, Path::new(STANDARD_OUTPUT)) {
            return Ok(Target::Stream(Box::new(io::stdout())));
        }
        // To replace a file takes no right to write it, but who may not write it may not do that.
        match File::options().write(true).open(path) {
            Ok(there) => Target::of_existing(path, there),
            Err(error) if error.kind() == ErrorKind::NotFound => Ok(Target::File {
                path: behind_link(path),
                permissions: None,
            }),
            Err(error) => Err(error),
        }
    }

    fn of_existing(path: &Path, there: File) -> io::Result<Target> {
        let metadata = there.metadata()?;
        if !metadata.is_file() {
            return Ok(Target::Stream(Box::new(there)));
        }
        Ok(Target::File {
            // A link stays, and what it leads to is replaced.
            path: fs::canonicalize(path)?,
            permissions: Some(metadata.permissions()),
        })
    }

    fn write(self, bytes: &[u8]) -> io::Result<()> {
        match self {
            Target::File { path, permissions } => replace(&path, permissions, bytes),
            Target::Stream(mut stream) => stream.write_all(bytes).and_then(|()| stream.flush()),
        }
    }
}

/// Where a link leads to whose file is not there yet; any other path as it is.
fn behind_link(path: &Path) -> PathBuf {
    match fs::read_link(path) {
        Ok(leads_to) => path.with_file_name("").join(leads_to),
        Err(_) => path.to_owned(),
    }
}

/// Puts a file with these bytes in the place of what is at a path.
fn replace(path: &Path, permissions: Option<Permissions>, bytes: &[u8]) -> io::Result<()> {
    // Beside it, since a file cannot be renamed into another file system.
    let temporary = path.with_file_name(format!(".wakemiono-{}.tmp", process::id()));
    let file = File::create_new(&temporary)?;
    let replaced = fill(file, permissions, bytes).and_then(|()| fs::rename(&temporary, path));
    if replaced.is_err() {
        // What went wrong is said already; that this fails too helps no one.
        let _ = fs::remove_file(&temporary);
    }
    replaced
}

fn fill(mut file: File, permissions: Option<Permissions>, bytes: &[u8]) -> io::Result<()> {
    if let Some(permissions) = permissions {
        file.set_permissions(permissions)?;
    }
    file.write_all(bytes)?;
    // Some file systems say only now that there is no room.
    file.sync_all()
}
