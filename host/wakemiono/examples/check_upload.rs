//! An upload that is checked while it arrives: no part of it is kept, and at its end it is known whether it
//! is a module, and where its names and hints lie.
//!
//! `cargo run --example check_upload <app.wasm` checks what comes in on standard input.

use std::error::Error;
use std::io::{self, Read, Write};
use std::process::ExitCode;

use wakemiono::{Place, Refusal, Stream, Walked};

/// How much is read at once.
const PART: usize = 16 * 1024;

/// No longer upload is taken.
const LONGEST: u64 = 1024 * 1024 * 1024;

fn main() -> Result<ExitCode, Box<dyn Error>> {
    let accepted = check(&mut io::stdin().lock(), PART, &mut io::stdout().lock())?;
    Ok(ExitCode::from(u8::from(!accepted)))
}

/// Reads an upload to its end, in parts that are no longer than this, and answers whether it is accepted.
pub fn check(upload: &mut impl Read, part: usize, out: &mut impl Write) -> io::Result<bool> {
    let mut stream = Stream::new();
    let mut buffer = vec![0; part];
    loop {
        let length = upload.read(&mut buffer)?;
        if length == 0 {
            break;
        }
        stream.part(&buffer[..length]).map_err(io::Error::other)?;
        if stream.total() > LONGEST {
            writeln!(out, "refused after {} bytes: too long", stream.total())?;
            return Ok(false);
        }
    }
    let total = stream.total();
    tell(total, stream.finish(), out)
}

fn tell(total: u64, walked: Result<Walked, Refusal>, out: &mut impl Write) -> io::Result<bool> {
    match walked {
        Ok(walked) => {
            writeln!(
                out,
                "accepted: {total} bytes, {} sections",
                walked.section_count
            )?;
            writeln!(out, "names: {}", place(walked.name))?;
            writeln!(out, "hints: {}", place(walked.hints))?;
            Ok(true)
        }
        Err(refusal) => {
            writeln!(out, "refused, number {}: {refusal}", refusal.number())?;
            writeln!(out, "what to do: {}", refusal.advice())?;
            Ok(false)
        }
    }
}

fn place(place: Option<Place>) -> String {
    place.map_or("none".to_owned(), |Place { offset, length }| {
        format!("{length} bytes at {offset}")
    })
}
