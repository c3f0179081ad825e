//! Standard output: what is printed goes there in parts as it comes, and no more of it once nobody reads on.

use std::io::{self, BufWriter, ErrorKind, StdoutLock, Write};

use crate::progress::Progress;

/// Standard output, and the line on a terminal that says how far it is, which is wiped away before anything is printed.
#[derive(Debug)]
pub struct Printer {
    progress: Option<Progress>,
    out: BufWriter<StdoutLock<'static>>,
    /// Why no more can be printed.
    failed: Option<io::Error>,
}

impl Printer {
    /// One that watches until there is something to print.
    pub fn new() -> Printer {
        Printer {
            progress: Some(Progress::watch()),
            out: BufWriter::new(io::stdout().lock()),
            failed: None,
        }
    }

    /// Prints, and answers whether more can be printed.
    pub fn print(&mut self, text: impl AsRef<[u8]>) -> bool {
        self.progress = None;
        if self.failed.is_none() {
            self.failed = self.out.write_all(text.as_ref()).err();
        }
        self.failed.is_none()
    }

    /// Prints what is left, and says what went wrong. That nobody reads on is nothing wrong: whoever did has seen
    /// enough, as in `wakemiono names FILE | head`.
    pub fn finish(mut self) -> io::Result<()> {
        self.progress = None;
        let printed = match self.failed.take() {
            Some(error) => Err(error),
            None => self.out.flush(),
        };
        // What could not be printed is not tried again when this is dropped.
        let (_, _) = self.out.into_parts();
        match printed {
            Err(error) if error.kind() != ErrorKind::BrokenPipe => Err(error),
            _ => Ok(()),
        }
    }
}
