//! A line on standard error that says how far it is, where a person would wonder: on a terminal, once something takes
//! longer than a second. It is wiped away at the end, and before anything else is printed.

use std::io::{self, Read, Write};
use std::sync::atomic::{AtomicBool, AtomicU64, Ordering};
use std::sync::mpsc::{self, Receiver, RecvTimeoutError, Sender};
use std::thread::{self, JoinHandle};
use std::time::{Duration, Instant};

use crate::terminal;

/// For so long nobody wonders.
const PATIENCE: Duration = Duration::from_secs(1);

/// How often the line is written anew.
const TICK: Duration = Duration::from_millis(200);

/// Goes to the start of the line and wipes it away.
const WIPE: &str = "\r\x1B[K";

/// How many bytes of all files have been read, and how many there are in those whose length is known. There is one
/// program and so one of these, and what reads need not know who watches.
static READ: AtomicU64 = AtomicU64::new(0);
static LENGTH: AtomicU64 = AtomicU64::new(0);

/// Whether the length of a file is not known, as with a pipe.
static IS_OPEN_ENDED: AtomicBool = AtomicBool::new(false);

/// Whether something is being read.
static IS_READING: AtomicBool = AtomicBool::new(false);

/// A reader whose bytes are counted until it is dropped.
pub struct Counted<R>(R);

impl<R> Counted<R> {
    /// A reader of so many bytes, or of nobody knows how many.
    pub fn new(reader: R, length: Option<u64>) -> Counted<R> {
        match length {
            Some(length) => drop(LENGTH.fetch_add(length, Ordering::Relaxed)),
            None => IS_OPEN_ENDED.store(true, Ordering::Relaxed),
        }
        IS_READING.store(true, Ordering::Relaxed);
        Counted(reader)
    }
}

impl<R: Read> Read for Counted<R> {
    fn read(&mut self, buffer: &mut [u8]) -> io::Result<usize> {
        let length = self.0.read(buffer)?;
        READ.fetch_add(length as u64, Ordering::Relaxed);
        Ok(length)
    }
}

impl<R> Drop for Counted<R> {
    fn drop(&mut self) {
        IS_READING.store(false, Ordering::Relaxed);
    }
}

/// Whoever watches until this is dropped.
#[derive(Debug)]
pub struct Progress(Option<(Sender<()>, JoinHandle<()>)>);

impl Progress {
    /// Watches where standard error is a terminal, and else does nothing.
    pub fn watch() -> Progress {
        Progress(terminal::has_progress().then(|| {
            let (end, ended) = mpsc::channel();
            (end, thread::spawn(move || show(&ended)))
        }))
    }
}

impl Drop for Progress {
    fn drop(&mut self) {
        if let Some((end, watcher)) = self.0.take() {
            drop(end);
            // It wipes its line away first. Where it cannot, there is no line.
            let _ = watcher.join();
        }
    }
}

fn show(ended: &Receiver<()>) {
    let goes_on = |wait| ended.recv_timeout(wait) == Err(RecvTimeoutError::Timeout);
    let begun = Instant::now();
    if !goes_on(PATIENCE) {
        return;
    }
    loop {
        say(&format!("{WIPE}{}", Seen::now().line(begun.elapsed())));
        if !goes_on(TICK) {
            break;
        }
    }
    say(WIPE);
}

fn say(text: &str) {
    let _ = io::stderr().lock().write_all(text.as_bytes());
}

/// How far it is.
struct Seen {
    read: u64,
    /// Of how many bytes, where that is known.
    length: Option<u64>,
    is_reading: bool,
}

impl Seen {
    fn now() -> Seen {
        let length = LENGTH.load(Ordering::Relaxed);
        Seen {
            read: READ.load(Ordering::Relaxed),
            length: (!IS_OPEN_ENDED.load(Ordering::Relaxed)).then_some(length),
            is_reading: IS_READING.load(Ordering::Relaxed),
        }
    }

    /// What is said after a time. It is shorter than any terminal is wide.
    fn line(&self, after: Duration) -> String {
        let read = size(self.read);
        if !self.is_reading {
            return format!(
                "wakemiono: {read} read, answering for {} s",
                after.as_secs()
            );
        }
        let of = self
            .length
            .map_or(String::new(), |length| format!(" of {}", size(length)));
        let rate = size((self.read as f64 / after.as_secs_f64()) as u64);
        format!("wakemiono: {read}{of} read, {rate}/s")
    }
}

/// Bytes in three digits or so.
fn size(bytes: u64) -> String {
    const UNITS: [&str; 5] = ["kB", "MB", "GB", "TB", "PB"];
    const STEP: f64 = 1000.0;
    if bytes < STEP as u64 {
        return format!("{bytes} B");
    }
    let mut amount = bytes as f64 / STEP;
    let mut units = UNITS.into_iter().peekable();
    while amount >= STEP && units.len() > 1 {
        amount /= STEP;
        units.next();
    }
    format!("{amount:.1} {}", units.next().unwrap_or_default())
}

#[cfg(test)]
mod tests {
    use super::*;

    #[test]
    fn sizes_are_short() {
        assert_eq!(size(0), "0 B");
        assert_eq!(size(999), "999 B");
        assert_eq!(size(1_000), "1.0 kB");
        assert_eq!(size(312_540_000), "312.5 MB");
        assert_eq!(size(4_000_000_000), "4.0 GB");
        assert_eq!(size(u64::MAX), "18446.7 PB");
    }

    #[test]
    fn the_line_says_what_is_known() {
        let seen = |length, is_reading| Seen {
            read: 300_000_000,
            length,
            is_reading,
        };
        let after = Duration::from_secs(2);
        assert_eq!(
            seen(Some(4_000_000_000), true).line(after),
            "wakemiono: 300.0 MB of 4.0 GB read, 150.0 MB/s"
        );
        assert_eq!(
            seen(None, true).line(after),
            "wakemiono: 300.0 MB read, 150.0 MB/s"
        );
        assert_eq!(
            seen(None, false).line(after),
            "wakemiono: 300.0 MB read, answering for 2 s"
        );
    }
}
