//! A module that arrives in parts and is never held whole.

use std::fmt;
use std::io::{self, Write};

use crate::ffi::stream::State;
use crate::Refusal;

/// A module as it arrives, in parts that are cut anywhere: an upload that is judged while it comes, or
/// a file that is too large to be held.
///
/// What is known between two parts is a small state in here. No part is kept, and contents that are
/// skipped cost nothing by the byte. At the finish it is answered what
/// [`Module::section_count`](crate::Module::section_count) and the places of the payloads are on all
/// parts joined, however they were cut.
///
/// ```
/// use wakemiono::{Place, Stream};
///
/// let mut stream = Stream::new();
/// for part in [&b"\0as"[..], b"m\x01\0\0", b"", b"\0\x00\x09\x04na", b"me\x00\x02\x01m"] {
///     stream.part(part)?;
/// }
/// assert_eq!(stream.total(), 19);
/// let walked = stream.finish()?;
/// assert_eq!(walked.section_count, 1);
/// assert_eq!(walked.name, Some(Place { offset: 15, length: 4 }));
/// # Ok::<(), wakemiono::Refusal>(())
/// ```
///
/// It is a [`Write`], so that [`io::copy`] feeds it from a file, a pipe or a connection:
///
/// ```
/// use std::io;
/// use wakemiono::Stream;
///
/// let mut upload = &b"\0asm\x01\0\0\0\x01\x01\x00"[..]; // any reader
/// let mut stream = Stream::new();
/// io::copy(&mut upload, &mut stream)?;
/// assert_eq!(stream.finish()?.section_count, 1);
/// # Ok::<(), Box<dyn std::error::Error>>(())
/// ```
///
/// After the finish there is no stream to which a part could be given, nor one that could be finished
/// again:
///
/// ```compile_fail,E0382
/// use wakemiono::Stream;
///
/// let mut stream = Stream::new();
/// let walked = stream.finish();
/// stream.part(b"\0asm")?;
/// # Ok::<(), wakemiono::Refusal>(())
/// ```
///
/// The state is lent to the library and not copied:
///
/// ```compile_fail,E0599
/// use wakemiono::Stream;
///
/// Stream::new().clone();
/// ```
pub struct Stream(State);

impl Stream {
    /// A stream of which nothing has come.
    ///
    /// ```
    /// use wakemiono::Stream;
    ///
    /// assert_eq!(Stream::new().total(), 0);
    /// ```
    #[must_use]
    pub fn new() -> Stream {
        Stream(State::begin())
    }

    /// Takes the next part, all of it. One of no length is taken like any other, and so are parts of
    /// a module that will be refused: what is wrong with a module is said at the finish, since what
    /// is known only at the end may go before it.
    ///
    /// ```
    /// use wakemiono::Stream;
    ///
    /// let mut stream = Stream::new();
    /// stream.part(b"no module")?;
    /// stream.part(b"")?;
    /// assert_eq!(stream.finish().unwrap_err().number(), 1);
    /// # Ok::<(), wakemiono::Refusal>(())
    /// ```
    ///
    /// # Errors
    ///
    /// [`StreamTooLong`](crate::Reason::StreamTooLong) for a part that takes the total above
    /// [`u64::MAX`]. The stream is then as it was, and takes a shorter part.
    pub fn part(&mut self, part: &[u8]) -> Result<(), Refusal> {
        self.0.part(part).taken(part.len())
    }

    /// Says that there are no more parts, and gets what the walk has found on all of them joined.
    ///
    /// ```
    /// use wakemiono::Stream;
    ///
    /// let mut stream = Stream::new();
    /// stream.part(b"\0asm\x01\0\0\0\x01\x05\x00")?; // of five bytes of contents one has come
    /// let refusal = stream.finish().unwrap_err();
    /// assert_eq!((refusal.number(), refusal.offset()), (2, 9));
    /// # Ok::<(), wakemiono::Refusal>(())
    /// ```
    ///
    /// A stream that is only borrowed is finished by [`std::mem::take`], which leaves a new one in its
    /// place:
    ///
    /// ```
    /// use std::mem;
    /// use wakemiono::{Refusal, Stream, Walked};
    ///
    /// fn finished(stream: &mut Stream) -> Result<Walked, Refusal> {
    ///     mem::take(stream).finish()
    /// }
    ///
    /// let mut stream = Stream::new();
    /// stream.part(b"\0asm\x01\0\0\0")?;
    /// assert_eq!(finished(&mut stream)?.section_count, 0);
    /// assert_eq!(stream.total(), 0);
    /// # Ok::<(), wakemiono::Refusal>(())
    /// ```
    ///
    /// # Errors
    ///
    /// The first fault of the walk over all sections, as
    /// [`Module::section_count`](crate::Module::section_count) gives it. Its offset counts from the
    /// first byte of the first part.
    pub fn finish(mut self) -> Result<Walked, Refusal> {
        self.0.finish().walked(self.0.total)
    }

    /// How many bytes were taken so far.
    ///
    /// ```
    /// use wakemiono::Stream;
    ///
    /// let mut stream = Stream::new();
    /// stream.part(b"\0asm")?;
    /// assert_eq!(stream.total(), 4);
    /// # Ok::<(), wakemiono::Refusal>(())
    /// ```
    #[must_use]
    pub const fn total(&self) -> u64 {
        self.0.total
    }
}

/// As [`Stream::new`].
///
/// ```
/// use wakemiono::Stream;
///
/// assert_eq!(Stream::default().total(), 0);
/// ```
impl Default for Stream {
    fn default() -> Stream {
        Stream::new()
    }
}

impl fmt::Debug for Stream {
    fn fmt(&self, f: &mut fmt::Formatter<'_>) -> fmt::Result {
        write!(f, "Stream({} bytes)", self.total())
    }
}

/// Each write is a part, which is taken whole. What [`Stream::part`] refuses is an [`io::Error`] that
/// holds the [`Refusal`]. There is nothing to flush.
///
/// ```
/// use std::io::Write;
/// use wakemiono::Stream;
///
/// let mut stream = Stream::new();
/// assert_eq!(stream.write(b"\0asm")?, 4);
/// stream.write_all(b"\x01\0\0\0")?;
/// assert_eq!(stream.total(), 8);
/// # Ok::<(), std::io::Error>(())
/// ```
impl Write for Stream {
    fn write(&mut self, part: &[u8]) -> io::Result<usize> {
        self.part(part).map_err(io::Error::other)?;
        Ok(part.len())
    }

    fn flush(&mut self) -> io::Result<()> {
        Ok(())
    }
}

/// What the walk over a module that arrived has found.
///
/// ```
/// use wakemiono::{Stream, Walked};
///
/// let mut stream = Stream::new();
/// stream.part(b"\0asm\x01\0\0\0")?;
/// let nothing = Walked { section_count: 0, name: None, hints: None, old_hints: None };
/// assert_eq!(stream.finish(), Ok(nothing));
/// # Ok::<(), wakemiono::Refusal>(())
/// ```
#[derive(Clone, Copy, Debug, PartialEq, Eq, Hash)]
pub struct Walked {
    /// How many sections there are.
    pub section_count: u64,
    /// Where the payload of the `name` section lies, not judged.
    pub name: Option<Place>,
    /// Where the payload of the section `metadata.code.branch_hint` lies, not judged.
    pub hints: Option<Place>,
    /// Where the payload of the section `branchHints`, the older edition of hints, lies, not judged.
    pub old_hints: Option<Place>,
}

/// Where a payload lies in a module that was not held whole.
///
/// Whoever kept the bytes there, or reads them again, asks them as a payload apart; a refusal of it is
/// counted from the module's start by [`Refusal::in_module`].
///
/// ```
/// use wakemiono::{NamePayload, Stream};
///
/// let module = b"\0asm\x01\0\0\0\x00\x09\x04name\x00\x02\x01m";
/// let mut stream = Stream::new();
/// stream.part(module)?;
/// let place = stream.finish()?.name.unwrap();
/// let bytes = &module[place.offset as usize..][..place.length as usize];
/// assert_eq!(NamePayload::new(bytes).module_name()?.unwrap().to_str(), Ok("m"));
/// # Ok::<(), wakemiono::Refusal>(())
/// ```
#[derive(Clone, Copy, Debug, PartialEq, Eq, Hash)]
pub struct Place {
    /// The offset of its first byte, counted from the start of the module.
    pub offset: u64,
    /// How many bytes it has.
    pub length: u64,
}

#[cfg(test)]
mod tests {
    use super::*;
    use crate::Reason;

    /// A stream of which so many bytes have come, whatever they were.
    fn after(total: u64) -> Stream {
        let mut stream = Stream::new();
        stream.0.total = total;
        stream
    }

    fn number(taken: Result<(), Refusal>) -> Option<u32> {
        taken.err().map(|refusal| refusal.number())
    }

    #[test]
    fn no_more_bytes_are_taken_than_can_be_counted() {
        let mut stream = after(u64::MAX - 2);
        let before = after(u64::MAX - 2);
        assert_eq!(number(stream.part(&[0; 3])), Some(28));
        assert_eq!(stream.0, before.0, "a refusal changes nothing");
        assert_eq!(number(stream.part(&[0; 2])), None);
        assert_eq!(stream.total(), u64::MAX);
        assert_eq!(number(stream.part(&[])), None);
        assert_eq!(number(stream.part(&[0])), Some(28));
    }

    #[test]
    fn a_part_that_is_refused_is_an_error_that_holds_the_refusal() {
        let error = after(u64::MAX).write(&[0]).unwrap_err();
        let refusal = error.get_ref().and_then(|error| error.downcast_ref());
        let refusal: &Refusal = refusal.expect("a refusal");
        assert_eq!(refusal.reason(), Reason::StreamTooLong);
        assert_eq!(error.to_string(), refusal.to_string());
    }

    #[test]
    fn what_is_finished_takes_no_part() {
        let mut stream = Stream::new();
        let _ = stream.0.finish();
        assert_eq!(number(stream.part(&[])), Some(18));
        assert_eq!(stream.finish().unwrap_err().number(), 18);
    }

    #[test]
    fn a_finished_stream_is_refused_before_one_that_is_too_long() {
        let mut stream = after(u64::MAX);
        let _ = stream.0.finish();
        assert_eq!(number(stream.part(&[0])), Some(18));
    }
}
