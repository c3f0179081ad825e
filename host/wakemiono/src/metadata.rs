//! Code metadata of any format, and branch hints.

use std::fmt;

use crate::answer::is_yes;
use crate::{ffi, CodeOffset, FunctionIndex, Refusal};

/// What a branch hint says of the branch at its place.
///
/// ```
/// use wakemiono::{CodeOffset, FunctionIndex, Hint, Hints};
///
/// let hints = Hints::new(&[0x01, 0x02, 0x01, 0x05, 0x01, 0x01]);
/// assert_eq!(hints.hint(FunctionIndex(2), CodeOffset(5))?, Some(Hint::Likely));
/// # Ok::<(), wakemiono::Refusal>(())
/// ```
#[derive(Clone, Copy, Debug, PartialEq, Eq, PartialOrd, Ord, Hash)]
pub enum Hint {
    /// The branch is rarely taken.
    Unlikely,
    /// The branch is mostly taken.
    Likely,
}

/// `unlikely` or `likely`.
///
/// ```
/// assert_eq!(wakemiono::Hint::Unlikely.to_string(), "unlikely");
/// ```
impl fmt::Display for Hint {
    fn fmt(&self, f: &mut fmt::Formatter<'_>) -> fmt::Result {
        f.pad(match self {
            Hint::Unlikely => "unlikely",
            Hint::Likely => "likely",
        })
    }
}

/// The payload of a section `metadata.code.T` of any format T, borrowed from the caller.
///
/// Any bytes may be lent, and nothing is checked beforehand: each call judges the whole payload
/// first, and refuses it where it is damaged anywhere. Data may have any size.
///
/// ```
/// use wakemiono::{CodeOffset, FunctionIndex, Metadata};
///
/// let bytes = [0x01, 0x02, 0x01, 0x05, 0x03, 0x61, 0x62, 0x63];
/// let metadata = Metadata::new(&bytes);
/// assert_eq!(metadata.data(FunctionIndex(2), CodeOffset(5))?, Some(&b"abc"[..]));
/// # Ok::<(), wakemiono::Refusal>(())
/// ```
#[derive(Clone, Copy)]
pub struct Metadata<'a>(&'a [u8]);

impl<'a> Metadata<'a> {
    /// Takes any bytes, and checks nothing.
    ///
    /// ```
    /// use wakemiono::Metadata;
    ///
    /// assert_eq!(Metadata::new(&[0x00]).judge(), Ok(()));
    /// ```
    #[must_use]
    pub const fn new(payload: &'a [u8]) -> Metadata<'a> {
        Metadata(payload)
    }

    /// The bytes that were lent.
    ///
    /// ```
    /// use wakemiono::Metadata;
    ///
    /// assert_eq!(Metadata::new(&[0x00]).as_bytes(), [0x00]);
    /// ```
    #[must_use]
    pub const fn as_bytes(&self) -> &'a [u8] {
        self.0
    }

    /// Whether the payload is accepted.
    ///
    /// ```
    /// use wakemiono::Metadata;
    ///
    /// assert_eq!(Metadata::new(&[0x00]).judge(), Ok(()));
    /// assert_eq!(Metadata::new(&[0x00, 0x00]).judge().unwrap_err().number(), 10);
    /// ```
    ///
    /// # Errors
    ///
    /// The first fault of the payload, read from left to right.
    pub fn judge(&self) -> Result<(), Refusal> {
        ffi::metadata_judge(self.0).length().map(drop)
    }

    /// The data that belongs to a place in a function's code.
    ///
    /// ```
    /// use wakemiono::{CodeOffset, FunctionIndex, Metadata};
    ///
    /// let metadata = Metadata::new(&[0x01, 0x02, 0x01, 0x05, 0x00]);
    /// assert_eq!(metadata.data(FunctionIndex(2), CodeOffset(5))?, Some(&[][..]));
    /// assert_eq!(metadata.data(FunctionIndex(2), CodeOffset(4))?, None);
    /// # Ok::<(), wakemiono::Refusal>(())
    /// ```
    ///
    /// # Errors
    ///
    /// As [`judge`](Self::judge).
    pub fn data(
        &self,
        function: FunctionIndex,
        at: CodeOffset,
    ) -> Result<Option<&'a [u8]>, Refusal> {
        ffi::metadata(self.0, function.0, at.0).part(self.0)
    }

    /// Writes the canonical form to the front of an output, and answers its length. The rest of the
    /// output is unchanged. An output as long as the payload is always enough.
    ///
    /// ```
    /// use wakemiono::Metadata;
    ///
    /// let function_without_items = Metadata::new(&[0x01, 0x02, 0x00]);
    /// let mut out = [0xEE; 3];
    /// assert_eq!(function_without_items.canonical_into(&mut out), Ok(1));
    /// assert_eq!(out, [0x00, 0xEE, 0xEE]);
    /// ```
    ///
    /// # Errors
    ///
    /// As [`judge`](Self::judge), and then [`OutputTooShort`](crate::Reason::OutputTooShort) with
    /// the needed length. A refusal leaves the output as it was.
    pub fn canonical_into(&self, out: &mut [u8]) -> Result<usize, Refusal> {
        ffi::metadata_canonical(self.0, out).written(out.len())
    }

    /// The canonical form. Those of two payloads are equal exactly when every question gets the
    /// same answer from both.
    ///
    /// ```
    /// use wakemiono::Metadata;
    ///
    /// let padded = Metadata::new(&[0x80, 0x80, 0x80, 0x80, 0x00]);
    /// assert_eq!(padded.to_canonical()?, [0x00]);
    /// # Ok::<(), wakemiono::Refusal>(())
    /// ```
    ///
    /// # Errors
    ///
    /// As [`judge`](Self::judge).
    pub fn to_canonical(&self) -> Result<Vec<u8>, Refusal> {
        crate::to_vec(self.0.len(), |out| self.canonical_into(out))
    }

    /// Whether the payload is accepted and equals its canonical form. It takes one pass, and no
    /// output. A payload that is refused is not canonical; [`judge`](Self::judge) says why.
    ///
    /// ```
    /// use wakemiono::Metadata;
    ///
    /// assert!(Metadata::new(&[0x01, 0x02, 0x01, 0x05, 0x00]).is_canonical());
    /// let function_without_items = Metadata::new(&[0x01, 0x02, 0x00]);
    /// assert!(!function_without_items.is_canonical());
    /// let left_over = Metadata::new(&[0x00, 0x00]);
    /// assert!(!left_over.is_canonical());
    /// ```
    #[must_use]
    pub fn is_canonical(&self) -> bool {
        is_yes(ffi::metadata_is_canonical(self.0))
    }
}

impl fmt::Debug for Metadata<'_> {
    fn fmt(&self, f: &mut fmt::Formatter<'_>) -> fmt::Result {
        write!(f, "Metadata({} bytes)", self.0.len())
    }
}

/// The payload of the section `metadata.code.branch_hint`, borrowed from the caller.
///
/// Any bytes may be lent, and nothing is checked beforehand: each call judges the whole payload
/// first, and refuses it where it is damaged anywhere. Each datum is one byte, 0 or 1.
///
/// ```
/// use wakemiono::{CodeOffset, FunctionIndex, Hint, Hints};
///
/// let hints = Hints::new(&[0x01, 0x02, 0x01, 0x05, 0x01, 0x00]);
/// match hints.hint(FunctionIndex(2), CodeOffset(5))? {
///     Some(Hint::Likely) => panic!("the branch is hinted as unlikely"),
///     Some(Hint::Unlikely) => {}
///     None => panic!("there is a hint"),
/// }
/// # Ok::<(), wakemiono::Refusal>(())
/// ```
#[derive(Clone, Copy)]
pub struct Hints<'a>(&'a [u8]);

impl<'a> Hints<'a> {
    /// Takes any bytes, and checks nothing.
    ///
    /// ```
    /// use wakemiono::Hints;
    ///
    /// assert_eq!(Hints::new(&[]).judge().unwrap_err().number(), 2);
    /// ```
    #[must_use]
    pub const fn new(payload: &'a [u8]) -> Hints<'a> {
        Hints(payload)
    }

    /// The bytes that were lent.
    ///
    /// ```
    /// use wakemiono::Hints;
    ///
    /// assert_eq!(Hints::new(&[0x00]).as_bytes(), [0x00]);
    /// ```
    #[must_use]
    pub const fn as_bytes(&self) -> &'a [u8] {
        self.0
    }

    /// Whether the payload is accepted.
    ///
    /// ```
    /// use wakemiono::Hints;
    ///
    /// assert_eq!(Hints::new(&[0x01, 0x02, 0x01, 0x05, 0x01, 0x01]).judge(), Ok(()));
    /// let refusal = Hints::new(&[0x01, 0x02, 0x01, 0x05, 0x01, 0x02]).judge().unwrap_err();
    /// assert_eq!((refusal.number(), refusal.offset()), (12, 4));
    /// ```
    ///
    /// # Errors
    ///
    /// The first fault of the payload, read from left to right.
    pub fn judge(&self) -> Result<(), Refusal> {
        ffi::hints_judge(self.0).length().map(drop)
    }

    /// The hint for the branch at a place in a function's code.
    ///
    /// ```
    /// use wakemiono::{CodeOffset, FunctionIndex, Hint, Hints};
    ///
    /// let hints = Hints::new(&[0x01, 0x02, 0x01, 0x05, 0x01, 0x01]);
    /// assert_eq!(hints.hint(FunctionIndex(2), CodeOffset(5))?, Some(Hint::Likely));
    /// assert_eq!(hints.hint(FunctionIndex(2), CodeOffset(4))?, None);
    /// # Ok::<(), wakemiono::Refusal>(())
    /// ```
    ///
    /// # Errors
    ///
    /// As [`judge`](Self::judge).
    pub fn hint(&self, function: FunctionIndex, at: CodeOffset) -> Result<Option<Hint>, Refusal> {
        ffi::hint(self.0, function.0, at.0).hint()
    }

    /// Writes the canonical form to the front of an output, and answers its length. The rest of the
    /// output is unchanged. An output as long as the payload is always enough.
    ///
    /// ```
    /// use wakemiono::Hints;
    ///
    /// let padded = Hints::new(&[0x81, 0x00, 0x02, 0x01, 0x05, 0x01, 0x01]);
    /// let mut out = [0xEE; 7];
    /// assert_eq!(padded.canonical_into(&mut out), Ok(6));
    /// assert_eq!(out, [0x01, 0x02, 0x01, 0x05, 0x01, 0x01, 0xEE]);
    /// ```
    ///
    /// # Errors
    ///
    /// As [`judge`](Self::judge), and then [`OutputTooShort`](crate::Reason::OutputTooShort) with
    /// the needed length. A refusal leaves the output as it was.
    pub fn canonical_into(&self, out: &mut [u8]) -> Result<usize, Refusal> {
        ffi::hints_canonical(self.0, out).written(out.len())
    }

    /// The canonical form. Those of two payloads are equal exactly when every question gets the
    /// same answer from both.
    ///
    /// ```
    /// use wakemiono::Hints;
    ///
    /// let padded = Hints::new(&[0x81, 0x00, 0x02, 0x01, 0x05, 0x01, 0x01]);
    /// assert_eq!(padded.to_canonical()?, [0x01, 0x02, 0x01, 0x05, 0x01, 0x01]);
    /// # Ok::<(), wakemiono::Refusal>(())
    /// ```
    ///
    /// # Errors
    ///
    /// As [`judge`](Self::judge).
    pub fn to_canonical(&self) -> Result<Vec<u8>, Refusal> {
        crate::to_vec(self.0.len(), |out| self.canonical_into(out))
    }

    /// Whether the payload is accepted and equals its canonical form. It takes one pass, and no
    /// output. A payload that is refused is not canonical; [`judge`](Self::judge) says why.
    ///
    /// ```
    /// use wakemiono::Hints;
    ///
    /// assert!(Hints::new(&[0x01, 0x02, 0x01, 0x05, 0x01, 0x01]).is_canonical());
    /// let padded = Hints::new(&[0x81, 0x00, 0x02, 0x01, 0x05, 0x01, 0x01]);
    /// assert!(!padded.is_canonical());
    /// let no_hint = Hints::new(&[0x01, 0x02, 0x01, 0x05, 0x01, 0x02]);
    /// assert!(!no_hint.is_canonical());
    /// ```
    #[must_use]
    pub fn is_canonical(&self) -> bool {
        is_yes(ffi::hints_is_canonical(self.0))
    }
}

impl fmt::Debug for Hints<'_> {
    fn fmt(&self, f: &mut fmt::Formatter<'_>) -> fmt::Result {
        write!(f, "Hints({} bytes)", self.0.len())
    }
}
