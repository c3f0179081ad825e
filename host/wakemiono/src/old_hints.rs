//! The older edition of branch hints.

use std::fmt;

use crate::answer::is_yes;
use crate::{ffi, FunctionIndex, Hint, InstructionOffset, Refusal};

/// The payload of a section `branchHints`, the older edition of branch hints, borrowed from the
/// caller.
///
/// It is a list of entries, each a function, one zero byte, and a list of hints: a kind, 0 for
/// unlikely or 1 for likely, and an offset. No order is asked, and any place may be hinted more than
/// once: the first hint in the payload is the one that answers.
///
/// Its offsets count from a function's first instruction, and those of [`Hints`](crate::Hints) from
/// its declaration of locals, so the two editions are kept and asked apart: they have types of their
/// own, and a payload of the one is not taken for one of the other.
///
/// Any bytes may be lent, and nothing is checked beforehand: each call judges the whole payload
/// first, and refuses it where it is damaged anywhere.
///
/// ```
/// use wakemiono::{FunctionIndex, Hint, InstructionOffset, OldHints};
///
/// let hints = OldHints::new(&[0x01, 0x02, 0x00, 0x02, 0x01, 0x05, 0x00, 0x05]);
/// let hint = hints.hint(FunctionIndex(2), InstructionOffset(5))?;
/// assert_eq!(hint, Some(Hint::Likely)); // the first of the two
/// # Ok::<(), wakemiono::Refusal>(())
/// ```
#[derive(Clone, Copy)]
pub struct OldHints<'a>(&'a [u8]);

impl<'a> OldHints<'a> {
    /// Takes any bytes, and checks nothing.
    ///
    /// ```
    /// use wakemiono::OldHints;
    ///
    /// assert_eq!(OldHints::new(&[]).judge().unwrap_err().number(), 2);
    /// ```
    #[must_use]
    pub const fn new(payload: &'a [u8]) -> OldHints<'a> {
        OldHints(payload)
    }

    /// The bytes that were lent.
    ///
    /// ```
    /// use wakemiono::OldHints;
    ///
    /// assert_eq!(OldHints::new(&[0x00]).as_bytes(), [0x00]);
    /// ```
    #[must_use]
    pub const fn as_bytes(&self) -> &'a [u8] {
        self.0
    }

    /// Whether the payload is accepted.
    ///
    /// ```
    /// use wakemiono::OldHints;
    ///
    /// assert_eq!(OldHints::new(&[0x01, 0x02, 0x00, 0x01, 0x01, 0x05]).judge(), Ok(()));
    /// let refusal = OldHints::new(&[0x01, 0x02, 0x80, 0x00]).judge().unwrap_err();
    /// assert_eq!((refusal.number(), refusal.offset()), (17, 2));
    /// ```
    ///
    /// # Errors
    ///
    /// The first fault of the payload, read from left to right.
    pub fn judge(&self) -> Result<(), Refusal> {
        ffi::old_hints_judge(self.0).length().map(drop)
    }

    /// The hint for the branch at a place in a function's code: the first in the payload for it.
    ///
    /// ```
    /// use wakemiono::{FunctionIndex, Hint, InstructionOffset, OldHints};
    ///
    /// let hints = OldHints::new(&[0x01, 0x02, 0x00, 0x01, 0x80, 0x00, 0x05]); // a padded kind
    /// let hint = |at| hints.hint(FunctionIndex(2), InstructionOffset(at));
    /// assert_eq!(hint(5)?, Some(Hint::Unlikely));
    /// assert_eq!(hint(4)?, None);
    /// # Ok::<(), wakemiono::Refusal>(())
    /// ```
    ///
    /// # Errors
    ///
    /// As [`judge`](Self::judge).
    pub fn hint(
        &self,
        function: FunctionIndex,
        at: InstructionOffset,
    ) -> Result<Option<Hint>, Refusal> {
        ffi::old_hint(self.0, function.0, at.0).hint()
    }

    /// Writes the canonical form to the front of an output, and answers its length. The rest of the
    /// output is unchanged. An output as long as the payload is always enough.
    ///
    /// It has one entry for each function that has hints, functions and offsets rise, and of the
    /// hints for one place the first stays.
    ///
    /// ```
    /// use wakemiono::OldHints;
    ///
    /// let repeated = OldHints::new(&[0x01, 0x00, 0x00, 0x02, 0x01, 0x05, 0x01, 0x05]);
    /// let mut out = [0xEE; 8];
    /// assert_eq!(repeated.canonical_into(&mut out), Ok(6));
    /// assert_eq!(out, [0x01, 0x00, 0x00, 0x01, 0x01, 0x05, 0xEE, 0xEE]);
    /// ```
    ///
    /// # Errors
    ///
    /// As [`judge`](Self::judge); then [`SubsectionTooLong`](crate::Reason::SubsectionTooLong) where
    /// the canonical form would exceed 4,294,967,295 bytes; then
    /// [`OutputTooShort`](crate::Reason::OutputTooShort) with the needed length. A refusal leaves the
    /// output as it was.
    pub fn canonical_into(&self, out: &mut [u8]) -> Result<usize, Refusal> {
        ffi::old_hints_canonical(self.0, out).written(out.len())
    }

    /// The canonical form. Those of two payloads are equal exactly when every question gets the
    /// same answer from both.
    ///
    /// ```
    /// use wakemiono::OldHints;
    ///
    /// let falling = OldHints::new(&[0x01, 0x02, 0x00, 0x02, 0x01, 0x09, 0x00, 0x05]);
    /// let canonical = [0x01, 0x02, 0x00, 0x02, 0x00, 0x05, 0x01, 0x09];
    /// assert_eq!(falling.to_canonical()?, canonical);
    /// # Ok::<(), wakemiono::Refusal>(())
    /// ```
    ///
    /// # Errors
    ///
    /// As [`canonical_into`](Self::canonical_into), with room enough.
    pub fn to_canonical(&self) -> Result<Vec<u8>, Refusal> {
        crate::to_vec(self.0.len(), |out| self.canonical_into(out))
    }

    /// Whether the payload is accepted and equals its canonical form. A payload that is refused is not
    /// canonical; [`judge`](Self::judge) says why.
    ///
    /// ```
    /// use wakemiono::OldHints;
    ///
    /// assert!(OldHints::new(&[0x01, 0x02, 0x00, 0x01, 0x01, 0x05]).is_canonical());
    /// let function_without_hints = OldHints::new(&[0x01, 0x02, 0x00, 0x00]);
    /// assert!(!function_without_hints.is_canonical());
    /// let left_over = OldHints::new(&[0x00, 0x00]);
    /// assert!(!left_over.is_canonical());
    /// ```
    #[must_use]
    pub fn is_canonical(&self) -> bool {
        is_yes(ffi::old_hints_is_canonical(self.0))
    }
}

impl fmt::Debug for OldHints<'_> {
    fn fmt(&self, f: &mut fmt::Formatter<'_>) -> fmt::Result {
        write!(f, "OldHints({} bytes)", self.0.len())
    }
}
