//! Markers beside large maps of function names, and the quick question that is put by them. They are
//! made in the first edition of names alone.

use std::fmt;

use crate::{First, FunctionIndex, Name, NamePayload, Refusal};

/// How many entries there are from one marker to the next.
const STEP: usize = 16;

/// The fewest bytes of an entry: its index, and the length of an empty name.
const SHORTEST_ENTRY: usize = 2;

/// The markers of a name payload, for whoever asks it for many function names: the index and the
/// offset of every sixteenth function entry, the first included, and where their subsection ends.
///
/// They are made once, by [`NamePayload::markers`], and asked by [`quick`](Self::quick) beside the
/// payload's own [`function_name`](NamePayload::function_name). It gives the same names, and reads
/// sixteen entries at most, where the other judges the payload and goes through all of it:
///
/// ```
/// use wakemiono::{FunctionIndex, NamePayload};
///
/// let bytes = [0x01, 0x07, 0x02, 0x00, 0x01, 0x61, 0x03, 0x01, 0x62];
/// let payload = NamePayload::new(&bytes);
/// let markers = payload.markers()?;
/// for function in (0..5).map(FunctionIndex) {
///     assert_eq!(markers.quick(function), payload.function_name(function)?);
/// }
/// # Ok::<(), wakemiono::Refusal>(())
/// ```
///
/// They are those of the very bytes that they were made from, which do not change while there are
/// markers of them:
///
/// ```compile_fail,E0506
/// use wakemiono::{FunctionIndex, NamePayload};
///
/// let mut bytes = [0x01, 0x04, 0x01, 0x00, 0x01, 0x61];
/// let markers = NamePayload::new(&bytes).markers()?;
/// bytes[5] = 0xFF;
/// markers.quick(FunctionIndex(0));
/// # Ok::<(), wakemiono::Refusal>(())
/// ```
///
/// and which they do not outlive:
///
/// ```compile_fail,E0597
/// use wakemiono::{FunctionIndex, NamePayload};
///
/// let markers = {
///     let bytes = vec![0x01, 0x04, 0x01, 0x00, 0x01, 0x61];
///     NamePayload::new(&bytes).markers()?
/// };
/// markers.quick(FunctionIndex(0));
/// # Ok::<(), wakemiono::Refusal>(())
/// ```
///
/// Markers that are to outlive them are stored as two lists and a number, and asked by
/// [`NamePayload::quick_function_name`].
#[derive(Clone)]
pub struct Markers<'a> {
    payload: NamePayload<'a>,
    indices: Box<[FunctionIndex]>,
    offsets: Box<[u32]>,
    end: u64,
}

impl<'a> Markers<'a> {
    /// A function's name, as [`NamePayload::function_name`] gives it. There is nothing to refuse,
    /// since the payload was accepted when the markers were made.
    ///
    /// ```
    /// use wakemiono::{FunctionIndex, NamePayload};
    ///
    /// let markers = NamePayload::new(&[0x01, 0x04, 0x01, 0x03, 0x01, 0x66]).markers()?;
    /// assert_eq!(markers.quick(FunctionIndex(3)).unwrap().to_str(), Ok("f"));
    /// assert_eq!(markers.quick(FunctionIndex(4)), None);
    /// # Ok::<(), wakemiono::Refusal>(())
    /// ```
    #[must_use]
    pub fn quick(&self, function: FunctionIndex) -> Option<Name<'a>> {
        let lent = self.payload.as_bytes();
        let (indices, offsets) = (&self.indices, &self.offsets);
        let answer = First::quick_function_name(lent, indices, offsets, self.end, function.0);
        answer.part_unrefused(lent).map(Name::from)
    }

    /// The functions whose entries are marked.
    ///
    /// ```
    /// use wakemiono::{function_names, FunctionIndex, NamePayload};
    ///
    /// let written = function_names((0..40).map(|index| (FunctionIndex(index), "f")))?;
    /// let markers = NamePayload::new(&written).markers()?;
    /// assert_eq!(markers.indices(), [0, 16, 32].map(FunctionIndex));
    /// # Ok::<(), wakemiono::Refusal>(())
    /// ```
    #[must_use]
    pub fn indices(&self) -> &[FunctionIndex] {
        &self.indices
    }

    /// Where those entries stand: the offset in the payload of each one's index number. There are as
    /// many as [`indices`](Self::indices).
    ///
    /// ```
    /// use wakemiono::NamePayload;
    ///
    /// let markers = NamePayload::new(&[0x01, 0x04, 0x01, 0x03, 0x01, 0x66]).markers()?;
    /// assert_eq!(markers.offsets(), [3]);
    /// # Ok::<(), wakemiono::Refusal>(())
    /// ```
    #[must_use]
    pub fn offsets(&self) -> &[u32] {
        &self.offsets
    }

    /// Where the subsection of function names ends in the payload, or 0 without one.
    ///
    /// ```
    /// use wakemiono::NamePayload;
    ///
    /// assert_eq!(NamePayload::new(&[0x01, 0x01, 0x00]).markers()?.end(), 3);
    /// assert_eq!(NamePayload::new(&[]).markers()?.end(), 0);
    /// # Ok::<(), wakemiono::Refusal>(())
    /// ```
    #[must_use]
    pub fn end(&self) -> u64 {
        self.end
    }
}

impl fmt::Debug for Markers<'_> {
    fn fmt(&self, f: &mut fmt::Formatter<'_>) -> fmt::Result {
        write!(f, "Markers({} in {:?})", self.indices.len(), self.payload)
    }
}

/// What was written into two lists by [`NamePayload::markers_into`].
///
/// ```
/// use wakemiono::{FunctionIndex, Marked, NamePayload};
///
/// let payload = NamePayload::new(&[0x01, 0x04, 0x01, 0x03, 0x01, 0x66]);
/// let marked = payload.markers_into(&mut [FunctionIndex(0)], &mut [0])?;
/// assert_eq!(marked, Marked { count: 1, end: 6 });
/// # Ok::<(), wakemiono::Refusal>(())
/// ```
#[derive(Clone, Copy, Debug, PartialEq, Eq, Hash)]
pub struct Marked {
    /// How many markers there are, at the front of both lists.
    pub count: usize,
    /// Where the subsection of function names ends in the payload, or 0 without one.
    pub end: u64,
}

impl<'a> NamePayload<'a> {
    /// The markers of the payload, by which it is asked for function names without being judged each
    /// time.
    ///
    /// ```
    /// use wakemiono::{FunctionIndex, NamePayload};
    ///
    /// let payload = NamePayload::new(&[0x01, 0x04, 0x01, 0x03, 0x01, 0x66]);
    /// let markers = payload.markers()?;
    /// assert_eq!(markers.quick(FunctionIndex(3)), payload.function_name(FunctionIndex(3))?);
    /// # Ok::<(), wakemiono::Refusal>(())
    /// ```
    ///
    /// It judges the payload once, and takes a quarter of the payload's length for the lists until
    /// it is known how many markers there are.
    ///
    /// They are made in the first edition alone. What the wider edition accepts is accepted by the
    /// first too, which has the same names of functions; so who uses the wider edition judges there,
    /// and makes the markers here:
    ///
    /// ```
    /// use wakemiono::{FunctionIndex, NamePayload};
    ///
    /// let bytes = [0x01, 0x04, 0x01, 0x03, 0x01, 0x66, 0x07, 0x01, 0x00];
    /// NamePayload::wider(&bytes).judge()?;
    /// let markers = NamePayload::new(&bytes).markers()?;
    /// assert_eq!(markers.quick(FunctionIndex(3)).unwrap().to_str(), Ok("f"));
    /// # Ok::<(), wakemiono::Refusal>(())
    /// ```
    ///
    /// ```compile_fail,E0599
    /// use wakemiono::NamePayload;
    ///
    /// NamePayload::wider(&[]).markers();
    /// ```
    ///
    /// # Errors
    ///
    /// As [`judge`](Self::judge), and then
    /// [`SubsectionTooLong`](crate::Reason::SubsectionTooLong) for a payload above 4,294,967,295
    /// bytes.
    pub fn markers(&self) -> Result<Markers<'a>, Refusal> {
        // Asking with empty lists how many there are would judge the payload a second time.
        let enough = self.as_bytes().len() / (STEP * SHORTEST_ENTRY) + 1;
        let (mut indices, mut offsets) = (vec![FunctionIndex(0); enough], vec![0; enough]);
        let Marked { count, end } = self.markers_into(&mut indices, &mut offsets)?;
        indices.truncate(count);
        offsets.truncate(count);
        Ok(Markers {
            payload: *self,
            indices: indices.into(),
            offsets: offsets.into(),
            end,
        })
    }

    /// Writes the markers to the front of two lists: the functions whose entries are marked, and the
    /// offset of each entry in the payload. What is behind them is unchanged. One for each 32 bytes
    /// of the payload and one more are always enough.
    ///
    /// ```
    /// use wakemiono::{FunctionIndex, Marked, NamePayload};
    ///
    /// let payload = NamePayload::new(&[0x01, 0x04, 0x01, 0x03, 0x01, 0x66]);
    /// let (mut functions, mut offsets) = ([FunctionIndex(9); 2], [9; 2]);
    /// let marked = payload.markers_into(&mut functions, &mut offsets)?;
    /// assert_eq!(marked, Marked { count: 1, end: 6 });
    /// assert_eq!((functions, offsets), ([3, 9].map(FunctionIndex), [3, 9]));
    /// # Ok::<(), wakemiono::Refusal>(())
    /// ```
    ///
    /// # Errors
    ///
    /// As [`markers`](Self::markers), and then
    /// [`OutputTooShort`](crate::Reason::OutputTooShort) with the number of markers, where one of the
    /// lists is shorter. A refusal leaves both lists as they were.
    pub fn markers_into(
        &self,
        indices: &mut [FunctionIndex],
        offsets: &mut [u32],
    ) -> Result<Marked, Refusal> {
        let room = indices.len().min(offsets.len());
        First::markers(self.as_bytes(), indices, offsets).marked(room, self.as_bytes().len())
    }

    /// A function's name by markers that were stored, as two lists and an end. The payload is not
    /// judged.
    ///
    /// ```
    /// use wakemiono::{FunctionIndex, NamePayload};
    ///
    /// let payload = NamePayload::new(&[0x01, 0x04, 0x01, 0x03, 0x01, 0x66]);
    /// let markers = payload.markers()?;
    /// let stored = (markers.indices().to_vec(), markers.offsets().to_vec(), markers.end());
    ///
    /// let (indices, offsets, end) = stored;
    /// let name = payload.quick_function_name(&indices, &offsets, end, FunctionIndex(3))?;
    /// assert_eq!(name.unwrap().as_bytes(), b"f");
    /// # Ok::<(), wakemiono::Refusal>(())
    /// ```
    ///
    /// With the markers of this payload it answers as [`function_name`](Self::function_name). With
    /// any other lists it starts at the last marker not above the function, and there is none without
    /// such a marker; it reads sixteen entries at most, none past the end; and the first with that
    /// index answers. There is none where an entry that cannot be read whole before the end is met
    /// first. Text is not checked, so that what is found may be no text:
    ///
    /// ```
    /// use wakemiono::{FunctionIndex, NamePayload};
    ///
    /// let no_text = NamePayload::new(&[0x01, 0x04, 0x01, 0x03, 0x01, 0xFF]);
    /// let name = no_text.quick_function_name(&[FunctionIndex(3)], &[3], 6, FunctionIndex(3))?;
    /// assert!(name.unwrap().to_str().is_err());
    /// # Ok::<(), wakemiono::Refusal>(())
    /// ```
    ///
    /// # Errors
    ///
    /// [`SubsectionTooLong`](crate::Reason::SubsectionTooLong) for a payload above 4,294,967,295
    /// bytes; then [`NotMarkers`](crate::Reason::NotMarkers) for lists of unequal length, for an end
    /// outside the payload, and for a position in the lists at which one of them does not rise or an
    /// offset is not below the end.
    pub fn quick_function_name(
        &self,
        indices: &[FunctionIndex],
        offsets: &[u32],
        end: u64,
        function: FunctionIndex,
    ) -> Result<Option<Name<'a>>, Refusal> {
        let lent = self.as_bytes();
        let answer = First::quick_function_name(lent, indices, offsets, end, function.0);
        Ok(answer.part_by_lists(lent)?.map(Name::from))
    }
}
