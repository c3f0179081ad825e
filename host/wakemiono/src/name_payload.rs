//! Name payloads: the questions, and the canonical form.

use std::fmt;
use std::marker::PhantomData;

use crate::answer::is_yes;
use crate::{
    ffi, Edition, FieldIndex, First, FunctionIndex, LocalIndex, Name, Refusal, Subsections,
    TagIndex, TypeIndex,
};

/// The payload of a `name` section, borrowed from the caller, in an [`Edition`] of names: the first
/// one where the type names none.
///
/// Any bytes may be lent, and nothing is checked beforehand: each call judges the whole payload
/// first, and refuses it where it is damaged anywhere. The one call that judges nothing is
/// [`quick_function_name`](NamePayload::quick_function_name), which goes by markers.
///
/// ```
/// use wakemiono::{FunctionIndex, NamePayload};
///
/// let bytes = [0x01, 0x07, 0x02, 0x00, 0x01, 0x61, 0x03, 0x01, 0x62];
/// let payload = NamePayload::new(&bytes);
/// assert_eq!(payload.function_name(FunctionIndex(3))?.unwrap().as_bytes(), b"b");
/// assert_eq!(payload.function_name(FunctionIndex(1))?, None);
/// # Ok::<(), wakemiono::Refusal>(())
/// ```
#[derive(Clone, Copy)]
pub struct NamePayload<'a, E: Edition = First>(&'a [u8], PhantomData<E>);

impl<'a> NamePayload<'a> {
    /// Takes any bytes in the first edition of names, and checks nothing. The wider edition is
    /// opened by [`wider`](NamePayload::wider).
    ///
    /// ```
    /// use wakemiono::NamePayload;
    ///
    /// let empty = NamePayload::new(&[]);
    /// assert_eq!(empty.module_name(), Ok(None));
    /// ```
    #[must_use]
    pub const fn new(payload: &'a [u8]) -> NamePayload<'a> {
        NamePayload::in_edition(payload)
    }
}

impl<'a, E: Edition> NamePayload<'a, E> {
    /// Takes any bytes in the edition that the type names, and checks nothing. It is for code that
    /// is written for both editions.
    ///
    /// ```
    /// use wakemiono::{Edition, NamePayload, Wider};
    ///
    /// fn accepts<E: Edition>(bytes: &[u8]) -> bool {
    ///     NamePayload::<E>::in_edition(bytes).judge().is_ok()
    /// }
    ///
    /// assert!(accepts::<Wider>(&[0x07, 0x01, 0x00]));
    /// ```
    #[must_use]
    pub const fn in_edition(payload: &'a [u8]) -> NamePayload<'a, E> {
        NamePayload(payload, PhantomData)
    }

    /// The bytes that were lent.
    ///
    /// ```
    /// use wakemiono::NamePayload;
    ///
    /// assert_eq!(NamePayload::new(&[0x03, 0x01, 0xFF]).as_bytes(), [0x03, 0x01, 0xFF]);
    /// ```
    #[must_use]
    pub const fn as_bytes(&self) -> &'a [u8] {
        self.0
    }

    /// Whether the payload is accepted.
    ///
    /// ```
    /// use wakemiono::NamePayload;
    ///
    /// assert_eq!(NamePayload::new(&[]).judge(), Ok(()));
    /// let ids_fall = [0x02, 0x01, 0x00, 0x01, 0x01, 0x00];
    /// assert_eq!(NamePayload::new(&ids_fall).judge().unwrap_err().number(), 9);
    /// ```
    ///
    /// # Errors
    ///
    /// The first fault of the payload, read from left to right.
    pub fn judge(&self) -> Result<(), Refusal> {
        E::judge(self.0).length().map(drop)
    }

    /// The module's name.
    ///
    /// ```
    /// use wakemiono::NamePayload;
    ///
    /// let payload = NamePayload::new(&[0x00, 0x02, 0x01, 0x6D]);
    /// assert_eq!(payload.module_name()?.unwrap().to_str(), Ok("m"));
    /// # Ok::<(), wakemiono::Refusal>(())
    /// ```
    ///
    /// # Errors
    ///
    /// As [`judge`](Self::judge).
    pub fn module_name(&self) -> Result<Option<Name<'a>>, Refusal> {
        self.name(E::module_name(self.0))
    }

    /// A function's name.
    ///
    /// ```
    /// use wakemiono::{FunctionIndex, NamePayload};
    ///
    /// let payload = NamePayload::new(&[0x01, 0x04, 0x01, 0x00, 0x01, 0x61]);
    /// assert_eq!(payload.function_name(FunctionIndex(0))?.unwrap().to_str(), Ok("a"));
    /// # Ok::<(), wakemiono::Refusal>(())
    /// ```
    ///
    /// # Errors
    ///
    /// As [`judge`](Self::judge).
    pub fn function_name(&self, function: FunctionIndex) -> Result<Option<Name<'a>>, Refusal> {
        self.name(E::function_name(self.0, function.0))
    }

    /// A type's name.
    ///
    /// ```
    /// use wakemiono::{NamePayload, TypeIndex};
    ///
    /// let payload = NamePayload::new(&[0x04, 0x04, 0x01, 0x02, 0x01, 0x74]);
    /// assert_eq!(payload.type_name(TypeIndex(2))?.unwrap().to_str(), Ok("t"));
    /// # Ok::<(), wakemiono::Refusal>(())
    /// ```
    ///
    /// # Errors
    ///
    /// As [`judge`](Self::judge).
    pub fn type_name(&self, type_: TypeIndex) -> Result<Option<Name<'a>>, Refusal> {
        self.name(E::type_name(self.0, type_.0))
    }

    /// A tag's name.
    ///
    /// ```
    /// use wakemiono::{NamePayload, TagIndex};
    ///
    /// let payload = NamePayload::new(&[0x0B, 0x04, 0x01, 0x00, 0x01, 0x65]);
    /// assert_eq!(payload.tag_name(TagIndex(0))?.unwrap().to_str(), Ok("e"));
    /// # Ok::<(), wakemiono::Refusal>(())
    /// ```
    ///
    /// # Errors
    ///
    /// As [`judge`](Self::judge).
    pub fn tag_name(&self, tag: TagIndex) -> Result<Option<Name<'a>>, Refusal> {
        self.name(E::tag_name(self.0, tag.0))
    }

    /// The name of a local in a function.
    ///
    /// ```
    /// use wakemiono::{FunctionIndex, LocalIndex, NamePayload};
    ///
    /// let payload = NamePayload::new(&[0x02, 0x06, 0x01, 0x03, 0x01, 0x00, 0x01, 0x78]);
    /// let name = payload.local_name(FunctionIndex(3), LocalIndex(0))?;
    /// assert_eq!(name.unwrap().to_str(), Ok("x"));
    /// # Ok::<(), wakemiono::Refusal>(())
    /// ```
    ///
    /// # Errors
    ///
    /// As [`judge`](Self::judge).
    pub fn local_name(
        &self,
        function: FunctionIndex,
        local: LocalIndex,
    ) -> Result<Option<Name<'a>>, Refusal> {
        self.name(E::local_name(self.0, function.0, local.0))
    }

    /// The name of a field in a type.
    ///
    /// ```
    /// use wakemiono::{FieldIndex, NamePayload, TypeIndex};
    ///
    /// let payload = NamePayload::new(&[0x0A, 0x06, 0x01, 0x02, 0x01, 0x01, 0x01, 0x66]);
    /// let name = payload.field_name(TypeIndex(2), FieldIndex(1))?;
    /// assert_eq!(name.unwrap().to_str(), Ok("f"));
    /// # Ok::<(), wakemiono::Refusal>(())
    /// ```
    ///
    /// # Errors
    ///
    /// As [`judge`](Self::judge).
    pub fn field_name(
        &self,
        type_: TypeIndex,
        field: FieldIndex,
    ) -> Result<Option<Name<'a>>, Refusal> {
        self.name(E::field_name(self.0, type_.0, field.0))
    }

    /// The contents of the kept subsection with an id; none for the ids that the edition knows,
    /// which have questions of their own: 0, 1, 2, 4, 10 and 11 in the first, 0 to 11 in the wider.
    ///
    /// ```
    /// use wakemiono::NamePayload;
    ///
    /// let payload = NamePayload::new(&[0x03, 0x01, 0xFF]);
    /// assert_eq!(payload.kept(3)?, Some(&[0xFF][..]));
    /// assert_eq!(payload.kept(5)?, None);
    /// # Ok::<(), wakemiono::Refusal>(())
    /// ```
    ///
    /// # Errors
    ///
    /// As [`judge`](Self::judge).
    pub fn kept(&self, id: u8) -> Result<Option<&'a [u8]>, Refusal> {
        E::kept(self.0, id).part(self.0)
    }

    /// All subsections in the order of the payload, in one pass, those that the edition knows and those that
    /// it keeps. The library judges the payload; the steps from one to the next are this crate's own, by the
    /// sizes that were accepted.
    ///
    /// ```
    /// use wakemiono::NamePayload;
    ///
    /// let payload = NamePayload::new(&[0x01, 0x04, 0x01, 0x00, 0x01, 0x61, 0x03, 0x01, 0xFF]);
    /// let ids: Vec<u8> = payload.subsections()?.map(|(id, _)| id).collect();
    /// assert_eq!(ids, [1, 3]);
    /// # Ok::<(), wakemiono::Refusal>(())
    /// ```
    ///
    /// # Errors
    ///
    /// As [`judge`](Self::judge).
    pub fn subsections(&self) -> Result<Subsections<'a>, Refusal> {
        self.judge()?;
        Ok(Subsections::of(self.0))
    }

    /// Writes the canonical form to the front of an output, and answers its length. The rest of the
    /// output is unchanged. An output as long as the payload is always enough.
    ///
    /// ```
    /// use wakemiono::NamePayload;
    ///
    /// let padded = NamePayload::new(&[0x01, 0x85, 0x00, 0x01, 0x00, 0x81, 0x00, 0x61]);
    /// let mut out = [0xEE; 8];
    /// assert_eq!(padded.canonical_into(&mut out), Ok(6));
    /// assert_eq!(out, [0x01, 0x04, 0x01, 0x00, 0x01, 0x61, 0xEE, 0xEE]);
    /// ```
    ///
    /// # Errors
    ///
    /// As [`judge`](Self::judge), and then [`OutputTooShort`](crate::Reason::OutputTooShort) with
    /// the needed length. A refusal leaves the output as it was.
    pub fn canonical_into(&self, out: &mut [u8]) -> Result<usize, Refusal> {
        E::canonical(self.0, out).written(out.len())
    }

    /// The canonical form. Those of two payloads in one edition are equal exactly when every
    /// question gets the same answer from both. Those of two editions are not to be compared, since
    /// each drops what is empty by its own ids.
    ///
    /// ```
    /// use wakemiono::NamePayload;
    ///
    /// let padded = NamePayload::new(&[0x01, 0x85, 0x00, 0x01, 0x00, 0x81, 0x00, 0x61]);
    /// let shortest = NamePayload::new(&[0x01, 0x04, 0x01, 0x00, 0x01, 0x61]);
    /// assert_eq!(padded.to_canonical()?, shortest.to_canonical()?);
    /// # Ok::<(), wakemiono::Refusal>(())
    /// ```
    ///
    /// # Errors
    ///
    /// As [`judge`](Self::judge).
    pub fn to_canonical(&self) -> Result<Vec<u8>, Refusal> {
        crate::to_vec(self.0.len(), |out| self.canonical_into(out))
    }

    /// Whether the payload is accepted and equals its canonical form. It takes one pass, and no
    /// output. A payload that is refused is not canonical; [`judge`](Self::judge) says why.
    ///
    /// ```
    /// use wakemiono::NamePayload;
    ///
    /// assert!(NamePayload::new(&[0x01, 0x04, 0x01, 0x00, 0x01, 0x61]).is_canonical());
    /// let padded = NamePayload::new(&[0x01, 0x85, 0x00, 0x01, 0x00, 0x81, 0x00, 0x61]);
    /// assert!(!padded.is_canonical());
    /// let left_over = NamePayload::new(&[0x01, 0x02, 0x00, 0x00]);
    /// assert!(!left_over.is_canonical());
    /// ```
    #[must_use]
    pub fn is_canonical(&self) -> bool {
        is_yes(E::is_canonical(self.0))
    }

    pub(crate) fn name(&self, answer: ffi::Answer) -> Result<Option<Name<'a>>, Refusal> {
        Ok(answer.part(self.0)?.map(Name::from))
    }
}

impl<E: Edition> fmt::Debug for NamePayload<'_, E> {
    fn fmt(&self, f: &mut fmt::Formatter<'_>) -> fmt::Result {
        write!(f, "NamePayload({} bytes)", self.0.len())
    }
}
