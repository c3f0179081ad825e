//! Whole modules: the walk over their sections, and the questions put through them.

use std::fmt;
use std::marker::PhantomData;

use crate::{
    ffi, CodeOffset, Edition, FieldIndex, First, FunctionIndex, Hint, Hints, InstructionOffset,
    LocalIndex, Metadata, Name, NamePayload, OldHints, Refusal, Section, Sections, TagIndex,
    TypeIndex,
};

/// A whole module, borrowed from the caller, whose names are asked in an [`Edition`]: the first one
/// where the type names none.
///
/// Any bytes may be lent, and nothing is checked beforehand: each call walks over all sections
/// first, and refuses a module that is damaged anywhere, whatever is asked. A payload is judged
/// only where it is asked. Each call reads the whole module; a caller with many questions takes
/// the payload out once, with [`names`](Self::names), [`hints`](Self::hints) or
/// [`old_hints`](Self::old_hints), and asks that.
///
/// ```
/// use wakemiono::{FunctionIndex, Module};
///
/// let bytes = b"\0asm\x01\0\0\0\x00\x0B\x04name\x01\x04\x01\x00\x01a";
/// let module = Module::new(bytes);
/// assert_eq!(module.section_count()?, 1);
/// assert_eq!(module.function_name(FunctionIndex(0))?.unwrap().to_str(), Ok("a"));
/// # Ok::<(), wakemiono::Refusal>(())
/// ```
#[derive(Clone, Copy)]
pub struct Module<'a, E: Edition = First>(&'a [u8], PhantomData<E>);

impl<'a> Module<'a> {
    /// Takes any bytes, for names in the first edition, and checks nothing. The wider edition is
    /// opened by [`wider`](Module::wider).
    ///
    /// ```
    /// use wakemiono::Module;
    ///
    /// assert!(Module::new(b"no module").section_count().is_err());
    /// ```
    #[must_use]
    pub const fn new(module: &'a [u8]) -> Module<'a> {
        Module::in_edition(module)
    }
}

impl<'a, E: Edition> Module<'a, E> {
    /// Takes any bytes, for names in the edition that the type names, and checks nothing. It is for
    /// code that is written for both editions.
    ///
    /// ```
    /// use wakemiono::{Edition, Module, Wider};
    ///
    /// fn accepts_names<E: Edition>(bytes: &[u8]) -> bool {
    ///     Module::<E>::in_edition(bytes).module_name().is_ok()
    /// }
    ///
    /// assert!(accepts_names::<Wider>(b"\0asm\x01\0\0\0\x00\x08\x04name\x07\x01\x00"));
    /// ```
    #[must_use]
    pub const fn in_edition(module: &'a [u8]) -> Module<'a, E> {
        Module(module, PhantomData)
    }

    /// The bytes that were lent.
    ///
    /// ```
    /// use wakemiono::Module;
    ///
    /// assert_eq!(Module::new(b"\0asm\x01\0\0\0").as_bytes().len(), 8);
    /// ```
    #[must_use]
    pub const fn as_bytes(&self) -> &'a [u8] {
        self.0
    }

    /// How many sections there are.
    ///
    /// ```
    /// use wakemiono::Module;
    ///
    /// assert_eq!(Module::new(b"\0asm\x01\0\0\0").section_count(), Ok(0));
    /// ```
    ///
    /// # Errors
    ///
    /// The first fault of the walk over all sections.
    pub fn section_count(&self) -> Result<u64, Refusal> {
        ffi::walk(self.0).length()
    }

    /// The section at a position, counted from 0; none past the last. Each call walks over the
    /// whole module: for all sections there is [`sections`](Self::sections).
    ///
    /// ```
    /// use wakemiono::Module;
    ///
    /// let module = Module::new(b"\0asm\x01\0\0\0\x01\x01\x00");
    /// assert_eq!(module.section(0)?.unwrap().id(), 1);
    /// assert_eq!(module.section(1)?, None);
    /// # Ok::<(), wakemiono::Refusal>(())
    /// ```
    ///
    /// # Errors
    ///
    /// As [`section_count`](Self::section_count).
    pub fn section(&self, position: u64) -> Result<Option<Section<'a>>, Refusal> {
        ffi::section(self.0, position).section(self.0)
    }

    /// All sections in the order of the file, in one pass. The library's walk accepts and counts
    /// them; the steps from one to the next are this crate's own, by the sizes that were accepted.
    ///
    /// ```
    /// use wakemiono::Module;
    ///
    /// let module = Module::new(b"\0asm\x01\0\0\0\x01\x01\x00\x03\x01\x00");
    /// let ids: Vec<u8> = module.sections()?.map(|section| section.id()).collect();
    /// assert_eq!(ids, [1, 3]);
    /// # Ok::<(), wakemiono::Refusal>(())
    /// ```
    ///
    /// # Errors
    ///
    /// As [`section_count`](Self::section_count).
    pub fn sections(&self) -> Result<Sections<'a>, Refusal> {
        Ok(Sections::of(self.0, self.section_count()?))
    }

    /// The payload of the first custom section of a name, compared byte by byte.
    ///
    /// ```
    /// use wakemiono::Module;
    ///
    /// let module = Module::new(b"\0asm\x01\0\0\0\x00\x04\x01xyz");
    /// assert_eq!(module.custom("x")?, Some(&b"yz"[..]));
    /// assert_eq!(module.custom("y")?, None);
    /// # Ok::<(), wakemiono::Refusal>(())
    /// ```
    ///
    /// # Errors
    ///
    /// As [`section_count`](Self::section_count).
    pub fn custom(&self, name: impl AsRef<[u8]>) -> Result<Option<&'a [u8]>, Refusal> {
        ffi::custom(self.0, name.as_ref()).part(self.0)
    }

    /// The payload of the `name` section in the same edition, not judged yet. Its offsets count
    /// from its own start.
    ///
    /// ```
    /// use wakemiono::{FunctionIndex, Module};
    ///
    /// let module = Module::new(b"\0asm\x01\0\0\0\x00\x0B\x04name\x01\x04\x01\x00\x01a");
    /// let names = module.names()?.unwrap();
    /// assert_eq!(names.function_name(FunctionIndex(0))?.unwrap().to_str(), Ok("a"));
    /// # Ok::<(), wakemiono::Refusal>(())
    /// ```
    ///
    /// # Errors
    ///
    /// As [`section_count`](Self::section_count).
    pub fn names(&self) -> Result<Option<NamePayload<'a, E>>, Refusal> {
        Ok(self.custom("name")?.map(NamePayload::in_edition))
    }

    /// The payload of the first section `metadata.code.T`, where the format is T, not judged yet. Its
    /// offsets count from its own start.
    ///
    /// ```
    /// use wakemiono::{CodeOffset, FunctionIndex, Module};
    ///
    /// let module =
    ///     Module::new(b"\0asm\x01\0\0\0\x00\x17\x0Fmetadata.code.x\x01\x02\x01\x05\x02ab");
    /// let metadata = module.code_metadata("x")?.unwrap();
    /// assert_eq!(metadata.data(FunctionIndex(2), CodeOffset(5))?, Some(&b"ab"[..]));
    /// assert!(module.code_metadata("y")?.is_none());
    /// # Ok::<(), wakemiono::Refusal>(())
    /// ```
    ///
    /// # Errors
    ///
    /// As [`section_count`](Self::section_count).
    pub fn code_metadata(&self, format: impl AsRef<[u8]>) -> Result<Option<Metadata<'a>>, Refusal> {
        let section = [b"metadata.code.", format.as_ref()].concat();
        Ok(self.custom(section)?.map(Metadata::new))
    }

    /// The payload of the section `metadata.code.branch_hint`, not judged yet. Its offsets count
    /// from its own start.
    ///
    /// ```
    /// use wakemiono::Module;
    ///
    /// let module = Module::new(b"\0asm\x01\0\0\0\x00\x1B\x19metadata.code.branch_hint\x00");
    /// assert_eq!(module.hints()?.unwrap().judge(), Ok(()));
    /// # Ok::<(), wakemiono::Refusal>(())
    /// ```
    ///
    /// # Errors
    ///
    /// As [`section_count`](Self::section_count).
    pub fn hints(&self) -> Result<Option<Hints<'a>>, Refusal> {
        Ok(self.custom("metadata.code.branch_hint")?.map(Hints::new))
    }

    /// The payload of the section `branchHints`, the older edition of hints, not judged yet. Its
    /// offsets count from its own start.
    ///
    /// ```
    /// use wakemiono::Module;
    ///
    /// let module = Module::new(b"\0asm\x01\0\0\0\x00\x0D\x0BbranchHints\x00");
    /// assert_eq!(module.old_hints()?.unwrap().judge(), Ok(()));
    /// assert!(module.hints()?.is_none()); // the editions are kept apart
    /// # Ok::<(), wakemiono::Refusal>(())
    /// ```
    ///
    /// # Errors
    ///
    /// As [`section_count`](Self::section_count).
    pub fn old_hints(&self) -> Result<Option<OldHints<'a>>, Refusal> {
        Ok(self.custom("branchHints")?.map(OldHints::new))
    }

    /// The module's name; none also without a `name` section.
    ///
    /// ```
    /// use wakemiono::Module;
    ///
    /// let module = Module::new(b"\0asm\x01\0\0\0\x00\x09\x04name\x00\x02\x01m");
    /// assert_eq!(module.module_name()?.unwrap().to_str(), Ok("m"));
    /// # Ok::<(), wakemiono::Refusal>(())
    /// ```
    ///
    /// # Errors
    ///
    /// As [`section_count`](Self::section_count), and then the first fault of the name payload; all
    /// offsets count from the module's start.
    pub fn module_name(&self) -> Result<Option<Name<'a>>, Refusal> {
        self.name(E::module_name_in(self.0))
    }

    /// A function's name; none also without a `name` section.
    ///
    /// ```
    /// use wakemiono::{FunctionIndex, Module};
    ///
    /// let module = Module::new(b"\0asm\x01\0\0\0\x00\x0B\x04name\x01\x04\x01\x00\x01a");
    /// assert_eq!(module.function_name(FunctionIndex(0))?.unwrap().to_str(), Ok("a"));
    /// assert_eq!(module.function_name(FunctionIndex(1))?, None);
    /// # Ok::<(), wakemiono::Refusal>(())
    /// ```
    ///
    /// # Errors
    ///
    /// As [`module_name`](Self::module_name).
    pub fn function_name(&self, function: FunctionIndex) -> Result<Option<Name<'a>>, Refusal> {
        self.name(E::function_name_in(self.0, function.0))
    }

    /// A type's name; none also without a `name` section.
    ///
    /// ```
    /// use wakemiono::{Module, TypeIndex};
    ///
    /// let module = Module::new(b"\0asm\x01\0\0\0\x00\x0B\x04name\x04\x04\x01\x02\x01t");
    /// assert_eq!(module.type_name(TypeIndex(2))?.unwrap().to_str(), Ok("t"));
    /// # Ok::<(), wakemiono::Refusal>(())
    /// ```
    ///
    /// # Errors
    ///
    /// As [`module_name`](Self::module_name).
    pub fn type_name(&self, type_: TypeIndex) -> Result<Option<Name<'a>>, Refusal> {
        self.name(E::type_name_in(self.0, type_.0))
    }

    /// A tag's name; none also without a `name` section.
    ///
    /// ```
    /// use wakemiono::{Module, TagIndex};
    ///
    /// let module = Module::new(b"\0asm\x01\0\0\0\x00\x0B\x04name\x0B\x04\x01\x00\x01e");
    /// assert_eq!(module.tag_name(TagIndex(0))?.unwrap().to_str(), Ok("e"));
    /// # Ok::<(), wakemiono::Refusal>(())
    /// ```
    ///
    /// # Errors
    ///
    /// As [`module_name`](Self::module_name).
    pub fn tag_name(&self, tag: TagIndex) -> Result<Option<Name<'a>>, Refusal> {
        self.name(E::tag_name_in(self.0, tag.0))
    }

    /// The name of a local in a function; none also without a `name` section.
    ///
    /// ```
    /// use wakemiono::{FunctionIndex, LocalIndex, Module};
    ///
    /// let module = Module::new(b"\0asm\x01\0\0\0\x00\x0D\x04name\x02\x06\x01\x03\x01\x00\x01x");
    /// let name = module.local_name(FunctionIndex(3), LocalIndex(0))?;
    /// assert_eq!(name.unwrap().to_str(), Ok("x"));
    /// # Ok::<(), wakemiono::Refusal>(())
    /// ```
    ///
    /// # Errors
    ///
    /// As [`module_name`](Self::module_name).
    pub fn local_name(
        &self,
        function: FunctionIndex,
        local: LocalIndex,
    ) -> Result<Option<Name<'a>>, Refusal> {
        self.name(E::local_name_in(self.0, function.0, local.0))
    }

    /// The name of a field in a type; none also without a `name` section.
    ///
    /// ```
    /// use wakemiono::{FieldIndex, Module, TypeIndex};
    ///
    /// let module = Module::new(b"\0asm\x01\0\0\0\x00\x0D\x04name\x0A\x06\x01\x02\x01\x01\x01f");
    /// let name = module.field_name(TypeIndex(2), FieldIndex(1))?;
    /// assert_eq!(name.unwrap().to_str(), Ok("f"));
    /// # Ok::<(), wakemiono::Refusal>(())
    /// ```
    ///
    /// # Errors
    ///
    /// As [`module_name`](Self::module_name).
    pub fn field_name(
        &self,
        type_: TypeIndex,
        field: FieldIndex,
    ) -> Result<Option<Name<'a>>, Refusal> {
        self.name(E::field_name_in(self.0, type_.0, field.0))
    }

    /// The contents of the kept subsection of the `name` section with an id; none for the ids that
    /// the edition knows, as [`NamePayload::kept`] lists them, and none without a `name` section.
    ///
    /// ```
    /// use wakemiono::Module;
    ///
    /// let module = Module::new(b"\0asm\x01\0\0\0\x00\x08\x04name\x03\x01\xFF");
    /// assert_eq!(module.kept(3)?, Some(&[0xFF][..]));
    /// # Ok::<(), wakemiono::Refusal>(())
    /// ```
    ///
    /// # Errors
    ///
    /// As [`module_name`](Self::module_name).
    pub fn kept(&self, id: u8) -> Result<Option<&'a [u8]>, Refusal> {
        E::kept_in(self.0, id).part(self.0)
    }

    /// The data that the first section `metadata.code.T`, where the format is T, gives to a place
    /// in a function's code; none also without such a section. Where the format is `branch_hint`,
    /// the payload is judged by the rules of branch hints.
    ///
    /// ```
    /// use wakemiono::{CodeOffset, FunctionIndex, Module};
    ///
    /// let module =
    ///     Module::new(b"\0asm\x01\0\0\0\x00\x17\x0Fmetadata.code.x\x01\x02\x01\x05\x02ab");
    /// let data = module.metadata("x", FunctionIndex(2), CodeOffset(5))?;
    /// assert_eq!(data, Some(&b"ab"[..]));
    /// # Ok::<(), wakemiono::Refusal>(())
    /// ```
    ///
    /// # Errors
    ///
    /// As [`section_count`](Self::section_count), and then the first fault of that payload; all
    /// offsets count from the module's start.
    pub fn metadata(
        &self,
        format: impl AsRef<[u8]>,
        function: FunctionIndex,
        at: CodeOffset,
    ) -> Result<Option<&'a [u8]>, Refusal> {
        ffi::metadata_in(self.0, format.as_ref(), function.0, at.0).part(self.0)
    }

    /// The hint for the branch at a place in a function's code; none also without the section.
    ///
    /// ```
    /// use wakemiono::{CodeOffset, FunctionIndex, Hint, Module};
    ///
    /// let module = Module::new(
    ///     b"\0asm\x01\0\0\0\x00\x20\x19metadata.code.branch_hint\x01\x02\x01\x05\x01\x01",
    /// );
    /// assert_eq!(module.hint(FunctionIndex(2), CodeOffset(5))?, Some(Hint::Likely));
    /// # Ok::<(), wakemiono::Refusal>(())
    /// ```
    ///
    /// # Errors
    ///
    /// As [`metadata`](Self::metadata).
    pub fn hint(&self, function: FunctionIndex, at: CodeOffset) -> Result<Option<Hint>, Refusal> {
        ffi::hint_in(self.0, function.0, at.0).hint()
    }

    /// The hint of the older edition for the branch at a place in a function's code, which counts
    /// from its first instruction: the first in the section `branchHints` for it; none also without
    /// the section.
    ///
    /// ```
    /// use wakemiono::{FunctionIndex, Hint, InstructionOffset, Module};
    ///
    /// let module =
    ///     Module::new(b"\0asm\x01\0\0\0\x00\x12\x0BbranchHints\x01\x02\x00\x01\x01\x05");
    /// let hint = module.old_hint(FunctionIndex(2), InstructionOffset(5))?;
    /// assert_eq!(hint, Some(Hint::Likely));
    /// # Ok::<(), wakemiono::Refusal>(())
    /// ```
    ///
    /// # Errors
    ///
    /// As [`metadata`](Self::metadata).
    pub fn old_hint(
        &self,
        function: FunctionIndex,
        at: InstructionOffset,
    ) -> Result<Option<Hint>, Refusal> {
        ffi::old_hint_in(self.0, function.0, at.0).hint()
    }

    /// Whether every hint of the section `metadata.code.branch_hint` stands on a `br_if` or an `if` of its
    /// function's body; so, too, without the section. Code is read by core specification 1.0.
    ///
    /// ```
    /// use wakemiono::{Module, Reason};
    ///
    /// let mut bytes = b"\0asm\x01\0\0\0\x01\x04\x01\x60\0\0\x03\x02\x01\0".to_vec();
    /// bytes.extend(b"\0\x20\x19metadata.code.branch_hint\x01\0\x01\x03\x01\x01");
    /// bytes.extend(b"\x0A\x09\x01\x07\0\x41\x01\x04\x40\x0B\x0B"); // an if at 3, counted from the locals
    /// assert_eq!(Module::new(&bytes).hints_on_branches(), Ok(()));
    /// bytes[49] = 1; // i32.const
    /// let refusal = Module::new(&bytes).hints_on_branches().unwrap_err();
    /// assert_eq!((refusal.reason(), refusal.offset()), (Reason::NotOnABranch, 49));
    /// ```
    ///
    /// # Errors
    ///
    /// The walk's; the hint payload's; those of the import list and of the list of bodies; then, hint by
    /// hint, [`NoBody`](crate::Reason::NoBody), [`UnreadableCode`](crate::Reason::UnreadableCode) or
    /// [`NotOnABranch`](crate::Reason::NotOnABranch).
    pub fn hints_on_branches(&self) -> Result<(), Refusal> {
        ffi::hints_on_branches(self.0).length().map(drop)
    }

    pub(crate) fn name(&self, answer: ffi::Answer) -> Result<Option<Name<'a>>, Refusal> {
        Ok(answer.part(self.0)?.map(Name::from))
    }
}

impl<E: Edition> fmt::Debug for Module<'_, E> {
    fn fmt(&self, f: &mut fmt::Formatter<'_>) -> fmt::Result {
        write!(f, "Module({} bytes)", self.0.len())
    }
}
