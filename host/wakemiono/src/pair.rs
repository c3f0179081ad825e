//! A name payload that came apart from its module, beside the module's own.

use std::fmt;

use crate::ffi::pairs::PairAnswer;
use crate::{
    DataIndex, Edition, ElementIndex, FieldIndex, First, FunctionIndex, GlobalIndex, LabelIndex,
    LocalIndex, MemoryIndex, Module, NamePayload, PairRefusal, Refusal, SuppliedBytes,
    SuppliedName, TableIndex, TagIndex, TypeIndex, Whose, Wider,
};

/// Two name payloads that are asked as one: a separate one, which came apart from the module, and the
/// module's own. The separate one answers unless it gives none, else the module's own; and what is
/// found says which of the two has [`Supplied`](crate::Supplied) it.
///
/// ```
/// use wakemiono::{FunctionIndex, Module, NamePayload, Whose};
///
/// let names = [0x01, 0x07, 0x02, 0x00, 0x01, 0x61, 0x03, 0x01, 0x62];
/// let stripped = Module::new(b"\0asm\x01\0\0\0");
/// let pair = stripped.names_beside(NamePayload::new(&names))?;
/// let name = pair.function_name(FunctionIndex(3))?.unwrap();
/// assert_eq!((name.whose(), name.into_inner().to_str()), (Whose::Separate, Ok("b")));
/// assert_eq!(pair.function_name(FunctionIndex(1))?, None);
/// # Ok::<(), Box<dyn std::error::Error>>(())
/// ```
///
/// An empty name and an empty kept subsection are answers, and hide what the module has. Any bytes may
/// be lent: each call judges both payloads whole, the separate one first, and refuses them where one
/// is damaged anywhere, even if the other has the name.
///
/// A name lives as long as the payload that has supplied it, and may outlive the other:
///
/// ```
/// use wakemiono::{NamePayload, Pair, Supplied};
///
/// let separate = [0x00, 0x02, 0x01, 0x6D];
/// let name = {
///     let own = vec![0x00, 0x02, 0x01, 0x61];
///     let pair = Pair::new(NamePayload::new(&separate), NamePayload::new(&own));
///     match pair.module_name()? {
///         Some(Supplied::Separate(name)) => Some(name),
///         _ => None,
///     }
/// };
/// assert_eq!(name.unwrap().as_bytes(), b"m");
/// # Ok::<(), wakemiono::PairRefusal>(())
/// ```
///
/// but not that one:
///
/// ```compile_fail,E0597
/// use wakemiono::{NamePayload, Pair, Supplied};
///
/// let separate = [0x00, 0x02, 0x01, 0x6D];
/// let name = {
///     let own = vec![0x00, 0x02, 0x01, 0x61];
///     let pair = Pair::new(NamePayload::new(&separate), NamePayload::new(&own));
///     match pair.module_name()? {
///         Some(Supplied::Own(name)) => Some(name),
///         _ => None,
///     }
/// };
/// name.unwrap();
/// # Ok::<(), wakemiono::PairRefusal>(())
/// ```
#[derive(Clone, Copy)]
pub struct Pair<'s, 'o, E: Edition = First> {
    separate: NamePayload<'s, E>,
    own: NamePayload<'o, E>,
}

/// The questions of an edition for names, each with the call that it puts.
macro_rules! questions {
    ($edition:ident: $(
        $(#[$doc:meta])*
        fn $question:ident($($index:ident: $type:ty),*) = $call:ident;
    )*) => {$(
        $(#[$doc])*
        ///
        /// # Errors
        ///
        /// As [`judge`](Self::judge).
        pub fn $question(
            &self,
            $($index: $type),*
        ) -> Result<Option<SuppliedName<'s, 'o>>, PairRefusal> {
            let (separate, own) = (self.separate.as_bytes(), self.own.as_bytes());
            self.name($edition::$call(separate, own, $($index.0),*))
        }
    )*};
}

impl<'s, 'o, E: Edition> Pair<'s, 'o, E> {
    /// Takes two payloads, the separate one first, in the edition that both are opened in, and checks
    /// nothing. [`Module::names_beside`] takes the second from a module.
    ///
    /// ```
    /// use wakemiono::{GlobalIndex, NamePayload, Pair};
    ///
    /// let separate = NamePayload::wider(&[0x07, 0x04, 0x01, 0x03, 0x01, 0x67]);
    /// let pair = Pair::new(separate, NamePayload::wider(&[]));
    /// assert!(pair.global_name(GlobalIndex(3))?.is_some());
    /// # Ok::<(), wakemiono::PairRefusal>(())
    /// ```
    ///
    /// No two editions go together:
    ///
    /// ```compile_fail,E0308
    /// use wakemiono::{NamePayload, Pair};
    ///
    /// Pair::new(NamePayload::wider(&[]), NamePayload::new(&[]));
    /// ```
    #[must_use]
    pub const fn new(separate: NamePayload<'s, E>, own: NamePayload<'o, E>) -> Pair<'s, 'o, E> {
        Pair { separate, own }
    }

    /// The payload that came apart from the module.
    ///
    /// ```
    /// use wakemiono::{NamePayload, Pair};
    ///
    /// let pair = Pair::new(NamePayload::new(&[0x03, 0x00]), NamePayload::new(&[]));
    /// assert_eq!(pair.separate().as_bytes(), [0x03, 0x00]);
    /// ```
    #[must_use]
    pub const fn separate(&self) -> NamePayload<'s, E> {
        self.separate
    }

    /// The payload of the module itself.
    ///
    /// ```
    /// use wakemiono::{NamePayload, Pair};
    ///
    /// let pair = Pair::new(NamePayload::new(&[]), NamePayload::new(&[0x03, 0x00]));
    /// assert_eq!(pair.own().as_bytes(), [0x03, 0x00]);
    /// ```
    #[must_use]
    pub const fn own(&self) -> NamePayload<'o, E> {
        self.own
    }

    /// Whether both payloads are accepted.
    ///
    /// ```
    /// use wakemiono::{NamePayload, Pair, Whose};
    ///
    /// let (accepted, cut_short) = (NamePayload::new(&[]), NamePayload::new(&[0x01, 0x00]));
    /// assert_eq!(Pair::new(accepted, accepted).judge(), Ok(()));
    /// let whose = |pair: Pair| pair.judge().unwrap_err().whose();
    /// assert_eq!(whose(Pair::new(accepted, cut_short)), Some(Whose::Own));
    /// assert_eq!(whose(Pair::new(cut_short, cut_short)), Some(Whose::Separate));
    /// ```
    ///
    /// # Errors
    ///
    /// The first fault of the separate payload, else that of the module's own.
    pub fn judge(&self) -> Result<(), PairRefusal> {
        let of = |whose| move |refusal| PairRefusal::of(whose, refusal);
        self.separate.judge().map_err(of(Whose::Separate))?;
        self.own.judge().map_err(of(Whose::Own))
    }

    questions! {
        E:
        /// The module's name.
        ///
        /// ```
        /// use wakemiono::{NamePayload, Pair, Whose};
        ///
        /// let empty_name = NamePayload::new(&[0x00, 0x01, 0x00]);
        /// let own = NamePayload::new(&[0x00, 0x02, 0x01, 0x6D]);
        /// let name = Pair::new(empty_name, own).module_name()?.unwrap();
        /// assert_eq!((name.whose(), name.into_inner().to_str()), (Whose::Separate, Ok("")));
        /// # Ok::<(), wakemiono::PairRefusal>(())
        /// ```
        fn module_name() = pair_module_name;

        /// A function's name.
        ///
        /// ```
        /// use wakemiono::{FunctionIndex, NamePayload, Pair, Whose};
        ///
        /// let separate = NamePayload::new(&[0x01, 0x04, 0x01, 0x00, 0x01, 0x61]);
        /// let own = NamePayload::new(&[0x01, 0x07, 0x02, 0x00, 0x01, 0x62, 0x03, 0x01, 0x63]);
        /// let pair = Pair::new(separate, own);
        /// let asked = |function| pair.function_name(FunctionIndex(function));
        /// let (zero, three) = (asked(0)?.unwrap(), asked(3)?.unwrap());
        /// assert_eq!((zero.whose(), zero.into_inner().to_str()), (Whose::Separate, Ok("a")));
        /// assert_eq!((three.whose(), three.into_inner().to_str()), (Whose::Own, Ok("c")));
        /// # Ok::<(), wakemiono::PairRefusal>(())
        /// ```
        fn function_name(function: FunctionIndex) = pair_function_name;

        /// The name of a local in a function. The locals of one function may have names in both
        /// payloads, of which each is found.
        ///
        /// ```
        /// use wakemiono::{FunctionIndex, LocalIndex, NamePayload, Pair, Whose};
        ///
        /// let separate = NamePayload::new(&[0x02, 0x06, 0x01, 0x03, 0x01, 0x00, 0x01, 0x78]);
        /// let own = NamePayload::new(&[0x02, 0x06, 0x01, 0x03, 0x01, 0x01, 0x01, 0x79]);
        /// let pair = Pair::new(separate, own);
        /// let whose = |local| pair.local_name(FunctionIndex(3), LocalIndex(local));
        /// assert_eq!(whose(0)?.unwrap().whose(), Whose::Separate);
        /// assert_eq!(whose(1)?.unwrap().whose(), Whose::Own);
        /// # Ok::<(), wakemiono::PairRefusal>(())
        /// ```
        fn local_name(function: FunctionIndex, local: LocalIndex) = pair_local_name;

        /// A type's name.
        ///
        /// ```
        /// use wakemiono::{NamePayload, Pair, TypeIndex};
        ///
        /// let own = NamePayload::new(&[0x04, 0x04, 0x01, 0x02, 0x01, 0x74]);
        /// let name = Pair::new(NamePayload::new(&[]), own).type_name(TypeIndex(2))?.unwrap();
        /// assert_eq!(name.into_inner().to_str(), Ok("t"));
        /// # Ok::<(), wakemiono::PairRefusal>(())
        /// ```
        fn type_name(type_: TypeIndex) = pair_type_name;

        /// The name of a field in a type.
        ///
        /// ```
        /// use wakemiono::{FieldIndex, NamePayload, Pair, TypeIndex};
        ///
        /// let own = NamePayload::new(&[0x0A, 0x06, 0x01, 0x02, 0x01, 0x01, 0x01, 0x66]);
        /// let pair = Pair::new(NamePayload::new(&[]), own);
        /// let name = pair.field_name(TypeIndex(2), FieldIndex(1))?.unwrap();
        /// assert_eq!(name.into_inner().to_str(), Ok("f"));
        /// # Ok::<(), wakemiono::PairRefusal>(())
        /// ```
        fn field_name(type_: TypeIndex, field: FieldIndex) = pair_field_name;

        /// A tag's name.
        ///
        /// ```
        /// use wakemiono::{NamePayload, Pair, TagIndex};
        ///
        /// let own = NamePayload::new(&[0x0B, 0x04, 0x01, 0x00, 0x01, 0x65]);
        /// let name = Pair::new(NamePayload::new(&[]), own).tag_name(TagIndex(0))?.unwrap();
        /// assert_eq!(name.into_inner().to_str(), Ok("e"));
        /// # Ok::<(), wakemiono::PairRefusal>(())
        /// ```
        fn tag_name(tag: TagIndex) = pair_tag_name;
    }

    /// The contents of the kept subsection with an id; none for the ids that the edition knows, as
    /// for [`NamePayload::kept`]. One that is empty hides the other's.
    ///
    /// ```
    /// use wakemiono::{NamePayload, Pair, Supplied};
    ///
    /// let separate = NamePayload::new(&[0x03, 0x00]);
    /// let own = NamePayload::new(&[0x03, 0x01, 0xFF, 0x05, 0x01, 0xFE]);
    /// let pair = Pair::new(separate, own);
    /// assert_eq!(pair.kept(3)?, Some(Supplied::Separate(&[][..])));
    /// assert_eq!(pair.kept(5)?, Some(Supplied::Own(&[0xFE][..])));
    /// # Ok::<(), wakemiono::PairRefusal>(())
    /// ```
    ///
    /// # Errors
    ///
    /// As [`judge`](Self::judge).
    pub fn kept(&self, id: u8) -> Result<Option<SuppliedBytes<'s, 'o>>, PairRefusal> {
        let (separate, own) = (self.separate.as_bytes(), self.own.as_bytes());
        E::pair_kept(separate, own, id).part(separate, own)
    }

    /// Writes both payloads joined into one to the front of an output, and answers its length: see
    /// [`to_joined`](Self::to_joined). The rest of the output is unchanged. An output as long as both
    /// payloads together is always enough.
    ///
    /// ```
    /// use wakemiono::{NamePayload, Pair};
    ///
    /// let separate = NamePayload::new(&[0x01, 0x04, 0x01, 0x00, 0x01, 0x61]);
    /// let own = NamePayload::new(&[0x01, 0x07, 0x02, 0x00, 0x01, 0x62, 0x03, 0x01, 0x63]);
    /// let mut out = [0xEE; 11];
    /// assert_eq!(Pair::new(separate, own).join_into(&mut out), Ok(9));
    /// let joined = [0x01, 0x07, 0x02, 0x00, 0x01, 0x61, 0x03, 0x01, 0x63];
    /// assert_eq!((&out[..9], &out[9..]), (&joined[..], &[0xEE, 0xEE][..]));
    /// ```
    ///
    /// # Errors
    ///
    /// As [`to_joined`](Self::to_joined), and then [`OutputTooShort`](crate::Reason::OutputTooShort)
    /// with the needed length. A refusal leaves the output as it was.
    pub fn join_into(&self, out: &mut [u8]) -> Result<usize, PairRefusal> {
        let (separate, own) = (self.separate.as_bytes(), self.own.as_bytes());
        E::join(separate, own, out).written(out.len())
    }

    /// Both payloads joined into one that is canonical and answers every question, kept subsections
    /// too, as the pair does: maps are merged index by index, and so are the groups of one function or
    /// type. Where both have an entry, it is the separate payload's.
    ///
    /// ```
    /// use wakemiono::{FunctionIndex, NamePayload, Pair};
    ///
    /// let separate = NamePayload::new(&[0x01, 0x04, 0x01, 0x00, 0x01, 0x61]);
    /// let own = NamePayload::new(&[0x00, 0x02, 0x01, 0x6D]);
    /// let joined = Pair::new(separate, own).to_joined()?;
    /// let joined = NamePayload::new(&joined);
    /// assert!(joined.is_canonical());
    /// assert_eq!(joined.module_name()?.unwrap().to_str(), Ok("m"));
    /// assert_eq!(joined.function_name(FunctionIndex(0))?.unwrap().to_str(), Ok("a"));
    /// # Ok::<(), Box<dyn std::error::Error>>(())
    /// ```
    ///
    /// # Errors
    ///
    /// As [`judge`](Self::judge), and then
    /// [`SubsectionTooLong`](crate::Reason::SubsectionTooLong) where the contents of a joined
    /// subsection would exceed 4,294,967,295 bytes.
    pub fn to_joined(&self) -> Result<Vec<u8>, PairRefusal> {
        let enough = self.separate.as_bytes().len() + self.own.as_bytes().len();
        crate::to_vec(enough, |out| self.join_into(out))
    }

    fn name(&self, answer: PairAnswer) -> Result<Option<SuppliedName<'s, 'o>>, PairRefusal> {
        let part = answer.part(self.separate.as_bytes(), self.own.as_bytes())?;
        Ok(part.map(SuppliedName::from))
    }
}

/// The questions that only the wider edition has.
impl<'s, 'o> Pair<'s, 'o, Wider> {
    questions! {
        Wider:
        /// The name of a label in a function.
        ///
        /// ```
        /// use wakemiono::{FunctionIndex, LabelIndex, NamePayload, Pair};
        ///
        /// let own = NamePayload::wider(&[0x03, 0x06, 0x01, 0x03, 0x01, 0x02, 0x01, 0x6C]);
        /// let pair = Pair::new(NamePayload::wider(&[]), own);
        /// let name = pair.label_name(FunctionIndex(3), LabelIndex(2))?.unwrap();
        /// assert_eq!(name.into_inner().to_str(), Ok("l"));
        /// # Ok::<(), wakemiono::PairRefusal>(())
        /// ```
        fn label_name(function: FunctionIndex, label: LabelIndex) = pair_label_name;

        /// A table's name.
        ///
        /// ```
        /// use wakemiono::{NamePayload, Pair, TableIndex};
        ///
        /// let own = NamePayload::wider(&[0x05, 0x04, 0x01, 0x00, 0x01, 0x74]);
        /// let name = Pair::new(NamePayload::wider(&[]), own).table_name(TableIndex(0))?.unwrap();
        /// assert_eq!(name.into_inner().to_str(), Ok("t"));
        /// # Ok::<(), wakemiono::PairRefusal>(())
        /// ```
        fn table_name(table: TableIndex) = pair_table_name;

        /// A memory's name.
        ///
        /// ```
        /// use wakemiono::{MemoryIndex, NamePayload, Pair};
        ///
        /// let own = NamePayload::wider(&[0x06, 0x04, 0x01, 0x00, 0x01, 0x6D]);
        /// let name = Pair::new(NamePayload::wider(&[]), own).memory_name(MemoryIndex(0))?.unwrap();
        /// assert_eq!(name.into_inner().to_str(), Ok("m"));
        /// # Ok::<(), wakemiono::PairRefusal>(())
        /// ```
        fn memory_name(memory: MemoryIndex) = pair_memory_name;

        /// A global's name.
        ///
        /// ```
        /// use wakemiono::{GlobalIndex, NamePayload, Pair, Whose};
        ///
        /// let separate = NamePayload::wider(&[0x07, 0x04, 0x01, 0x03, 0x01, 0x67]);
        /// let own = NamePayload::wider(&[0x07, 0x04, 0x01, 0x03, 0x01, 0x68]);
        /// let name = Pair::new(separate, own).global_name(GlobalIndex(3))?.unwrap();
        /// assert_eq!((name.whose(), name.into_inner().to_str()), (Whose::Separate, Ok("g")));
        /// # Ok::<(), wakemiono::PairRefusal>(())
        /// ```
        fn global_name(global: GlobalIndex) = pair_global_name;

        /// An element segment's name.
        ///
        /// ```
        /// use wakemiono::{ElementIndex, NamePayload, Pair};
        ///
        /// let own = NamePayload::wider(&[0x08, 0x04, 0x01, 0x01, 0x01, 0x65]);
        /// let name = Pair::new(NamePayload::wider(&[]), own).element_name(ElementIndex(1))?;
        /// assert_eq!(name.unwrap().into_inner().to_str(), Ok("e"));
        /// # Ok::<(), wakemiono::PairRefusal>(())
        /// ```
        fn element_name(element: ElementIndex) = pair_element_name;

        /// A data segment's name.
        ///
        /// ```
        /// use wakemiono::{DataIndex, NamePayload, Pair};
        ///
        /// let own = NamePayload::wider(&[0x09, 0x04, 0x01, 0x01, 0x01, 0x64]);
        /// let name = Pair::new(NamePayload::wider(&[]), own).data_name(DataIndex(1))?.unwrap();
        /// assert_eq!(name.into_inner().to_str(), Ok("d"));
        /// # Ok::<(), wakemiono::PairRefusal>(())
        /// ```
        fn data_name(data: DataIndex) = pair_data_name;
    }
}

impl<'a, E: Edition> Module<'a, E> {
    /// Names that came apart from this module, beside its own: those of its `name` section, which a
    /// stripped module does not have. The payloads are not judged yet.
    ///
    /// ```
    /// use wakemiono::{FunctionIndex, Module, NamePayload, Whose};
    ///
    /// let module = Module::new(b"\0asm\x01\0\0\0\x00\x0B\x04name\x01\x04\x01\x00\x01a");
    /// let separate = NamePayload::new(&[0x01, 0x04, 0x01, 0x03, 0x01, 0x62]);
    /// let pair = module.names_beside(separate)?;
    /// let whose = |function| pair.function_name(FunctionIndex(function));
    /// assert_eq!(whose(0)?.unwrap().whose(), Whose::Own);
    /// assert_eq!(whose(3)?.unwrap().whose(), Whose::Separate);
    /// # Ok::<(), Box<dyn std::error::Error>>(())
    /// ```
    ///
    /// # Errors
    ///
    /// As [`section_count`](Self::section_count).
    pub fn names_beside<'s>(
        &self,
        separate: NamePayload<'s, E>,
    ) -> Result<Pair<'s, 'a, E>, Refusal> {
        let own = self.names()?;
        Ok(Pair::new(
            separate,
            own.unwrap_or(NamePayload::in_edition(&[])),
        ))
    }
}

impl<E: Edition> fmt::Debug for Pair<'_, '_, E> {
    fn fmt(&self, f: &mut fmt::Formatter<'_>) -> fmt::Result {
        write!(f, "Pair({:?} beside {:?})", self.separate, self.own)
    }
}
