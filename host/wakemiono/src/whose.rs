//! Which of two name payloads an answer or a refusal is of.

use std::error::Error;
use std::fmt;

use crate::{Name, Refusal};

/// Which payload of a [`Pair`](crate::Pair).
///
/// ```
/// use wakemiono::Whose;
///
/// assert_eq!(Whose::Separate.to_string(), "the separate payload");
/// assert_eq!(Whose::Own.to_string(), "the module's own payload");
/// ```
#[derive(Clone, Copy, Debug, PartialEq, Eq, Hash)]
pub enum Whose {
    /// The one that came apart from the module.
    Separate,
    /// The one of the module itself.
    Own,
}

impl fmt::Display for Whose {
    fn fmt(&self, f: &mut fmt::Formatter<'_>) -> fmt::Result {
        f.pad(match self {
            Whose::Separate => "the separate payload",
            Whose::Own => "the module's own payload",
        })
    }
}

/// What one payload of a [`Pair`](crate::Pair) has supplied, be it a name or the contents of a kept
/// subsection. It is borrowed from that payload, and so lives as long as that one does.
///
/// ```
/// use wakemiono::{FunctionIndex, NamePayload, Pair, Supplied};
///
/// let separate = NamePayload::new(&[0x01, 0x04, 0x01, 0x00, 0x01, 0x61]);
/// let own = NamePayload::new(&[0x01, 0x04, 0x01, 0x03, 0x01, 0x62]);
/// let pair = Pair::new(separate, own);
/// match pair.function_name(FunctionIndex(3))? {
///     Some(Supplied::Separate(name)) => println!("{name} came apart from the module"),
///     Some(Supplied::Own(name)) => println!("{name} is the module's own"),
///     None => println!("function 3 has no name"),
/// }
/// # Ok::<(), wakemiono::PairRefusal>(())
/// ```
#[derive(Clone, Copy, Debug, PartialEq, Eq, Hash)]
pub enum Supplied<S, O> {
    /// By the one that came apart from the module.
    Separate(S),
    /// By the one of the module itself.
    Own(O),
}

/// A name that one payload of a pair has supplied.
///
/// ```
/// use wakemiono::{FunctionIndex, NamePayload, Pair, SuppliedName, Whose};
///
/// let (separate, own) = (NamePayload::new(&[0x01, 0x04, 0x01, 0x03, 0x01, 0x66]), NamePayload::new(&[]));
/// let name: Option<SuppliedName> = Pair::new(separate, own).function_name(FunctionIndex(3))?;
/// assert_eq!(name.map(|name| name.whose()), Some(Whose::Separate));
/// # Ok::<(), wakemiono::PairRefusal>(())
/// ```
pub type SuppliedName<'s, 'o> = Supplied<Name<'s>, Name<'o>>;

/// The contents of a kept subsection that one payload of a pair has supplied.
///
/// ```
/// use wakemiono::{NamePayload, Pair, SuppliedBytes, Whose};
///
/// let (separate, own) = (NamePayload::new(&[]), NamePayload::new(&[0x03, 0x01, 0xFF]));
/// let kept: Option<SuppliedBytes> = Pair::new(separate, own).kept(3)?;
/// assert_eq!(kept.map(|kept| kept.into_inner()), Some(&[0xFF][..]));
/// # Ok::<(), wakemiono::PairRefusal>(())
/// ```
pub type SuppliedBytes<'s, 'o> = Supplied<&'s [u8], &'o [u8]>;

impl<S, O> Supplied<S, O> {
    /// Which payload has supplied it.
    ///
    /// ```
    /// use wakemiono::{NamePayload, Pair, Whose};
    ///
    /// let own = NamePayload::new(&[0x00, 0x02, 0x01, 0x6D]);
    /// let name = Pair::new(NamePayload::new(&[]), own).module_name()?.unwrap();
    /// assert_eq!(name.whose(), Whose::Own);
    /// # Ok::<(), wakemiono::PairRefusal>(())
    /// ```
    #[must_use]
    pub const fn whose(&self) -> Whose {
        match self {
            Supplied::Separate(_) => Whose::Separate,
            Supplied::Own(_) => Whose::Own,
        }
    }
}

impl<T> Supplied<T, T> {
    /// What was supplied, whosever it is. It lives as long as both payloads do.
    ///
    /// ```
    /// use wakemiono::{NamePayload, Pair};
    ///
    /// let own = NamePayload::new(&[0x00, 0x02, 0x01, 0x6D]);
    /// let name = Pair::new(NamePayload::new(&[]), own).module_name()?.unwrap();
    /// assert_eq!(name.into_inner().to_str(), Ok("m"));
    /// # Ok::<(), wakemiono::PairRefusal>(())
    /// ```
    #[must_use]
    pub fn into_inner(self) -> T {
        match self {
            Supplied::Separate(it) | Supplied::Own(it) => it,
        }
    }
}

/// Bytes as a name, unchecked, as it is with [`Name`].
///
/// ```
/// use wakemiono::{Supplied, SuppliedName};
///
/// let kept = Supplied::Own(&b"main"[..]);
/// let name = SuppliedName::from(kept);
/// assert_eq!(name.into_inner().as_bytes(), b"main");
/// ```
impl<'s, 'o> From<SuppliedBytes<'s, 'o>> for SuppliedName<'s, 'o> {
    fn from(bytes: SuppliedBytes<'s, 'o>) -> SuppliedName<'s, 'o> {
        match bytes {
            Supplied::Separate(bytes) => Supplied::Separate(bytes.into()),
            Supplied::Own(bytes) => Supplied::Own(bytes.into()),
        }
    }
}

/// The refusal of a [`Pair`](crate::Pair): what is wrong, where, and in which of its payloads. Nothing
/// that was lent has changed.
///
/// ```
/// use wakemiono::{NamePayload, Pair, Whose};
///
/// let separate = NamePayload::new(&[0x00, 0x02, 0x01, 0x61]);
/// let own = NamePayload::new(&[0x01, 0x02, 0x00, 0x00]);
/// let refused = Pair::new(separate, own).module_name().unwrap_err();
/// assert_eq!(refused.whose(), Some(Whose::Own));
/// assert_eq!((refused.refusal().number(), refused.refusal().offset()), (10, 3));
/// assert_eq!(
///     refused.to_string(),
///     "the module's own payload: bytes are left over in a subsection, in metadata or in hints, or \
///      behind imports or bodies: the \
///      first of them stands at byte 0x3 (3)"
/// );
/// ```
#[derive(Clone, Copy, Debug, PartialEq, Eq, Hash)]
pub struct PairRefusal {
    whose: Option<Whose>,
    refusal: Refusal,
}

impl PairRefusal {
    /// The refusal of one of the two payloads.
    pub(crate) const fn of(whose: Whose, refusal: Refusal) -> PairRefusal {
        PairRefusal {
            whose: Some(whose),
            refusal,
        }
    }

    /// The refusal of what would be joined of them.
    pub(crate) const fn of_joined(refusal: Refusal) -> PairRefusal {
        PairRefusal {
            whose: None,
            refusal,
        }
    }

    /// Which payload is refused. A question is refused for one of the two; none is said only where
    /// both are accepted, and their joined payload is too long for a subsection or for the output.
    ///
    /// ```
    /// use wakemiono::{NamePayload, Pair, Reason};
    ///
    /// let one_name = NamePayload::new(&[0x00, 0x02, 0x01, 0x61]);
    /// let refused = Pair::new(one_name, one_name).join_into(&mut []).unwrap_err();
    /// assert_eq!(refused.whose(), None);
    /// assert_eq!(refused.refusal().reason(), Reason::OutputTooShort);
    /// ```
    #[must_use]
    pub const fn whose(&self) -> Option<Whose> {
        self.whose
    }

    /// What is wrong and where. The offset counts from the start of the payload that is refused.
    ///
    /// ```
    /// use wakemiono::{NamePayload, Pair, Reason};
    ///
    /// let cut_short = NamePayload::new(&[0x01, 0x00]);
    /// let refused = Pair::new(cut_short, NamePayload::new(&[])).judge().unwrap_err();
    /// assert_eq!(refused.refusal().reason(), Reason::RunsPast);
    /// assert_eq!(refused.refusal(), cut_short.judge().unwrap_err());
    /// ```
    #[must_use]
    pub const fn refusal(&self) -> Refusal {
        self.refusal
    }
}

/// A sentence that says what is wrong, where, and in which payload.
///
/// ```
/// use wakemiono::{NamePayload, Pair};
///
/// let one_name = NamePayload::new(&[0x00, 0x02, 0x01, 0x61]);
/// let refused = Pair::new(one_name, one_name).join_into(&mut []).unwrap_err();
/// let said = "the joined payload: the output is shorter than needed: the needed length is 4";
/// assert_eq!(refused.to_string(), said);
/// ```
impl fmt::Display for PairRefusal {
    fn fmt(&self, f: &mut fmt::Formatter<'_>) -> fmt::Result {
        match self.whose {
            Some(whose) => write!(f, "{whose}: {}", self.refusal),
            None => write!(f, "the joined payload: {}", self.refusal),
        }
    }
}

/// So that it goes through `?` as any error does.
///
/// ```
/// use std::error::Error;
/// use wakemiono::{NamePayload, Pair};
///
/// fn joined(separate: &[u8], own: &[u8]) -> Result<Vec<u8>, Box<dyn Error>> {
///     Ok(Pair::new(NamePayload::new(separate), NamePayload::new(own)).to_joined()?)
/// }
///
/// assert!(joined(&[], &[0xFF]).unwrap_err().is::<wakemiono::PairRefusal>());
/// ```
impl Error for PairRefusal {}
