//! Everything that a payload lists, in one go: the names of a kind, the data or the hints.

use std::fmt;
use std::iter::FusedIterator;
use std::vec;

use crate::ffi::entries::{HintRows, PlaceRows, Rows};
use crate::ffi::{self, Answer};
use crate::{
    CodeOffset, DataIndex, Edition, ElementIndex, FieldIndex, FunctionIndex, GlobalIndex, Hint,
    Hints, InstructionOffset, LabelIndex, LocalIndex, MemoryIndex, Metadata, Name, NamePayload,
    OldHints, Refusal, TableIndex, TagIndex, TypeIndex, Wider,
};

/// All entries of a kind that a payload has, each as a key and its value, in the order of the keys.
///
/// The payload was judged when it was listed, so that there is nothing more to refuse. The entries go
/// straight into a map, or into what takes pairs:
///
/// ```
/// use std::collections::BTreeMap;
/// use wakemiono::{function_names, FunctionIndex, Name, NamePayload};
///
/// let padded = NamePayload::new(&[0x01, 0x85, 0x00, 0x01, 0x03, 0x81, 0x00, 0x66]);
/// let entries = padded.function_names()?;
/// assert_eq!(entries.len(), 1);
/// let by_index: BTreeMap<FunctionIndex, Name> = entries.clone().collect();
/// assert_eq!(by_index[&FunctionIndex(3)].to_str(), Ok("f"));
/// assert_eq!(function_names(entries)?, padded.to_canonical()?);
/// # Ok::<(), wakemiono::Refusal>(())
/// ```
#[derive(Clone)]
pub struct Entries<Key, Value>(vec::IntoIter<(Key, Value)>);

impl<Key, Value> Entries<Key, Value> {
    fn of(entries: Vec<(Key, Value)>) -> Entries<Key, Value> {
        Entries(entries.into_iter())
    }
}

impl<Key, Value> Iterator for Entries<Key, Value> {
    type Item = (Key, Value);

    fn next(&mut self) -> Option<(Key, Value)> {
        self.0.next()
    }

    fn size_hint(&self) -> (usize, Option<usize>) {
        self.0.size_hint()
    }

    fn nth(&mut self, n: usize) -> Option<(Key, Value)> {
        self.0.nth(n)
    }
}

impl<Key, Value> DoubleEndedIterator for Entries<Key, Value> {
    fn next_back(&mut self) -> Option<(Key, Value)> {
        self.0.next_back()
    }
}

impl<Key, Value> ExactSizeIterator for Entries<Key, Value> {}

impl<Key, Value> FusedIterator for Entries<Key, Value> {}

impl<Key, Value> fmt::Debug for Entries<Key, Value> {
    fn fmt(&self, f: &mut fmt::Formatter<'_>) -> fmt::Result {
        write!(f, "Entries({} left)", self.len())
    }
}

/// Fills in all rows of a call. It is asked first how many there are.
fn listed<Filled: Rows>(call: impl Fn(&mut Filled) -> Answer) -> Result<Filled, Refusal> {
    let count = call(&mut Filled::default()).row_count()?;
    let mut rows = Filled::with_room(count);
    if count > 0 {
        call(&mut rows).filled(count)?;
    }
    Ok(rows)
}

impl PlaceRows {
    /// The rows as entries of what was lent.
    fn entries<'a, Key: FromRow, Value: From<&'a [u8]>>(
        self,
        lent: &'a [u8],
    ) -> Entries<Key, Value> {
        let keys = self.firsts.into_iter().zip(self.seconds);
        let places = self.offsets.into_iter().zip(self.lengths);
        let entry = |((first, second), (offset, length))| {
            let part = Answer::found(offset, length).place(lent);
            (Key::from_row(first, second), Value::from(part))
        };
        Entries::of(keys.zip(places).map(entry).collect())
    }
}

impl HintRows {
    fn entries<Key: FromRow>(self) -> Entries<Key, Hint> {
        let keys = self.functions.into_iter().zip(self.offsets);
        let entry = |((function, offset), likely)| {
            let hint = if crate::answer::is_yes(likely) {
                Hint::Likely
            } else {
                Hint::Unlikely
            };
            (Key::from_row(function, offset), hint)
        };
        Entries::of(keys.zip(self.likely).map(entry).collect())
    }
}

/// What the two numbers of a row mean.
trait FromRow {
    fn from_row(first: u32, second: u32) -> Self;
}

/// Two indices, of which the second counts within the first.
impl<Outer: From<u32>, Inner: From<u32>> FromRow for (Outer, Inner) {
    fn from_row(first: u32, second: u32) -> (Outer, Inner) {
        (first.into(), second.into())
    }
}

/// One index, with nothing within it.
macro_rules! alone {
    ($($index:ty),*) => {$(
        impl FromRow for $index {
            fn from_row(first: u32, _: u32) -> $index {
                first.into()
            }
        }
    )*};
}

alone!(
    FunctionIndex,
    TypeIndex,
    TagIndex,
    TableIndex,
    MemoryIndex,
    GlobalIndex,
    ElementIndex,
    DataIndex
);

/// The ids of the subsections.
mod id {
    pub(super) const FUNCTIONS: u8 = 1;
    pub(super) const LOCALS: u8 = 2;
    pub(super) const LABELS: u8 = 3;
    pub(super) const TYPES: u8 = 4;
    pub(super) const TABLES: u8 = 5;
    pub(super) const MEMORIES: u8 = 6;
    pub(super) const GLOBALS: u8 = 7;
    pub(super) const ELEMENTS: u8 = 8;
    pub(super) const DATA: u8 = 9;
    pub(super) const FIELDS: u8 = 10;
    pub(super) const TAGS: u8 = 11;
}

impl<'a, E: Edition> NamePayload<'a, E> {
    /// The names of all functions that have one, by their index.
    ///
    /// ```
    /// use wakemiono::{FunctionIndex, NamePayload};
    ///
    /// let payload = NamePayload::new(&[0x01, 0x07, 0x02, 0x00, 0x01, 0x61, 0x03, 0x01, 0x62]);
    /// let mut names = payload.function_names()?;
    /// assert_eq!(names.len(), 2);
    /// let (first, name) = names.next().unwrap();
    /// assert_eq!((first, name.to_str()), (FunctionIndex(0), Ok("a")));
    /// # Ok::<(), wakemiono::Refusal>(())
    /// ```
    ///
    /// # Errors
    ///
    /// As [`judge`](Self::judge).
    pub fn function_names(&self) -> Result<Entries<FunctionIndex, Name<'a>>, Refusal> {
        self.names_of(id::FUNCTIONS)
    }

    /// The names of all types that have one, by their index.
    ///
    /// ```
    /// use wakemiono::{NamePayload, TypeIndex};
    ///
    /// let payload = NamePayload::new(&[0x04, 0x04, 0x01, 0x02, 0x01, 0x74]);
    /// let mut names = payload.type_names()?;
    /// assert_eq!(names.len(), 1);
    /// let (first, name) = names.next().unwrap();
    /// assert_eq!((first, name.to_str()), (TypeIndex(2), Ok("t")));
    /// # Ok::<(), wakemiono::Refusal>(())
    /// ```
    ///
    /// # Errors
    ///
    /// As [`judge`](Self::judge).
    pub fn type_names(&self) -> Result<Entries<TypeIndex, Name<'a>>, Refusal> {
        self.names_of(id::TYPES)
    }

    /// The names of all tags that have one, by their index.
    ///
    /// ```
    /// use wakemiono::{NamePayload, TagIndex};
    ///
    /// let payload = NamePayload::new(&[0x0B, 0x04, 0x01, 0x00, 0x01, 0x65]);
    /// let mut names = payload.tag_names()?;
    /// assert_eq!(names.len(), 1);
    /// let (first, name) = names.next().unwrap();
    /// assert_eq!((first, name.to_str()), (TagIndex(0), Ok("e")));
    /// # Ok::<(), wakemiono::Refusal>(())
    /// ```
    ///
    /// # Errors
    ///
    /// As [`judge`](Self::judge).
    pub fn tag_names(&self) -> Result<Entries<TagIndex, Name<'a>>, Refusal> {
        self.names_of(id::TAGS)
    }

    /// The names of all locals that have one, by their function and their index in it.
    ///
    /// ```
    /// use wakemiono::{FunctionIndex, LocalIndex, NamePayload};
    ///
    /// let payload = NamePayload::new(&[0x02, 0x06, 0x01, 0x03, 0x01, 0x00, 0x01, 0x78]);
    /// let mut names = payload.local_names()?;
    /// assert_eq!(names.len(), 1);
    /// let (first, name) = names.next().unwrap();
    /// assert_eq!((first, name.to_str()), ((FunctionIndex(3), LocalIndex(0)), Ok("x")));
    /// # Ok::<(), wakemiono::Refusal>(())
    /// ```
    ///
    /// # Errors
    ///
    /// As [`judge`](Self::judge).
    pub fn local_names(&self) -> Result<Entries<(FunctionIndex, LocalIndex), Name<'a>>, Refusal> {
        self.names_of(id::LOCALS)
    }

    /// The names of all fields that have one, by their type and their index in it.
    ///
    /// ```
    /// use wakemiono::{FieldIndex, NamePayload, TypeIndex};
    ///
    /// let payload = NamePayload::new(&[0x0A, 0x06, 0x01, 0x02, 0x01, 0x01, 0x01, 0x66]);
    /// let mut names = payload.field_names()?;
    /// assert_eq!(names.len(), 1);
    /// let (first, name) = names.next().unwrap();
    /// assert_eq!((first, name.to_str()), ((TypeIndex(2), FieldIndex(1)), Ok("f")));
    /// # Ok::<(), wakemiono::Refusal>(())
    /// ```
    ///
    /// # Errors
    ///
    /// As [`judge`](Self::judge).
    pub fn field_names(&self) -> Result<Entries<(TypeIndex, FieldIndex), Name<'a>>, Refusal> {
        self.names_of(id::FIELDS)
    }

    /// The names in the subsection with an id; none without the subsection.
    fn names_of<Key: FromRow>(&self, id: u8) -> Result<Entries<Key, Name<'a>>, Refusal> {
        let rows: PlaceRows = listed(|rows| E::list(self.as_bytes(), id, rows))?;
        Ok(rows.entries(self.as_bytes()))
    }
}

impl<'a> NamePayload<'a, Wider> {
    /// The names of all labels that have one, by their function and their index in it.
    ///
    /// ```
    /// use wakemiono::{FunctionIndex, LabelIndex, NamePayload};
    ///
    /// let payload = NamePayload::wider(&[0x03, 0x06, 0x01, 0x03, 0x01, 0x02, 0x01, 0x6C]);
    /// let mut names = payload.label_names()?;
    /// assert_eq!(names.len(), 1);
    /// let (first, name) = names.next().unwrap();
    /// assert_eq!((first, name.to_str()), ((FunctionIndex(3), LabelIndex(2)), Ok("l")));
    /// # Ok::<(), wakemiono::Refusal>(())
    /// ```
    ///
    /// # Errors
    ///
    /// As [`judge`](Self::judge).
    pub fn label_names(&self) -> Result<Entries<(FunctionIndex, LabelIndex), Name<'a>>, Refusal> {
        self.names_of(id::LABELS)
    }

    /// The names of all tables that have one, by their index.
    ///
    /// ```
    /// use wakemiono::{NamePayload, TableIndex};
    ///
    /// let payload = NamePayload::wider(&[0x05, 0x04, 0x01, 0x00, 0x01, 0x74]);
    /// let mut names = payload.table_names()?;
    /// assert_eq!(names.len(), 1);
    /// let (first, name) = names.next().unwrap();
    /// assert_eq!((first, name.to_str()), (TableIndex(0), Ok("t")));
    /// # Ok::<(), wakemiono::Refusal>(())
    /// ```
    ///
    /// # Errors
    ///
    /// As [`judge`](Self::judge).
    pub fn table_names(&self) -> Result<Entries<TableIndex, Name<'a>>, Refusal> {
        self.names_of(id::TABLES)
    }

    /// The names of all memories that have one, by their index.
    ///
    /// ```
    /// use wakemiono::{MemoryIndex, NamePayload};
    ///
    /// let payload = NamePayload::wider(&[0x06, 0x04, 0x01, 0x00, 0x01, 0x6D]);
    /// let mut names = payload.memory_names()?;
    /// assert_eq!(names.len(), 1);
    /// let (first, name) = names.next().unwrap();
    /// assert_eq!((first, name.to_str()), (MemoryIndex(0), Ok("m")));
    /// # Ok::<(), wakemiono::Refusal>(())
    /// ```
    ///
    /// # Errors
    ///
    /// As [`judge`](Self::judge).
    pub fn memory_names(&self) -> Result<Entries<MemoryIndex, Name<'a>>, Refusal> {
        self.names_of(id::MEMORIES)
    }

    /// The names of all globals that have one, by their index.
    ///
    /// ```
    /// use wakemiono::{GlobalIndex, NamePayload};
    ///
    /// let payload = NamePayload::wider(&[0x07, 0x04, 0x01, 0x03, 0x01, 0x67]);
    /// let mut names = payload.global_names()?;
    /// assert_eq!(names.len(), 1);
    /// let (first, name) = names.next().unwrap();
    /// assert_eq!((first, name.to_str()), (GlobalIndex(3), Ok("g")));
    /// # Ok::<(), wakemiono::Refusal>(())
    /// ```
    ///
    /// # Errors
    ///
    /// As [`judge`](Self::judge).
    pub fn global_names(&self) -> Result<Entries<GlobalIndex, Name<'a>>, Refusal> {
        self.names_of(id::GLOBALS)
    }

    /// The names of all element segments that have one, by their index.
    ///
    /// ```
    /// use wakemiono::{ElementIndex, NamePayload};
    ///
    /// let payload = NamePayload::wider(&[0x08, 0x04, 0x01, 0x01, 0x01, 0x65]);
    /// let mut names = payload.element_names()?;
    /// assert_eq!(names.len(), 1);
    /// let (first, name) = names.next().unwrap();
    /// assert_eq!((first, name.to_str()), (ElementIndex(1), Ok("e")));
    /// # Ok::<(), wakemiono::Refusal>(())
    /// ```
    ///
    /// # Errors
    ///
    /// As [`judge`](Self::judge).
    pub fn element_names(&self) -> Result<Entries<ElementIndex, Name<'a>>, Refusal> {
        self.names_of(id::ELEMENTS)
    }

    /// The names of all data segments that have one, by their index.
    ///
    /// ```
    /// use wakemiono::{DataIndex, NamePayload};
    ///
    /// let payload = NamePayload::wider(&[0x09, 0x04, 0x01, 0x01, 0x01, 0x64]);
    /// let mut names = payload.data_names()?;
    /// assert_eq!(names.len(), 1);
    /// let (first, name) = names.next().unwrap();
    /// assert_eq!((first, name.to_str()), (DataIndex(1), Ok("d")));
    /// # Ok::<(), wakemiono::Refusal>(())
    /// ```
    ///
    /// # Errors
    ///
    /// As [`judge`](Self::judge).
    pub fn data_names(&self) -> Result<Entries<DataIndex, Name<'a>>, Refusal> {
        self.names_of(id::DATA)
    }
}

impl<'a> Metadata<'a> {
    /// The data of all places that have some, by function and place in its code.
    ///
    /// ```
    /// use wakemiono::{CodeOffset, FunctionIndex, Metadata};
    ///
    /// let metadata = Metadata::new(&[0x01, 0x02, 0x02, 0x05, 0x01, 0x61, 0x09, 0x00]);
    /// let all: Vec<_> = metadata.items()?.collect();
    /// let place = |at| (FunctionIndex(2), CodeOffset(at));
    /// assert_eq!(all, [(place(5), &b"a"[..]), (place(9), b"")]);
    /// # Ok::<(), wakemiono::Refusal>(())
    /// ```
    ///
    /// # Errors
    ///
    /// As [`judge`](Self::judge).
    pub fn items(&self) -> Result<Entries<(FunctionIndex, CodeOffset), &'a [u8]>, Refusal> {
        let rows: PlaceRows = listed(|rows| ffi::entries::metadata_list(self.as_bytes(), rows))?;
        Ok(rows.entries(self.as_bytes()))
    }
}

impl Hints<'_> {
    /// All hints, by function and place in its code.
    ///
    /// ```
    /// use wakemiono::{CodeOffset, FunctionIndex, Hint, Hints};
    ///
    /// let hints = Hints::new(&[0x01, 0x02, 0x02, 0x05, 0x01, 0x01, 0x09, 0x01, 0x00]);
    /// let all: Vec<_> = hints.items()?.collect();
    /// let place = |at| (FunctionIndex(2), CodeOffset(at));
    /// assert_eq!(all, [(place(5), Hint::Likely), (place(9), Hint::Unlikely)]);
    /// # Ok::<(), wakemiono::Refusal>(())
    /// ```
    ///
    /// # Errors
    ///
    /// As [`judge`](Self::judge).
    pub fn items(&self) -> Result<Entries<(FunctionIndex, CodeOffset), Hint>, Refusal> {
        let rows: HintRows = listed(|rows| ffi::entries::hints_list(self.as_bytes(), rows))?;
        Ok(rows.entries())
    }
}

impl OldHints<'_> {
    /// All hints, by function and place in its code, each place once and with the hint that
    /// [`hint`](Self::hint) gives: the first in the payload for it.
    ///
    /// ```
    /// use wakemiono::{FunctionIndex, Hint, InstructionOffset, OldHints};
    ///
    /// let falling = OldHints::new(&[0x01, 0x02, 0x00, 0x03, 0x01, 0x09, 0x00, 0x05, 0x00, 0x09]);
    /// let all: Vec<_> = falling.items()?.collect();
    /// let place = |at| (FunctionIndex(2), InstructionOffset(at));
    /// assert_eq!(all, [(place(5), Hint::Unlikely), (place(9), Hint::Likely)]);
    /// # Ok::<(), wakemiono::Refusal>(())
    /// ```
    ///
    /// # Errors
    ///
    /// As [`judge`](Self::judge).
    pub fn items(&self) -> Result<Entries<(FunctionIndex, InstructionOffset), Hint>, Refusal> {
        let rows: HintRows = listed(|rows| ffi::entries::old_hints_list(self.as_bytes(), rows))?;
        Ok(rows.entries())
    }
}
