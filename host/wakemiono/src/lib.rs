//! Wakemiono reads, asks and canonically rewrites the metadata of WebAssembly modules: the framing
//! of sections, the `name` section, and code metadata with branch hints.
//!
//! ```
//! use wakemiono::{FunctionIndex, Module};
//!
//! let bytes = b"\0asm\x01\0\0\0\x00\x0B\x04name\x01\x04\x01\x00\x01a"; // any bytes at all
//! match Module::new(bytes).function_name(FunctionIndex(0)) {
//!     Ok(Some(name)) => println!("function 0 is called {name}"),
//!     Ok(None) => println!("function 0 has no name"),
//!     Err(refusal) => println!("no module of ours: {refusal}"),
//! }
//! ```
//!
//! The answers come from a proved library, of which this crate is the safe side: whole modules are
//! asked through [`Module`], payloads apart from their module through [`NamePayload`], [`Metadata`],
//! [`Hints`] and [`OldHints`], and function names are written by [`function_names`]. Only the steps of
//! [`Sections`] and [`Subsections`] over what the library has accepted are taken here, and the name of a
//! [`Section`].
//!
//! Names are asked in one of two editions. [`Module::new`] and [`NamePayload::new`] open the
//! [`First`]; [`Module::wider`] and [`NamePayload::wider`] open the [`Wider`], which also has the
//! names of labels, tables, memories, globals, element segments and data segments.
//!
//! All names of a kind are listed by [`NamePayload::function_names`] and its likes, all data by
//! [`Metadata::items`] and all hints by [`Hints::items`] and [`OldHints::items`]: each judges the payload
//! first, and gives [`Entries`] to go through.
//!
//! Where a function or a local has no name, [`NamePayload::why_function`] and
//! [`NamePayload::why_local`] say [`Why`], in the first edition.
//!
//! Whoever asks one payload for many function names makes its [`Markers`] once, by
//! [`NamePayload::markers`], and asks [`Markers::quick`] from then on, which reads sixteen entries
//! where [`NamePayload::function_name`] reads all.
//!
//! Names may travel beside a stripped module. [`Module::names_beside`] makes one [`Pair`] of them and
//! the module's own, which has the same questions and can be joined into one payload.
//!
//! Branch hints have two editions as well, which stand in sections of two names and count offsets
//! from two places. A module may carry both: [`Module::hint`] asks the one, with a [`CodeOffset`],
//! and [`Module::old_hint`] the older, with an [`InstructionOffset`].
//!
//! A module that is too large to be held, or is judged while it is uploaded, is given in parts to a
//! [`Stream`], into which [`std::io::copy`] writes. At the finish it says what the walk says of all parts
//! joined, and where the payloads lie.
//!
//! Payloads that many customers have are stored once in a [`SharedTable`]: each [`Customer`] opens them,
//! asks through a [`Hold`] of their own, and sees nothing of the others.
//!
//! - Any bytes may be lent. No call asks a prior check, and bad input gets a [`Refusal`] that says
//!   what is wrong and where.
//! - What is found is borrowed from the very bytes that were lent; [`offset_in`] says where it
//!   lies.
//! - An output is written only by a call that succeeds, at its front; its other bytes are
//!   unchanged. [`SharedTable::open_with`] says when its work buffer is written.
//!
//! The library is linked as the archive `libwakemiono.a`, for x86-64. A call panics where that
//! archive gives an answer that its header does not allow, and so is not the one that belongs here.

#![deny(unsafe_code)]
#![deny(missing_docs)]

mod answer;
mod edition;
mod entries;
#[allow(unsafe_code)]
mod ffi;
mod index;
mod lists;
mod markers;
mod metadata;
mod module;
mod name;
mod name_payload;
mod old_hints;
mod pair;
mod refusal;
mod sections;
mod shared_table;
mod stream;
mod whose;
mod why;
mod wider;

pub use edition::{Edition, First, Wider};
pub use entries::Entries;
pub use index::{
    CodeOffset, Customer, DataIndex, ElementIndex, FieldIndex, FunctionIndex, GlobalIndex, Hold,
    InstructionOffset, LabelIndex, LocalIndex, MemoryIndex, TableIndex, TagIndex, TypeIndex,
};
pub use lists::{function_names, function_names_into};
pub use markers::{Marked, Markers};
pub use metadata::{Hint, Hints, Metadata};
pub use module::Module;
pub use name::Name;
pub use name_payload::NamePayload;
pub use old_hints::OldHints;
pub use pair::Pair;
pub use refusal::{Reason, Refusal};
pub use sections::{Section, Sections, Subsections};
pub use shared_table::SharedTable;
pub use stream::{Place, Stream, Walked};
pub use whose::{PairRefusal, Supplied, SuppliedBytes, SuppliedName, Whose};
pub use why::Why;

/// Where a part that was found lies in the bytes that were lent, as an offset from their start;
/// none for bytes that do not lie there.
///
/// ```
/// use wakemiono::{offset_in, NamePayload};
///
/// let lent = [0x00, 0x02, 0x01, 0x6D];
/// let name = NamePayload::new(&lent).module_name()?.unwrap();
/// assert_eq!(offset_in(&lent, name.as_bytes()), Some(3));
/// assert_eq!(offset_in(&lent, &[0x6D]), None);
/// # Ok::<(), wakemiono::Refusal>(())
/// ```
#[must_use]
pub fn offset_in(lent: &[u8], part: &[u8]) -> Option<usize> {
    let offset = (part.as_ptr() as usize).checked_sub(lent.as_ptr() as usize)?;
    let last = lent.len().checked_sub(part.len())?;
    (offset <= last).then_some(offset)
}

/// What is written into an output of a length that is enough, and no more than that.
fn to_vec<Refused>(
    enough: usize,
    write: impl FnOnce(&mut [u8]) -> Result<usize, Refused>,
) -> Result<Vec<u8>, Refused> {
    let mut out = vec![0; enough];
    let length = write(&mut out)?;
    out.truncate(length);
    Ok(out)
}
