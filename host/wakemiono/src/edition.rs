//! The editions of names.

use crate::ffi::entries::ListCalls;
use crate::ffi::pairs::PairCalls;
use crate::ffi::NameCalls;

/// An edition of names: the subsections of a `name` section that are known and read as names. All
/// other subsections are kept as they are.
///
/// There are two, [`First`] and [`Wider`]. A payload or a module is opened in one of them, and
/// from then on its type says in which. Code that is written for both says so:
///
/// ```
/// use wakemiono::{Edition, NamePayload, Refusal};
///
/// fn same<E: Edition>(a: NamePayload<'_, E>, b: NamePayload<'_, E>) -> Result<bool, Refusal> {
///     Ok(a.to_canonical()? == b.to_canonical()?)
/// }
///
/// let no_globals = [0x07, 0x01, 0x00];
/// assert!(!same(NamePayload::new(&no_globals), NamePayload::new(&[]))?);
/// assert!(same(NamePayload::wider(&no_globals), NamePayload::wider(&[]))?);
/// # Ok::<(), wakemiono::Refusal>(())
/// ```
///
/// and then takes no two editions at once:
///
/// ```compile_fail,E0308
/// use wakemiono::{Edition, NamePayload, Refusal};
///
/// fn same<E: Edition>(a: NamePayload<'_, E>, b: NamePayload<'_, E>) -> Result<bool, Refusal> {
///     Ok(a.to_canonical()? == b.to_canonical()?)
/// }
///
/// same(NamePayload::new(&[]), NamePayload::wider(&[]));
/// ```
pub trait Edition: NameCalls + PairCalls + ListCalls + Copy + Send + Sync + 'static {}

/// The first edition of names. It knows six ids: the module's name (0), functions (1), locals (2),
/// types (4), fields (10) and tags (11).
///
/// It is what a payload or module is opened in where nothing else is said. What only the wider
/// edition has cannot be asked of it:
///
/// ```compile_fail,E0599
/// use wakemiono::{GlobalIndex, NamePayload};
///
/// NamePayload::new(&[]).global_name(GlobalIndex(3));
/// ```
///
/// It has no values, and is only a mark on types.
#[derive(Clone, Copy, Debug, PartialEq, Eq, Hash)]
pub enum First {}

/// The wider edition of names, by the extended name section proposal. It knows twelve ids: those of
/// the first edition, and labels by function (3), tables (5), memories (6), globals (7), element
/// segments (8) and data segments (9).
///
/// ```
/// use wakemiono::{GlobalIndex, NamePayload};
///
/// let bytes = [0x07, 0x04, 0x01, 0x03, 0x01, 0x67];
/// let payload = NamePayload::wider(&bytes);
/// assert_eq!(payload.global_name(GlobalIndex(3))?.unwrap().to_str(), Ok("g"));
/// assert_eq!(payload.kept(7)?, None);
/// assert_eq!(NamePayload::new(&bytes).kept(7)?, Some(&bytes[2..]));
/// # Ok::<(), wakemiono::Refusal>(())
/// ```
///
/// A payload that it accepts is accepted by the first edition too, but not the other way round,
/// and where both refuse, number and offset may differ. Canonical forms are to be compared within
/// one edition only.
///
/// ```
/// use wakemiono::NamePayload;
///
/// let no_map_of_globals = [0x07, 0x01, 0xFF];
/// assert_eq!(NamePayload::new(&no_map_of_globals).judge(), Ok(()));
/// assert!(NamePayload::wider(&no_map_of_globals).judge().is_err());
/// ```
///
/// It has no values, and is only a mark on types.
#[derive(Clone, Copy, Debug, PartialEq, Eq, Hash)]
pub enum Wider {}

impl Edition for First {}

impl Edition for Wider {}
