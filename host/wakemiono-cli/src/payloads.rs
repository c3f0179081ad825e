//! The payloads of a module, judged by the library, and their canonical forms.

use wakemiono::{
    CodeOffset, Edition, FunctionIndex, Hints, InstructionOffset, Module, NamePayload, OldHints,
    Refusal,
};

use crate::report::Failure;

/// The name of the section with names.
pub const NAMES: &str = "name";

/// How the names of sections with code metadata begin; the format stands behind it.
pub const METADATA: &str = "metadata.code.";

/// The name of the section with branch hints.
pub const HINTS: &str = "metadata.code.branch_hint";

/// The name of the section with hints of the older edition.
pub const OLD_HINTS: &str = "branchHints";

/// The `name` payload of a module, once it is accepted; none without the section.
///
/// It is judged by a question through the module, so that the offset of a refusal counts from the
/// start of the file that the person has, and not from the start of a payload in it.
pub fn names<E: Edition>(module: Module<'_, E>) -> Result<Option<NamePayload<'_, E>>, Refusal> {
    module.module_name()?;
    module.names()
}

/// The payload of branch hints of a module, judged in the same way; none without the section.
pub fn hints<E: Edition>(module: Module<'_, E>) -> Result<Option<Hints<'_>>, Refusal> {
    module.hint(FunctionIndex(0), CodeOffset(0))?;
    module.hints()
}

/// The payload of hints of the older edition, judged in the same way; none without the section.
pub fn old_hints<E: Edition>(module: Module<'_, E>) -> Result<Option<OldHints<'_>>, Refusal> {
    module.old_hint(FunctionIndex(0), InstructionOffset(0))?;
    module.old_hints()
}

/// The canonical form of an accepted payload. That of no section is empty, since both give none to
/// every question.
pub fn canonical_names<E: Edition>(
    payload: Option<NamePayload<'_, E>>,
) -> Result<Vec<u8>, Failure> {
    let canonical = payload.map(|payload| payload.to_canonical()).transpose();
    // What is accepted is never refused its rewriting.
    canonical
        .map(Option::unwrap_or_default)
        .map_err(|_| Failure::Misfit)
}

/// The canonical form of accepted hints of the older edition. That of no section is the one that has
/// no hints, since both give none to every question.
///
/// # Errors
///
/// A refusal where the canonical form would exceed what a section can hold.
pub fn canonical_old_hints(payload: Option<OldHints<'_>>) -> Result<Vec<u8>, Refusal> {
    const NO_HINTS: [u8; 1] = [0x00];
    payload.map_or_else(|| Ok(NO_HINTS.to_vec()), |payload| payload.to_canonical())
}
