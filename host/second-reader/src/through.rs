//! The questions put through a module: the walk judges it first, then the payload asked is judged
//! where it lies.
//!
//! Offsets count from the module's start, and a module without the section gets none. The calls for
//! names here are those of the first edition.

use crate::answer::{Answer, Kind, Refusal};
use crate::edition::{id, Edition};
use crate::metadata::{self, Format};
use crate::names::{self, Owner};
use crate::reading::Part;
use crate::walk::{payload_of, HINTS, NAMES};

const METADATA_PREFIX: &[u8] = b"metadata.code.";
const BRANCH_HINT: &[u8] = b"branch_hint";

/// The name of the module, asked through the module.
pub fn module_name_in(module: &[u8]) -> Answer {
    asked(module, Edition::First, Owner::Module)
}

/// The name of a function, asked through the module.
pub fn function_name_in(module: &[u8], function: u32) -> Answer {
    let wanted = Owner::Entry(id::FUNCTIONS, function);
    asked(module, Edition::First, wanted)
}

/// The name of a type, asked through the module.
pub fn type_name_in(module: &[u8], type_index: u32) -> Answer {
    let wanted = Owner::Entry(id::TYPES, type_index);
    asked(module, Edition::First, wanted)
}

/// The name of a tag, asked through the module.
pub fn tag_name_in(module: &[u8], tag: u32) -> Answer {
    let wanted = Owner::Entry(id::TAGS, tag);
    asked(module, Edition::First, wanted)
}

/// The name of a local in a function, asked through the module.
pub fn local_name_in(module: &[u8], function: u32, local: u32) -> Answer {
    let wanted = Owner::InGroup(id::LOCALS, function, local);
    asked(module, Edition::First, wanted)
}

/// The name of a field in a type, asked through the module.
pub fn field_name_in(module: &[u8], type_index: u32, field: u32) -> Answer {
    let wanted = Owner::InGroup(id::FIELDS, type_index, field);
    asked(module, Edition::First, wanted)
}

/// The contents of the kept subsection with an id, asked through the module.
pub fn kept_in(module: &[u8], id: u8) -> Answer {
    asked(module, Edition::First, Owner::Kept(id))
}

/// The data at an offset in a function, in the first section `metadata.code.T`, where T is the
/// format.
///
/// Where T is `branch_hint` the payload is judged by the rules for hints.
pub fn metadata_in(module: &[u8], format: &[u8], function: u32, offset: u32) -> Answer {
    Answer::of(ask_metadata(module, format, function, offset))
}

/// The branch hint at an offset in a function, asked through the module.
pub fn hint_in(module: &[u8], function: u32, offset: u32) -> Answer {
    Answer::of(ask_hint(module, function, offset))
}

/// A question for a name, by either edition.
pub(crate) fn asked(module: &[u8], edition: Edition, wanted: Owner) -> Answer {
    Answer::of(ask_names(module, edition, wanted))
}

fn ask_names(module: &[u8], edition: Edition, wanted: Owner) -> Result<Option<Part<'_>>, Refusal> {
    let Some(payload) = payload_of(module, |name| name == NAMES)? else {
        return Ok(None);
    };
    names::ask(payload, edition, wanted)
}

fn ask_metadata<'a>(
    module: &'a [u8],
    format: &[u8],
    function: u32,
    offset: u32,
) -> Result<Option<Part<'a>>, Refusal> {
    let wanted = |name: &[u8]| name.strip_prefix(METADATA_PREFIX) == Some(format);
    let Some(payload) = payload_of(module, wanted)? else {
        return Ok(None);
    };
    let rules = match format {
        BRANCH_HINT => Format::BranchHint,
        _ => Format::Any,
    };
    metadata::ask(payload, rules, function, offset)
}

fn ask_hint(module: &[u8], function: u32, offset: u32) -> Result<Option<Kind>, Refusal> {
    let Some(payload) = payload_of(module, |name| name == HINTS)? else {
        return Ok(None);
    };
    metadata::ask_hint(payload, function, offset)
}
