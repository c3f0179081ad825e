//! The code metadata payload: its judgement and the questions put to it, for any format and for
//! branch hints.

use crate::answer::{Answer, Kind, Reason, Refusal};
use crate::reading::Part;

/// Judges a metadata payload of any format. Found, where it is accepted: offset 0 and the payload's
/// length.
pub fn metadata_judge(payload: &[u8]) -> Answer {
    judged(payload, Format::Any)
}

/// Judges a payload of branch hints. Found, where it is accepted: offset 0 and the payload's
/// length.
pub fn hints_judge(payload: &[u8]) -> Answer {
    judged(payload, Format::BranchHint)
}

/// The data attached to an offset in a function, in a payload of any format.
pub fn metadata(payload: &[u8], function: u32, offset: u32) -> Answer {
    Answer::of(ask(Part::whole(payload), Format::Any, function, offset))
}

/// The branch hint at an offset in a function.
pub fn hint(payload: &[u8], function: u32, offset: u32) -> Answer {
    Answer::of(ask_hint(Part::whole(payload), function, offset))
}

/// Which rules hold for the data of an item.
#[derive(Clone, Copy, PartialEq, Eq)]
pub(crate) enum Format {
    /// Data of any size, not looked into.
    Any,
    /// One byte, 0 or 1.
    BranchHint,
}

fn judged(payload: &[u8], format: Format) -> Answer {
    let judged = judge(Part::whole(payload), format);
    Answer::counted(judged.map(|()| payload.len() as u64))
}

pub(crate) fn judge(payload: Part<'_>, format: Format) -> Result<(), Refusal> {
    read(payload, format, |_, _, _| {})
}

/// The data of one item. The payload is read to its end, past the answer, so that it is judged
/// whole.
pub(crate) fn ask(
    payload: Part<'_>,
    format: Format,
    function: u32,
    offset: u32,
) -> Result<Option<Part<'_>>, Refusal> {
    let mut found = None;
    read(payload, format, |in_function, at_offset, data| {
        if (in_function, at_offset) == (function, offset) {
            found = Some(data);
        }
    })?;
    Ok(found)
}

pub(crate) fn ask_hint(
    payload: Part<'_>,
    function: u32,
    offset: u32,
) -> Result<Option<Kind>, Refusal> {
    let data = ask(payload, Format::BranchHint, function, offset)?;
    Ok(data.and_then(hint_of))
}

/// The hint that the data of an item gives, or none where it is no hint.
pub(crate) fn hint_of(data: Part<'_>) -> Option<Kind> {
    match data.bytes() {
        [0] => Some(Kind::Unlikely),
        [1] => Some(Kind::Likely),
        _ => None,
    }
}

/// Reads and checks the payload to its end. Every pair of function and offset is met at most once.
pub(crate) fn read<'a>(
    payload: Part<'a>,
    format: Format,
    mut meet: impl FnMut(u32, u32, Part<'a>),
) -> Result<(), Refusal> {
    let mut rest = payload;
    rest.ascending_list(|part, function| {
        part.ascending_list(|part, offset| {
            meet(function, offset, read_data(part, format)?);
            Ok(())
        })
    })?;
    rest.finish()
}

fn read_data<'a>(part: &mut Part<'a>, format: Format) -> Result<Part<'a>, Refusal> {
    let size_at = part.offset();
    let data = part.sized()?;
    if format == Format::BranchHint && hint_of(data).is_none() {
        return Err(Reason::NotAHint.at(size_at));
    }
    Ok(data)
}
