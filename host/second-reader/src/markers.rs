//! Markers of every sixteenth function name, and the quick question that is given them.
//!
//! Markers are made from a payload that is judged by the first edition. The quick question judges
//! nothing: it goes by the lists, whatever they are, once they are such as markers could be.

use crate::answer::{Answer, Reason, Refusal};
use crate::edition::{id, Edition};
use crate::names;
use crate::reading::Part;

/// Of so many entries the first is marked, and so many are read at most from a marker on.
const STEP: usize = 16;

/// The longest payload that has markers: an offset in it is a number of 32 bits.
const LONGEST: u64 = u32::MAX as u64;

/// Writes the function index and the offset of every sixteenth function entry, the first included,
/// at the front of two lists.
///
/// Found: the end of the subsection of function names as the offset, 0 without one, and the count of
/// markers as the length.
pub fn markers(payload: &[u8], indices: &mut [u32], offsets: &mut [u32]) -> Answer {
    make(payload, indices, offsets).unwrap_or_else(Answer::from)
}

/// A function's name, read by lists and an end as markers have them. The payload is not judged.
pub fn quick_function_name(
    payload: &[u8],
    indices: &[u32],
    offsets: &[u32],
    end: u64,
    function: u32,
) -> Answer {
    Answer::of(ask(payload, indices, offsets, end, function))
}

fn make(payload: &[u8], indices: &mut [u32], offsets: &mut [u32]) -> Result<Answer, Refusal> {
    let contents = names::contents(payload, Edition::First, id::FUNCTIONS)?;
    check_length(payload.len() as u64)?;
    let Some(map) = contents else {
        return Ok(Answer::found(0, 0));
    };
    let end = map.offset() + map.bytes().len();
    let marked = marked(map)?;
    if indices.len() < marked.len() || offsets.len() < marked.len() {
        return Err(Reason::OutputTooShort.at(marked.len()));
    }
    for (position, (index, offset)) in marked.iter().enumerate() {
        indices[position] = *index;
        offsets[position] = *offset as u32; // as every offset of so short a payload it fits
    }
    Ok(Answer::found(end as u64, marked.len() as u64))
}

fn check_length(payload_length: u64) -> Result<(), Refusal> {
    if payload_length > LONGEST {
        return Err(Reason::SubsectionTooLarge.at(0));
    }
    Ok(())
}

/// The index and the offset of every sixteenth entry of a map.
fn marked(mut map: Part<'_>) -> Result<Vec<(u32, usize)>, Refusal> {
    let mut marked = Vec::new();
    let count = map.number()? as usize;
    for position in 0..count {
        let start = map.offset();
        let (index, _) = entry(&mut map)?;
        if position % STEP == 0 {
            marked.push((index, start));
        }
    }
    Ok(marked)
}

/// An entry of a name map: its index, and its text, which is not looked at.
fn entry<'a>(rest: &mut Part<'a>) -> Result<(u32, Part<'a>), Refusal> {
    Ok((rest.number()?, rest.sized()?))
}

fn ask<'a>(
    payload: &'a [u8],
    indices: &[u32],
    offsets: &[u32],
    end: u64,
    function: u32,
) -> Result<Option<Part<'a>>, Refusal> {
    check_length(payload.len() as u64)?;
    check_lists(payload, indices, offsets, end)?;
    let not_above = indices.partition_point(|index| *index <= function);
    let Some(last) = not_above.checked_sub(1) else {
        return Ok(None);
    };
    let (start, end) = (offsets[last] as usize, end as usize);
    Ok(first_with(function, Part::after(&payload[..end], start)))
}

/// Refuses what markers never are: first by the lengths of the lists, then by the end, then by the
/// first position at which something is wrong with either list.
fn check_lists(payload: &[u8], indices: &[u32], offsets: &[u32], end: u64) -> Result<(), Refusal> {
    let count = indices.len().min(offsets.len());
    if indices.len() != offsets.len() || end > payload.len() as u64 {
        return Err(Reason::NotMarkers.at(count));
    }
    let rises = |list: &[u32], at: usize| at == 0 || list[at - 1] < list[at];
    for at in 0..count {
        let below_end = u64::from(offsets[at]) < end;
        if !(rises(indices, at) && rises(offsets, at) && below_end) {
            return Err(Reason::NotMarkers.at(at));
        }
    }
    Ok(())
}

/// The text of the first entry with an index, among sixteen at most. What cannot be read ends the
/// search.
fn first_with(function: u32, mut rest: Part<'_>) -> Option<Part<'_>> {
    let mut entries = (0..STEP).map_while(|_| entry(&mut rest).ok());
    let found = entries.find(|(index, _)| *index == function);
    found.map(|(_, text)| text)
}

#[cfg(test)]
mod tests {
    use super::*;

    #[test]
    fn only_a_payload_beyond_offsets_of_32_bits_is_too_long() {
        assert_eq!(check_length(4_294_967_295), Ok(()));
        let refusal = Reason::SubsectionTooLarge.at(0);
        assert_eq!(check_length(4_294_967_296), Err(refusal));
    }
}
