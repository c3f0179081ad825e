//! Function names written from three lists: indices, name lengths, and the text of all names
//! joined.

use std::str;

use crate::answer::{Answer, Reason, Refusal};
use crate::edition::id;
use crate::writing::{number_length, Sink, Writer};

/// Writes a canonical name payload that names the listed functions, and nothing else, at the front
/// of `out`.
///
/// Found: the bytes written as the length. Empty lists give an empty payload.
pub fn function_names_write(
    indices: &[u32],
    lengths: &[u32],
    text: &[u8],
    out: &mut [u8],
) -> Answer {
    Answer::counted(write(indices, lengths, text, out))
}

fn write(indices: &[u32], lengths: &[u32], text: &[u8], out: &mut [u8]) -> Result<u64, Refusal> {
    check_agreement(indices, lengths, text)?;
    check_ascending(indices)?;
    check_names(lengths, text)?;
    let size = contents_size(indices, lengths)?;
    if indices.is_empty() {
        return Ok(0);
    }
    let needed = 1 + number_length(size) + u64::from(size);
    let mut writer = Writer::with_room(out, needed)?;
    writer.byte(id::FUNCTIONS);
    writer.number(size);
    // The count is below the size of the contents, which fits.
    writer.number(indices.len() as u32);
    for (&index, name) in indices.iter().zip(names(lengths, text)) {
        writer.number(index);
        writer.sized(name);
    }
    Ok(writer.written())
}

/// Takes each length away from the text, where adding them up could overflow.
fn check_agreement(indices: &[u32], lengths: &[u32], text: &[u8]) -> Result<(), Refusal> {
    let take = |left: usize, &length: &u32| left.checked_sub(length as usize);
    let left = lengths.iter().try_fold(text.len(), take);
    if indices.len() == lengths.len() && left == Some(0) {
        Ok(())
    } else {
        Err(Reason::ListsDisagree.at(0))
    }
}

fn check_ascending(indices: &[u32]) -> Result<(), Refusal> {
    let above = indices.iter().zip(indices.iter().skip(1));
    for (position, (before, index)) in (1..).zip(above) {
        if index <= before {
            return Err(Reason::NotAscending.at(position));
        }
    }
    Ok(())
}

/// Judges the names one by one: a character cut in two by the lengths is text in neither of them.
fn check_names(lengths: &[u32], text: &[u8]) -> Result<(), Refusal> {
    let mut start = 0;
    for name in names(lengths, text) {
        if str::from_utf8(name).is_err() {
            return Err(Reason::NotUtf8.at(start));
        }
        start += name.len();
    }
    Ok(())
}

/// The names one after the other, for lengths that have been found to agree with the text.
fn names<'a>(lengths: &'a [u32], text: &'a [u8]) -> impl Iterator<Item = &'a [u8]> {
    let mut rest = text;
    lengths.iter().map_while(move |&length| {
        let (name, after) = rest.split_at_checked(length as usize)?;
        rest = after;
        Some(name)
    })
}

/// The size of the subsection's contents: the count and the entries.
fn contents_size(indices: &[u32], lengths: &[u32]) -> Result<u32, Refusal> {
    let too_large = Reason::SubsectionTooLarge.at(0);
    // More entries than a number can count would also be more bytes than one can size.
    let count = u32::try_from(indices.len()).map_err(|_| too_large)?;
    let entry = |(&index, &length): (&u32, &u32)| {
        number_length(index) + number_length(length) + u64::from(length)
    };
    let entries: u64 = indices.iter().zip(lengths).map(entry).sum();
    u32::try_from(number_length(count) + entries).map_err(|_| too_large)
}

#[cfg(test)]
mod tests {
    use super::*;

    /// The count, the index and the length take 1, 1 and 5 bytes.
    const LONGEST: u32 = u32::MAX - 7;

    #[test]
    fn the_greatest_size_is_fine() {
        assert_eq!(contents_size(&[0], &[LONGEST]), Ok(u32::MAX));
    }

    #[test]
    fn one_byte_more_is_too_large() {
        let refusal = Reason::SubsectionTooLarge.at(0);
        assert_eq!(contents_size(&[0], &[LONGEST + 1]), Err(refusal));
        assert_eq!(contents_size(&[0x80], &[LONGEST]), Err(refusal));
        assert_eq!(contents_size(&[0, 1, 2], &[u32::MAX; 3]), Err(refusal));
    }

    #[test]
    fn lengths_beyond_any_text_disagree() {
        let refusal = Reason::ListsDisagree.at(0);
        assert_eq!(
            check_agreement(&[0, 1], &[u32::MAX, 3], b"ab"),
            Err(refusal)
        );
        assert_eq!(
            check_agreement(&[0; 9], &[u32::MAX; 9], b"ab"),
            Err(refusal)
        );
    }
}
