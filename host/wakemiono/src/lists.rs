//! Function names written from lists.

use crate::{ffi, FunctionIndex, Reason, Refusal};

/// Writes the name payload that gives each listed function its name and names nothing else, to the
/// front of an output, and answers its length. The rest of the output is unchanged.
///
/// The lists are the function indices, which rise; the length of each name in bytes; and the text
/// of all names joined. The payload is canonical; that of empty lists is empty.
///
/// ```
/// use wakemiono::{function_names_into, FunctionIndex};
///
/// let mut out = [0xEE; 12];
/// let functions = [FunctionIndex(0), FunctionIndex(3)];
/// let length = function_names_into(&functions, &[1, 2], b"abc", &mut out)?;
/// assert_eq!(out[..length], [0x01, 0x08, 0x02, 0x00, 0x01, 0x61, 0x03, 0x02, 0x62, 0x63]);
/// assert_eq!(out[length..], [0xEE, 0xEE]);
/// # Ok::<(), wakemiono::Refusal>(())
/// ```
///
/// The lists are not taken for each other:
///
/// ```compile_fail,E0308
/// use wakemiono::{function_names_into, FunctionIndex};
///
/// function_names_into(&[1, 2], &[FunctionIndex(0), FunctionIndex(3)], b"abc", &mut [0; 12]);
/// ```
///
/// # Errors
///
/// In this order: [`ListsDisagree`](Reason::ListsDisagree), [`NotRising`](Reason::NotRising),
/// [`NotText`](Reason::NotText), [`SubsectionTooLong`](Reason::SubsectionTooLong), and
/// [`OutputTooShort`](Reason::OutputTooShort) with the needed length. A refusal leaves the output
/// as it was.
pub fn function_names_into(
    functions: &[FunctionIndex],
    lengths: &[u32],
    text: &[u8],
    out: &mut [u8],
) -> Result<usize, Refusal> {
    ffi::function_names_write(functions, lengths, text, out).written_from_lists(out.len())
}

/// The name payload that gives each listed function its name and names nothing else. The functions
/// are listed in rising order.
///
/// ```
/// use wakemiono::{function_names, FunctionIndex, NamePayload};
///
/// let written = function_names([(FunctionIndex(0), "main"), (FunctionIndex(7), "größe")])?;
/// let payload = NamePayload::new(&written);
/// assert_eq!(payload.function_name(FunctionIndex(7))?.unwrap().to_str(), Ok("größe"));
///
/// let falling = [(FunctionIndex(7), "a"), (FunctionIndex(0), "b")];
/// assert_eq!(
///     function_names(falling).unwrap_err().to_string(),
///     "an index or code offset is not above the one before: its position in the list is 1, \
///      counted from 0"
/// );
/// # Ok::<(), wakemiono::Refusal>(())
/// ```
///
/// # Errors
///
/// As [`function_names_into`], without those of lists that disagree and outputs that are too short.
/// A single name above 4,294,967,295 bytes is [`SubsectionTooLong`](Reason::SubsectionTooLong)
/// before all others, since no list can give its length.
pub fn function_names(
    pairs: impl IntoIterator<Item = (FunctionIndex, impl AsRef<[u8]>)>,
) -> Result<Vec<u8>, Refusal> {
    let (mut functions, mut lengths, mut text) = (Vec::new(), Vec::new(), Vec::new());
    for (function, name) in pairs {
        let name = name.as_ref();
        functions.push(function);
        lengths.push(listed_length(name.len())?);
        text.extend_from_slice(name);
    }
    let needed = match function_names_into(&functions, &lengths, &text, &mut []) {
        Err(refusal) if refusal.reason() == Reason::OutputTooShort => refusal.offset(),
        answer => return answer.map(|_| Vec::new()),
    };
    let needed = usize::try_from(needed).expect("a length of what is in memory is a usize");
    crate::to_vec(needed, |out| {
        function_names_into(&functions, &lengths, &text, out)
    })
}

/// A name's length as the lists give it, or the refusal of a name that no subsection can hold.
fn listed_length(length: usize) -> Result<u32, Refusal> {
    u32::try_from(length).map_err(|_| Refusal::in_lists(Reason::SubsectionTooLong, 0))
}

#[cfg(test)]
mod tests {
    use super::*;

    #[test]
    fn a_name_too_long_for_the_lists_is_refused_and_not_truncated() {
        let most = usize::try_from(u32::MAX).unwrap();
        assert_eq!(listed_length(most), Ok(u32::MAX));
        let refusal = listed_length(most + 1).unwrap_err();
        assert_eq!((refusal.number(), refusal.offset()), (15, 0));
        assert_eq!(
            refusal.to_string(),
            "a subsection, or a payload of older hints, would exceed 4,294,967,295 bytes, or a \
             payload for markers does"
        );
    }
}
