//! A module with other names in the place of its own.

use wakemiono::{Edition, Module, Section};

use crate::payloads;
use crate::reader;

/// An accepted module with a payload in the place of the one in its `name` section. The section's size is
/// written in its fewest bytes, and every other byte is as it was. None where there is no such section, or the
/// size would not fit.
pub fn with_names<E: Edition>(module: Module<'_, E>, payload: &[u8]) -> Option<Vec<u8>> {
    let bytes = module.as_bytes();
    let section = name_section(module)?;
    let [at, start] = [section.offset(), section.contents_offset()].map(usize::try_from);
    let (at, end) = (at.ok()?, start.ok()? + section.contents().len());
    // The name of the section, with its own length, is at the front of the contents.
    let name = section.contents().strip_suffix(section.payload()?)?;
    let size = u32::try_from(name.len() + payload.len()).ok()?;
    let parts = [
        &bytes[..=at],
        &reader::number_bytes(size),
        name,
        payload,
        &bytes[end..],
    ];
    Some(parts.concat())
}

/// The section with names of an accepted module, which has one at most.
fn name_section<'a, E: Edition>(module: Module<'a, E>) -> Option<Section<'a>> {
    let is_name = |section: &Section<'_>| {
        let name = section.name();
        name.is_some_and(|name| name.as_bytes() == payloads::NAMES.as_bytes())
    };
    module.sections().ok()?.find(is_name)
}

#[cfg(test)]
mod tests {
    use super::*;

    const PREAMBLE: &[u8] = b"\0asm\x01\0\0\0";

    fn module(sections: &[&[u8]]) -> Vec<u8> {
        [PREAMBLE, &sections.concat()].concat()
    }

    #[test]
    fn all_but_size_and_payload_stay() {
        let (before, after): (&[u8], &[u8]) = (b"\x01\x01\0", b"\0\x04\x02xyz\0\x83\0\x01y-");
        // The size is padded, and so is the length of the section's name, which is no payload.
        let padded = module(&[before, b"\0\x89\x80\0\x84\0nameabc", after]);
        let made = with_names(Module::new(&padded), b"d");
        let shorter = module(&[before, b"\0\x07\x84\0named", after]);
        assert_eq!(made, Some(shorter));
        let emptied = module(&[before, b"\0\x06\x84\0name", after]);
        assert_eq!(with_names(Module::new(&padded), b""), Some(emptied));
    }

    #[test]
    fn a_size_takes_the_bytes_that_it_needs() {
        let payload = [0; 123];
        let made = with_names(Module::new(&module(&[b"\0\x05\x04name"])), &payload);
        let expected = module(&[b"\0\x80\x01\x04name", &payload]);
        assert_eq!(made, Some(expected));
    }

    #[test]
    fn what_has_no_names_has_no_place_for_them() {
        assert_eq!(with_names(Module::new(PREAMBLE), b""), None);
        let others = module(&[b"\x01\x01\0", b"\0\x06\x05named"]);
        assert_eq!(with_names(Module::new(&others), b""), None);
    }
}
