//! The head of a section: its id, its size and, of a custom one, its name.
//!
//! Whether a module is accepted is for the library to say. Here it is only learned where the contents
//! of a section end, and which payloads it has.

use crate::payloads;
use crate::reader::{Reader, LONGEST_NUMBER};

/// The id of custom sections.
pub const CUSTOM: u8 = 0;

/// The id of the section with the list of imports.
pub const IMPORT: u8 = 2;

/// The id of the section with the bodies of functions.
pub const CODE: u8 = 10;

/// No name that is looked for is longer.
const LONGEST_NAME: usize = payloads::HINTS.len();

/// How many bytes of a section's name are shown. A name may be as long as its section, and a module
/// that is read as it arrives is not held.
pub const LONGEST_SHOWN_NAME: usize = 128;

/// How many bytes at the front of custom contents have as much of the name as is shown.
pub const FRONT_WITH_NAME: usize = LONGEST_NUMBER + LONGEST_SHOWN_NAME;

/// A section of a module that is not held.
#[derive(Clone, Copy, Debug, PartialEq, Eq)]
pub struct Section {
    /// The id.
    pub id: u8,
    /// The offset of the id byte in the module.
    pub offset: u64,
    /// The length of the contents, without id and size.
    pub length: u64,
}

/// The name of a custom section, as far as it is shown.
#[derive(Clone, Copy, Debug, PartialEq, Eq)]
pub struct ShownName<'a> {
    /// The name, or its beginning.
    pub text: &'a str,
    /// How many bytes the name has.
    pub length: u32,
}

impl<'a> ShownName<'a> {
    /// The name at the front of the contents of a custom section that is accepted, so that it is text;
    /// none where the bytes are too few.
    pub fn of(front: &'a [u8]) -> Option<ShownName<'a>> {
        let mut reader = Reader(front);
        let length = reader.number()?;
        let shown = LONGEST_SHOWN_NAME.min(length as usize);
        // A character that is cut is not shown.
        let text = reader.0.get(..shown)?.utf8_chunks().next();
        Some(ShownName {
            text: text.map_or("", |chunk| chunk.valid()),
            length,
        })
    }

    /// Whether it is only the beginning.
    pub const fn is_cut(&self) -> bool {
        self.text.len() < self.length as usize
    }
}

/// What the bytes from a section's id on say.
#[derive(Clone, Copy, Debug, PartialEq, Eq)]
pub enum Head<'a> {
    /// Not all that is needed has come.
    Cut,
    /// No module with such a section is accepted.
    Unacceptable,
    /// It is there.
    Whole {
        /// The id.
        id: u8,
        /// How many bytes id and size have; the contents begin behind them.
        before_contents: usize,
        /// The length of the contents.
        length: u32,
        /// The name of a custom section, unless it is longer than those that are looked for.
        name: Option<&'a [u8]>,
    },
}

impl<'a> Head<'a> {
    /// Reads a head. Of a custom section as much of the contents is needed as a name may take.
    pub fn of(bytes: &'a [u8]) -> Head<'a> {
        let mut reader = Reader(bytes);
        let Some(id) = reader.byte() else {
            return Head::Cut;
        };
        let Some(length) = reader.number() else {
            return if bytes.len() > LONGEST_NUMBER {
                Head::Unacceptable
            } else {
                Head::Cut
            };
        };
        let head = |name| Head::Whole {
            id,
            before_contents: bytes.len() - reader.0.len(),
            length,
            name,
        };
        if id != CUSTOM {
            return head(None);
        }
        let of_name = (LONGEST_NUMBER + LONGEST_NAME).min(length as usize);
        match reader.0.get(..of_name) {
            Some(beginning) => match name(beginning, length) {
                Ok(name) => head(name),
                Err(NoName) => Head::Unacceptable,
            },
            None => Head::Cut,
        }
    }
}

/// There is no room for the name of a section in its contents.
struct NoName;

/// The name at the beginning of the contents of a custom section of a length; none where it is too long
/// to be looked for.
fn name(beginning: &[u8], length: u32) -> Result<Option<&[u8]>, NoName> {
    let mut reader = Reader(beginning);
    let name_length = reader.number().ok_or(NoName)? as usize;
    let number_bytes = beginning.len() - reader.0.len();
    if name_length > length as usize - number_bytes {
        return Err(NoName);
    }
    Ok(reader.0.get(..name_length))
}

#[cfg(test)]
mod tests {
    use super::*;

    #[track_caller]
    fn is_whole(bytes: &[u8], id: u8, before_contents: usize, length: u32, name: Option<&[u8]>) {
        let whole = Head::Whole {
            id,
            before_contents,
            length,
            name,
        };
        assert_eq!(Head::of(bytes), whole);
        for cut in 0..before_contents {
            assert_eq!(Head::of(&bytes[..cut]), Head::Cut);
        }
    }

    #[test]
    fn of_sections_that_are_not_custom() {
        is_whole(&[1, 5], 1, 2, 5, None);
        is_whole(&[1, 5, 0], 1, 2, 5, None);
        is_whole(&[10, 0x80, 0x80, 0x80, 0x80, 0x00], 10, 6, 0, None);
        is_whole(&[10, 0xFF, 0xFF, 0xFF, 0xFF, 0x0F], 10, 6, u32::MAX, None);
        let too_large = [10, 0xFF, 0xFF, 0xFF, 0xFF, 0x10];
        assert_eq!(Head::of(&too_large), Head::Unacceptable);
        assert_eq!(Head::of(&too_large[..5]), Head::Cut);
    }

    #[track_caller]
    fn is_shown(name: &str, text: &str) {
        let length = name.len();
        let number = [length as u8 | 0x80, (length >> 7) as u8];
        let contents = [&number, name.as_bytes(), b"\xFF"].concat();
        let front = &contents[..contents.len().min(FRONT_WITH_NAME)];
        let length = length as u32;
        assert_eq!(ShownName::of(front), Some(ShownName { text, length }));
    }

    #[test]
    fn of_names_that_are_shown() {
        is_shown("", "");
        is_shown("größe", "größe");
        let longest = "x".repeat(LONGEST_SHOWN_NAME);
        is_shown(&longest, &longest);
        is_shown(&format!("{longest}x"), &longest);
        // The last character would end behind what is shown.
        is_shown(&format!("{}é", &longest[1..]), &longest[1..]);
        assert_eq!(ShownName::of(b"\x02x"), None);
    }

    #[test]
    fn of_custom_sections() {
        is_whole(b"\0\x03\x01xy", 0, 2, 3, Some(b"x"));
        is_whole(b"\0\x01\x00", 0, 2, 1, Some(b""));
        is_whole(b"\0\x03\x81\x00x", 0, 2, 3, Some(b"x"));
        assert_eq!(Head::of(b"\0\x03\x01x"), Head::Cut);
        for no_name in [&b"\0\x00"[..], b"\0\x01\x01", b"\0\x01\x80", b"\0\x02\x02x"] {
            assert_eq!(Head::of(no_name), Head::Unacceptable, "{no_name:02X?}");
        }
    }

    #[test]
    fn of_custom_sections_with_much_in_them() {
        let begun = |name_length| {
            let mut bytes = vec![0, 0x80, 0x01, name_length];
            bytes.resize(3 + LONGEST_NUMBER + LONGEST_NAME, b'x');
            bytes
        };
        is_whole(&begun(25), 0, 3, 128, Some(&[b'x'; 25]));
        is_whole(&begun(127), 0, 3, 128, None);
        let cut = &begun(25)[..32];
        assert_eq!(Head::of(cut), Head::Cut);
        let mut no_room = begun(127);
        no_room[1] = 0xFF;
        no_room[2] = 0x00;
        assert_eq!(Head::of(&no_room), Head::Unacceptable);
    }
}
